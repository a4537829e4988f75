//! Random sessions: few distinct values, small rooms, damage by one number.

use crate::random::damage::{some, PROPERTY_BESIDE, PROPERTY_CLAUSES, SESSION_BESIDE, SESSION_CLAUSES};
use crate::random::maker::Maker;
use crate::random::patterns::{bare_property, damaged_property, pattern};
use crate::random::rng::Rng;
use crate::random::texts::{declarations, value};
use crate::request::call;
use implementation::combination::Combination;
use implementation::limits::{KEPT_WIDTH, REPORT_WIDTH, SEEN_WIDTH, WIDTH};
use implementation::property::Property;
use implementation::session::Lent;

/// A property, tables lent, a start and some calls.
pub fn scene(maker: &mut Maker) {
    set_property(maker);
    lend(maker);
    if maker.rng.chance(95) {
        maker.send(call("start"));
    }
    let values = maker.rng.between(1, 3);
    for _ in 0..maker.rng.between(4, 24) {
        match maker.rng.below(100) {
            0..=67 => event(maker, values),
            68..=83 => lookup(maker, values),
            84..=86 => grow(maker, values),
            87 => maker.send(call("digest")),
            88 => maker.send(call("tables")),
            89..=94 => damage(maker, values),
            95..=96 => damage_property(maker, values),
            _ => maker.send(call("start")),
        }
    }
}

fn set_property(maker: &mut Maker) {
    if maker.rng.chance(65) {
        let (declared, text) = declarations(&mut maker.rng);
        let pattern = pattern(&mut maker.rng, &declared);
        maker.send(call("declare").bytes(text));
        maker.send(call("pattern").bytes(pattern));
        return;
    }
    let property = bare_property(&mut maker.rng);
    let property = if maker.rng.chance(12) { damaged_property(&mut maker.rng, property) } else { property };
    maker.send(call("property").property(&property));
}

/// A number of rows as a number of numbers, sometimes with a part of a row behind them.
fn length(rng: &mut Rng, width: usize) -> u32 {
    let rows = *rng.pick(&[0, 1, 2, 3, 4, 6, 8, 10, 12, 12, 12, 12]);
    let part = if rng.chance(25) { rng.below(width) } else { 0 };
    (rows * width + part) as u32
}

/// Lends small rooms that hold anything: start does not mind.
pub fn lend(maker: &mut Maker) {
    let rng = &mut maker.rng;
    let mut request = call("fill");
    for width in [SEEN_WIDTH, KEPT_WIDTH, REPORT_WIDTH] {
        let length = length(rng, width);
        request = request.number(length).number(*rng.pick(&[0, 7, u32::MAX]));
    }
    maker.send(request);
}

/// The set of an event of any property table.
fn set_of(property: &Property, event: u32) -> u32 {
    property.sets.get(event as usize).copied().unwrap_or(0)
}

/// An event that is for the most part declared, and values that are for the most part its set's.
fn any_event(rng: &mut Rng, property: &Property, values: usize) -> (u32, [u32; WIDTH]) {
    let event = if rng.chance(3) { rng.odd_number() } else { rng.below(property.events.min(16) as usize) as u32 };
    let set = set_of(property, event);
    let mut numbers = [0; WIDTH];
    for (i, number) in numbers.iter_mut().enumerate() {
        if set >> i & 1 == 1 {
            *number = value(rng, values);
        }
        if rng.chance(1) {
            *number = rng.odd_number();
        }
    }
    (event, numbers)
}

fn event(maker: &mut Maker, values: usize) {
    let (event, numbers) = any_event(&mut maker.rng, &maker.state.property, values);
    maker.send(call("event").number(event).numbers(&numbers));
}

/// The same event some times, with values that stay or go up by one.
fn grow(maker: &mut Maker, values: usize) {
    let (event, numbers) = any_event(&mut maker.rng, &maker.state.property, values);
    let times = maker.rng.below(7) as u64;
    let steps = numbers.map(|number| u32::from(number != 0 && number < 1 << 31 && maker.rng.chance(50)));
    maker.send(call("grow").number(times).number(event).numbers(&numbers).numbers(&steps));
}

fn lookup(maker: &mut Maker, values: usize) {
    let (rng, parameters) = (&mut maker.rng, maker.state.property.parameters as usize);
    let mut numbers = [0; WIDTH];
    for (i, number) in numbers.iter_mut().enumerate() {
        if (i < parameters && rng.chance(60)) || rng.chance(2) {
            *number = value(rng, values);
        }
    }
    maker.send(call("lookup").numbers(&numbers));
}

/// Any number of the tables or a count changed; nothing where there is none.
fn change_any(rng: &mut Rng, lent: &mut Lent) {
    match rng.below(6) {
        0 => lent.seen_count = rng.odd_long(),
        1 => lent.kept_count = rng.odd_long(),
        2 => lent.seen_count = lent.seen_count.wrapping_add(1),
        3 => lent.kept_count = lent.kept_count.saturating_sub(1),
        4 if !lent.seen.is_empty() => {
            let place = rng.below(lent.seen.len());
            lent.seen[place] = rng.odd_number();
        }
        5 if !lent.kept.is_empty() => {
            let place = rng.below(lent.kept.len());
            lent.kept[place] = rng.odd_number();
        }
        _ => {}
    }
}

/// The tables with one number changed: a clause of 12, what stands beside them, or any number.
fn changed(rng: &mut Rng, property: &Property, lent: &Lent) -> Lent {
    let mut bad = lent.clone();
    let share = rng.below(10);
    if property.check().is_err() || share < 2 {
        change_any(rng, &mut bad);
    } else if share < 3 {
        some(rng, &SESSION_BESIDE, |rng, change| change(rng, property, &mut bad));
    } else {
        some(rng, &SESSION_CLAUSES, |rng, change| change(rng, property, &mut bad));
    }
    bad
}

/// One number of the tables or a count changed, some calls, and then the tables as they were.
fn damage(maker: &mut Maker, values: usize) {
    let good = maker.state.lent.clone();
    let bad = changed(&mut maker.rng, &maker.state.property, &good);
    maker.send(call("seen").number(bad.seen_count).list(&bad.seen));
    maker.send(call("kept").number(bad.kept_count).list(&bad.kept));
    event(maker, values);
    lookup(maker, values);
    if maker.rng.chance(10) {
        grow(maker, values);
    }
    if maker.rng.chance(10) {
        maker.send(call("start"));
    }
    maker.send(call("seen").number(good.seen_count).list(&good.seen));
    maker.send(call("kept").number(good.kept_count).list(&good.kept));
    maker.send(call("reports").list(&good.reports));
}

/// One number of the property table changed: a clause of 11, or what stands beside them; some calls, and then the table as
/// it was.
fn damage_property(maker: &mut Maker, values: usize) {
    let good = maker.state.property.clone();
    if good.check().is_err() {
        return;
    }
    let (mut bad, rng) = (good.clone(), &mut maker.rng);
    if rng.chance(20) {
        some(rng, &PROPERTY_BESIDE, |rng, change| change(rng, &mut bad));
    } else {
        some(rng, &PROPERTY_CLAUSES, |rng, change| change(rng, &mut bad));
    }
    maker.send(call("property").property(&bad));
    event(maker, values);
    lookup(maker, values);
    if maker.rng.chance(30) {
        maker.send(call("start"));
    }
    maker.send(call("property").property(&good));
}

/// A binding of an event with few distinct values.
pub fn binding(rng: &mut Rng, set: u32, values: usize) -> Combination {
    let mut numbers = [0; WIDTH];
    for (i, number) in numbers.iter_mut().enumerate() {
        if set >> i & 1 == 1 {
            *number = rng.between(1, values) as u32;
        }
    }
    Combination(numbers)
}
