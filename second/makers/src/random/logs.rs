//! Random logs: rows and runs into sessions, and whole files for the program.

use crate::random::maker::Maker;
use crate::random::patterns::{any_pattern, bare_property, pattern};
use crate::random::rng::Rng;
use crate::random::sessions::lend;
use crate::random::texts::{any_declarations, any_row, damaged, declarations, log, Declared};
use crate::request::call;

pub fn scene(maker: &mut Maker) {
    if maker.rng.chance(15) {
        watch(maker);
        return;
    }
    let (declared, text) = declarations(&mut maker.rng);
    let pattern = pattern(&mut maker.rng, &declared);
    maker.send(call("declare").bytes(text));
    maker.send(call("pattern").bytes(pattern));
    if maker.rng.chance(3) {
        let property = bare_property(&mut maker.rng);
        maker.send(call("property").property(&property));
    }
    if maker.rng.chance(3) {
        let text = any_declarations(&mut maker.rng);
        maker.send(call("declare").bytes(text));
    }
    lend(maker);
    if maker.rng.chance(97) {
        maker.send(call("start"));
    }
    let values = maker.rng.between(1, 3);
    for _ in 0..maker.rng.between(2, 10) {
        match maker.rng.below(100) {
            0..=54 => row(maker, &declared, values),
            55..=98 => run(maker, &declared, values),
            _ => cut_runs(maker, &declared, values),
        }
    }
}

fn row(maker: &mut Maker, declared: &Declared, values: usize) {
    let row = any_row(&mut maker.rng, declared, values);
    maker.send(call("row").bytes(row));
    if maker.rng.chance(60) {
        let number =
            if maker.rng.chance(10) { maker.rng.odd_long().min(u64::MAX - 1) } else { maker.rng.below(50) as u64 };
        maker.send(call("lines").number(number));
    }
}

fn run(maker: &mut Maker, declared: &Declared, values: usize) {
    let rng = &mut maker.rng;
    let rows = rng.below(8);
    let text = log(rng, declared, rows, values);
    let offset = match rng.below(10) {
        0..=5 => 0,
        6..=8 => rng.below(text.len() + 1) as u64,
        _ => rng.odd_long(),
    };
    let text = if rng.chance(10) { damaged(rng, text) } else { text };
    let budget = budget(rng);
    maker.send(call("run").number(offset).number(budget).bytes(text));
}

/// A number of rows: all, none, one, a few, or any.
fn budget(rng: &mut Rng) -> u64 {
    match rng.below(10) {
        0..=4 => 100,
        5 => 0,
        6 => 1,
        7 => rng.between(2, 5) as u64,
        _ => rng.odd_long(),
    }
}

/// One short log, cut at every length or run from every offset, each run from the same tables.
fn cut_runs(maker: &mut Maker, declared: &Declared, values: usize) {
    let (rows, beginnings) = (maker.rng.between(1, 3), maker.rng.chance(50));
    let mut text = log(&mut maker.rng, declared, rows, values);
    text.truncate(40);
    let good = maker.state.lent.clone();
    for place in 0..=text.len() + 1 {
        let budget = budget(&mut maker.rng);
        let (offset, cut) = if beginnings { (0, place.min(text.len())) } else { (place as u64, text.len()) };
        maker.send(call("run").number(offset).number(budget).bytes(&text[..cut]));
        maker.send(call("seen").number(good.seen_count).list(&good.seen));
        maker.send(call("kept").number(good.kept_count).list(&good.kept));
    }
}

fn watch(maker: &mut Maker) {
    let rng = &mut maker.rng;
    let (declared, text) = declarations(rng);
    let text = if rng.chance(95) { text } else { any_declarations(rng) };
    let pattern = if rng.chance(90) { pattern(rng, &declared) } else { any_pattern(rng, &declared) };
    let (rows, values) = (rng.below(25), rng.between(1, 3));
    let mut whole = declared.header().into_bytes();
    if rng.chance(97) {
        whole.extend(b"\r\n");
    }
    whole.extend(log(rng, &declared, rows, values));
    maker.send(call("watch").bytes(text).bytes(pattern).bytes(whole));
}
