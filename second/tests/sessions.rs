//! The step over tables held to the history, and the quick step held to both.

mod common;

use std::collections::BTreeSet;

use common::accepted;
use implementation::combination::Combination;
use implementation::history::{extend_made, History, Judge, Rooms, TableJudge};
use implementation::property::Property;
use implementation::quick::Quick;
use implementation::refusal::Refusal;
use implementation::session::{event, lookup, start, Found, Lent, Marked};
use implementation::tree::Slices;
use makers::random::patterns::bare_property;
use makers::random::rng::Rng;
use makers::random::sessions::binding;

fn lent(rooms: Rooms) -> Lent {
    let (seen, kept, reports) =
        (vec![9; rooms.seen * 4 + 3], vec![9; rooms.kept * 5 + 4], vec![9; rooms.reports * 5 + 1]);
    Lent { seen, kept, reports, seen_count: 0, kept_count: 0 }
}

fn rooms(rng: &mut Rng, most: usize) -> Rooms {
    let room = |rng: &mut Rng| if rng.chance(70) { most } else { rng.below(most) };
    Rooms { seen: room(rng), kept: room(rng), reports: room(rng) }
}

fn reports(lent: &Lent, count: usize) -> Vec<Marked> {
    lent.reports.chunks_exact(5).take(count).map(|row| (Combination::of_row(row), row[4])).collect()
}

/// An event that may be wrong, with few distinct values.
fn any_event(rng: &mut Rng, property: &Property, values: usize) -> (u32, Combination) {
    let event = rng.below(property.events as usize) as u32;
    let mut b = binding(rng, property.sets[event as usize], values);
    if rng.chance(2) {
        b.0[rng.below(4)] = rng.below(2) as u32;
    }
    (if rng.chance(1) { property.events } else { event }, b)
}

/// A session by tables, quickly, and by history, event for event.
fn compare<J: Judge>(rng: &mut Rng, property: &Property, judge: J, events: usize) -> u64 {
    let (most, values) = (*rng.pick(&[4, 12, 40]), rng.between(1, 3));
    let rooms = rooms(rng, most);
    let mut lent = lent(rooms);
    let given = lent.clone();
    let answer = start(property, &mut lent);
    let (mut history, mut quick) = match (History::start(property, judge, rooms), Quick::start(property, rooms)) {
        (Ok(history), Ok(quick)) => (history, quick),
        (history, quick) => {
            assert_eq!((answer, history.err(), quick.err()), (Err(Refusal::NoRoomForKept), answer.err(), answer.err()));
            assert_eq!(lent, given);
            return 0;
        }
    };
    assert_eq!(answer, Ok(()));
    let mut told = 0;
    for _ in 0..events {
        let (number, b) = any_event(rng, property, values);
        let before = lent.clone();
        let answer = event(property, &mut lent, number, &b);
        let wanted = history.offer(number, &b);
        assert_eq!(answer.map(|count| reports(&lent, count)), wanted);
        if number < property.events && b.set() == property.sets[number as usize] {
            assert_eq!(quick.take(number as usize, &b), wanted);
        }
        match answer {
            Ok(count) => {
                told += count as u64;
                assert_eq!(lent.reports[count * 5..], before.reports[count * 5..]);
            }
            Err(_) => assert_eq!(lent, before),
        }
        same_tables(property, &lent, &mut history, &quick);
        look_around(rng, property, &lent, &history, values);
    }
    told
}

/// Both rooms hold what the history says, zeros behind it, and what lies past the room as it was.
fn same_tables<J: Judge>(property: &Property, lent: &Lent, history: &mut History<J>, quick: &Quick) {
    let seen: Vec<Combination> = history.seen().into_iter().collect();
    let state = |c: &Combination| history.slice(c).iter().fold(0, |state, &event| property.step(state, event));
    let mut kept: Vec<Marked> = Vec::new();
    for c in history.made().copied().collect::<Vec<_>>() {
        let state = state(&c);
        kept.push((c, state));
    }
    let hopeful: BTreeSet<Combination> = history.kept().into_iter().collect();
    kept.retain(|(c, _)| hopeful.contains(c));
    assert_eq!((quick.seen(), quick.kept()), (seen.clone(), &kept[..]));
    let (seen_room, kept_room) = (lent.seen_room(), lent.kept_room());
    let mut wanted: Vec<u32> = seen.iter().flat_map(|c| c.0).collect();
    wanted.resize(seen_room * 4, 0);
    wanted.resize(lent.seen.len(), 9);
    assert_eq!((&lent.seen, lent.seen_count as usize), (&wanted, seen.len()));
    let mut wanted: Vec<u32> = kept.iter().flat_map(|(c, state)| c.0.into_iter().chain([*state])).collect();
    wanted.resize(kept_room * 5, 0);
    wanted.resize(lent.kept.len(), 9);
    assert_eq!((&lent.kept, lent.kept_count as usize), (&wanted, kept.len()));
}

/// Lookup of any combination answers its slice's state exactly when that is hopeful.
fn look_around<J: Judge>(rng: &mut Rng, property: &Property, lent: &Lent, history: &History<J>, values: usize) {
    let set = rng.below(1 << property.parameters) as u32;
    let c = binding(rng, set, values + 1);
    let state = history.slice(&c).iter().fold(0, |state, &event| property.step(state, event));
    let wanted = if property.check().unwrap()[state as usize] {
        Found::Kept { state, verdict: property.verdicts[state as usize] }
    } else {
        Found::Hopeless
    };
    assert_eq!(lookup(property, lent, &c), Ok(wanted));
}

#[test]
fn sessions_of_patterns_follow_the_history() {
    let mut rng = Rng::new(21);
    let mut told = 0;
    for _ in 0..4_000 {
        let made = accepted(&mut rng);
        let judge = Slices::new(&made.pattern, made.property.events as usize);
        told += compare(&mut rng, &made.property, judge, 25);
    }
    assert!(told > 5_000, "the sessions tell too little: {told}");
}

#[test]
fn sessions_of_bare_tables_follow_the_history() {
    let mut rng = Rng::new(22);
    for _ in 0..4_000 {
        let property = bare_property(&mut rng);
        let judge = TableJudge { property: &property, hopeful: property.check().unwrap() };
        compare(&mut rng, &property, judge, 25);
    }
}

/// Joins of every pairwise compatible choice of bindings, written down directly.
fn made_by_choosing(bindings: &[Combination]) -> BTreeSet<Combination> {
    let choose = |choice: usize| {
        let chosen: Vec<&Combination> =
            (0..bindings.len()).filter(|i| choice >> i & 1 == 1).map(|i| &bindings[i]).collect();
        let pairwise = chosen.iter().all(|a| chosen.iter().all(|b| a.compatible(b)));
        pairwise.then(|| chosen.iter().fold(Combination::EMPTY, |joined, b| joined.join(b)))
    };
    (0..1usize << bindings.len()).filter_map(choose).collect()
}

#[test]
fn made_is_what_choosing_makes() {
    let mut rng = Rng::new(23);
    for _ in 0..400 {
        let bindings: Vec<Combination> = (0..rng.below(9))
            .map(|_| {
                let set = rng.below(16) as u32;
                binding(&mut rng, set, 2)
            })
            .collect();
        let mut made = BTreeSet::from([Combination::EMPTY]);
        for b in &bindings {
            extend_made(&mut made, b);
        }
        assert_eq!(made, made_by_choosing(&bindings));
    }
}

/// Rooms of the program's size: the quick step held to the step, with rooms that run out.
#[test]
fn large_rooms() {
    let mut rng = Rng::new(24);
    let large = Rooms { seen: 1024, kept: 3000, reports: 3000 };
    for round in 0..6 {
        let made = accepted(&mut rng);
        let property = made.property;
        let mut lent = lent(large);
        start(&property, &mut lent).unwrap();
        let mut quick = Quick::start(&property, large).unwrap();
        for _ in 0..150 {
            let (number, b) = any_event(&mut rng, &property, [7, 30, 200][round % 3]);
            if number >= property.events || b.set() != property.sets[number as usize] {
                continue;
            }
            let answer = event(&property, &mut lent, number, &b);
            assert_eq!(answer.map(|count| reports(&lent, count)), quick.take(number as usize, &b));
        }
    }
}
