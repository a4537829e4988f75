//! Every input is answered: bytes and numbers without sense into every call, from a fixed seed.
//! Overflow checks are on, so a sum that leaves its range fails here too.

mod common;

use batches::answer::answer_batch;
use common::accepted;
use implementation::combination::Combination;
use implementation::declarations::Declarations;
use implementation::log::{judge_header, row, run};
use implementation::names::{name_by_number, name_by_offset, number_of_name};
use implementation::property::Property;
use implementation::rows::field;
use implementation::session::{event, lookup, start, Lent};
use implementation::table::translate;
use implementation::watch::{watch, Way};
use makers::random::batch::make;
use makers::random::folders::folder;
use makers::random::patterns::{bare_property, damaged_property};
use makers::random::rng::Rng;
use makers::random::texts::{any_declarations, damaged, noise};

fn bytes(rng: &mut Rng, valid: &[u8]) -> Vec<u8> {
    match rng.below(10) {
        0 => noise(rng, 300),
        1 => (0..rng.below(5000)).map(|_| rng.draw() as u8).collect(),
        2..=5 => damaged(rng, valid.to_vec()),
        _ => valid.to_vec(),
    }
}

#[test]
fn files_without_sense() {
    let mut rng = Rng::new(41);
    for _ in 0..12_000 {
        let made = folder(&mut rng, false);
        let files = [made.events, made.pattern, made.log].map(|file| bytes(&mut rng, &file.unwrap_or_default()));
        let mut out = Vec::new();
        watch(Way::ByTables, &files[0], &files[1], &files[2], &mut out).unwrap();
        assert!(out.ends_with(b"\r\n"));
    }
}

#[test]
fn texts_without_sense() {
    let mut rng = Rng::new(42);
    for _ in 0..60_000 {
        let (events, pattern) = (any_declarations(&mut rng), noise(&mut rng, 80));
        let _ = Declarations::read(&events);
        let _ = translate(&events, &pattern);
        let _ = judge_header(&events, &pattern);
        let number = rng.odd_long();
        assert!(field(&pattern, number).len() <= pattern.len());
        assert!(name_by_number(&events, &pattern, number).len() <= events.len());
        assert!(name_by_offset(&events, &pattern, number).len() <= pattern.len());
        let _ = number_of_name(&events, &pattern);
    }
}

/// A property table of any numbers.
fn any_property(rng: &mut Rng) -> Property {
    let mut property = bare_property(rng);
    for _ in 0..rng.below(3) {
        property = damaged_property(rng, property);
    }
    if rng.chance(10) {
        property
            .sets
            .iter_mut()
            .chain(&mut property.next)
            .chain(&mut property.verdicts)
            .for_each(|n| *n = rng.odd_number());
    }
    property
}

fn any_lent(rng: &mut Rng) -> Lent {
    let numbers = |rng: &mut Rng| -> Vec<u32> {
        let zeros = rng.chance(50);
        (0..rng.below(50)).map(|_| if zeros { 0 } else { rng.odd_number() }).collect()
    };
    let (seen, kept, reports) = (numbers(rng), numbers(rng), numbers(rng));
    Lent { seen, kept, reports, seen_count: rng.odd_long(), kept_count: rng.odd_long() }
}

/// Tables of any numbers: a refused call leaves every lent number and both counts as they were.
#[test]
fn tables_without_sense() {
    let mut rng = Rng::new(43);
    for _ in 0..60_000 {
        let (property, mut lent) = (any_property(&mut rng), any_lent(&mut rng));
        if rng.chance(50) {
            let before = lent.clone();
            if start(&property, &mut lent).is_err() {
                assert_eq!(lent, before);
            }
        }
        for _ in 0..4 {
            let values = Combination([0; 4].map(|_: u32| if rng.chance(50) { 0 } else { rng.odd_number() }));
            let before = lent.clone();
            let _ = lookup(&property, &lent, &values);
            let number = rng.odd_number();
            if event(&property, &mut lent, number, &values).is_err() {
                assert_eq!(lent, before);
            }
        }
    }
}

#[test]
fn logs_without_sense() {
    let mut rng = Rng::new(44);
    for _ in 0..5_000 {
        let made = accepted(&mut rng);
        let events = bytes(&mut rng, &made.text);
        let property = if rng.chance(90) { made.property } else { any_property(&mut rng) };
        let mut lent = any_lent(&mut rng);
        if rng.chance(90) {
            let _ = start(&property, &mut lent);
        }
        let log = noise(&mut rng, 200);
        let before = lent.clone();
        if row(&events, &property, &mut lent, &log).is_err() {
            assert_eq!(lent, before);
        }
        let before = lent.clone();
        let (offset, budget) = (rng.odd_long(), rng.odd_long());
        let answer = run(&events, &property, &mut lent, &log, offset, budget);
        if answer.rows == 0 {
            assert_eq!((lent, answer.next), (before, offset));
        }
    }
}

#[test]
fn batches_without_sense() {
    let mut rng = Rng::new(45);
    for seed in 0..300 {
        let kind = *rng.pick(&["texts", "patterns", "sessions", "logs"]);
        let batch = make(kind, seed, 30).unwrap();
        let batch = damaged(&mut rng, batch);
        let _ = answer_batch(&batch);
        let _ = answer_batch(&noise(&mut rng, 100));
    }
}
