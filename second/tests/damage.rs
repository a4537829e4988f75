//! Damage by one number: good tables are refused 12 after the change for each clause, good property tables 11, and what
//! stands beside the clauses alters no answer. Every change finds a place in some session.

mod common;

use common::accepted;
use implementation::combination::Combination;
use implementation::property::Property;
use implementation::refusal::Refusal;
use implementation::session::{event, lookup, start, Lent};
use makers::random::damage::{PROPERTY_BESIDE, PROPERTY_CLAUSES, SESSION_BESIDE, SESSION_CLAUSES};
use makers::random::patterns::bare_property;
use makers::random::rng::Rng;
use makers::random::sessions::binding;

/// A session after some events, in rooms with a part of a row behind them.
fn session(rng: &mut Rng) -> (Property, Lent) {
    loop {
        let property = if rng.chance(50) { accepted(rng).property } else { bare_property(rng) };
        let (seen, kept, reports) = (vec![7; 12 * 4 + 3], vec![7; 12 * 5 + 2], vec![7; 12 * 5]);
        let mut lent = Lent { seen, kept, reports, seen_count: 0, kept_count: 0 };
        if start(&property, &mut lent).is_err() {
            continue;
        }
        for _ in 0..rng.below(12) {
            let number = rng.below(property.events as usize) as u32;
            let values = binding(rng, property.sets[number as usize], 3);
            let _ = event(&property, &mut lent, number, &values);
        }
        return (property, lent);
    }
}

#[test]
fn each_clause_of_refusal_12() {
    let mut rng = Rng::new(61);
    let (mut broken, mut beside) = ([0; SESSION_CLAUSES.len()], [0; SESSION_BESIDE.len()]);
    for _ in 0..4_000 {
        let (property, good) = session(&mut rng);
        let answer = lookup(&property, &good, &Combination::EMPTY);
        assert!(answer.is_ok());
        for (clause, change) in SESSION_CLAUSES.iter().enumerate() {
            let mut bad = good.clone();
            if change(&mut rng, &property, &mut bad).is_some() {
                broken[clause] += 1;
                let refused = lookup(&property, &bad, &Combination::EMPTY);
                assert_eq!(refused, Err(Refusal::SessionBroken), "clause {clause}: {good:?} {bad:?}");
            }
        }
        for (place, change) in SESSION_BESIDE.iter().enumerate() {
            let mut other = good.clone();
            if change(&mut rng, &property, &mut other).is_some() {
                beside[place] += 1;
                assert_eq!(lookup(&property, &other, &Combination::EMPTY), answer);
            }
        }
    }
    assert!(broken.iter().chain(&beside).all(|&times| times > 300), "{broken:?} {beside:?}");
}

#[test]
fn each_clause_of_refusal_11() {
    let mut rng = Rng::new(62);
    let (mut broken, mut beside) = ([0; PROPERTY_CLAUSES.len()], [0; PROPERTY_BESIDE.len()]);
    for _ in 0..4_000 {
        let good = if rng.chance(50) { accepted(&mut rng).property } else { bare_property(&mut rng) };
        let hopeful = good.check().expect("made to be taken");
        for (clause, change) in PROPERTY_CLAUSES.iter().enumerate() {
            let mut bad = good.clone();
            if change(&mut rng, &mut bad).is_some() {
                broken[clause] += 1;
                assert_eq!(bad.check(), Err(Refusal::PropertyOutOfRange), "clause {clause}: {good:?} {bad:?}");
            }
        }
        for (place, change) in PROPERTY_BESIDE.iter().enumerate() {
            let mut other = good.clone();
            if change(&mut rng, &mut other).is_some() {
                beside[place] += 1;
                assert_eq!(other.check(), Ok(hopeful));
            }
        }
    }
    assert!(broken.iter().chain(&beside).all(|&times| times > 300), "{broken:?} {beside:?}");
}
