//! Chosen property tables: each clause of refusal 11 broken by one number, and its other side.

use crate::chosen::{EVENTS, PATTERN};
use crate::request::{call, Request};
use implementation::limits::EVENT_LIMIT;
use implementation::property::Property;
use implementation::table::translate;

/// The table of the document's example.
pub fn example() -> Property {
    translate(EVENTS, PATTERN).unwrap_or(Property::EMPTY)
}

/// The example with one change.
pub fn changed(change: impl Fn(&mut Property)) -> Property {
    let mut property = example();
    change(&mut property);
    property
}

/// Tables at an end of every range: taken.
pub fn within() -> Vec<Property> {
    let mut found = vec![
        example(),
        changed(|p| p.asked = 2),
        changed(|p| p.asked = 3),
        changed(|p| p.parameters = 4),
        changed(|p| (p.parameters, p.sets[2]) = (4, 15)),
        changed(|p| (p.parameters, p.sets[0], p.sets[1], p.sets[2]) = (0, 0, 0, 0)),
        changed(|p| p.events = 1),
        changed(|p| p.events = 16),
        changed(|p| p.states = 64),
        changed(|p| p.verdicts[0] = 2),
        changed(|p| p.next[4 * EVENT_LIMIT] = 4),
        // past the counts nothing is read
        changed(|p| p.sets[3] = u32::MAX),
        changed(|p| p.next[3] = u32::MAX),
        changed(|p| p.next[5 * EVENT_LIMIT] = 64),
        changed(|p| p.verdicts[5] = 3),
        // state 0 entered again; a state that is itself a match but leads nowhere
        changed(|p| p.next[EVENT_LIMIT] = 0),
        changed(|p| p.next[2 * EVENT_LIMIT] = 0),
    ];
    let mut one = Property::EMPTY;
    (one.events, one.states, one.asked) = (1, 1, 1);
    found.push(one.clone());
    one.verdicts[0] = 1;
    found.push(one.clone());
    one.asked = 2;
    found.push(one.clone());
    one.verdicts[0] = 2;
    found.push(one);
    // a chain of 64 states whose last one matches, and one whose match is not asked for
    let mut chain = Property::EMPTY;
    (chain.events, chain.states, chain.asked) = (1, 64, 1);
    for state in 0..64 {
        chain.next[state * EVENT_LIMIT] = (state as u32 + 1).min(63);
    }
    chain.verdicts[63] = 1;
    found.push(chain.clone());
    chain.asked = 2;
    found.push(chain.clone());
    (chain.asked, chain.verdicts[63], chain.verdicts[40]) = (3, 0, 2);
    found.push(chain);
    found
}

/// Tables with one number outside its range: refused 11.
pub fn outside() -> Vec<Property> {
    let big = u32::MAX;
    let mut found = vec![
        changed(|p| p.parameters = 5),
        changed(|p| p.parameters = big),
        changed(|p| p.parameters = 1),
        changed(|p| p.parameters = 32),
        changed(|p| p.parameters = 64),
        changed(|p| p.events = 0),
        changed(|p| p.events = 17),
        changed(|p| p.events = big),
        changed(|p| p.states = 0),
        changed(|p| p.states = 65),
        changed(|p| p.states = big),
        changed(|p| p.states = 4),
        changed(|p| p.asked = 0),
        changed(|p| p.asked = 4),
        changed(|p| p.asked = big),
        changed(|p| p.sets[0] = 4),
        changed(|p| p.sets[2] = big),
        changed(|p| p.next[0] = 5),
        changed(|p| p.next[4 * EVENT_LIMIT + 2] = 5),
        changed(|p| p.next[2] = big),
        changed(|p| p.verdicts[0] = 3),
        changed(|p| p.verdicts[4] = 3),
        changed(|p| p.verdicts[2] = big),
        changed(|p| (p.parameters, p.sets[0]) = (4, 16)),
        Property::EMPTY,
    ];
    found.push(changed(|p| (p.events, p.sets[15]) = (16, 4)));
    found.push(changed(|p| (p.states, p.next[63 * EVENT_LIMIT + 2]) = (64, 64)));
    found
}

pub fn checks() -> Vec<Request> {
    within().iter().chain(&outside()).map(|property| call("check").property(property)).collect()
}
