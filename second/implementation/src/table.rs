//! Document 01, "The table": the translator. States are sets of positions, numbered as found.

use crate::declarations::Declarations;
use crate::limits::{EVENT_LIMIT, FAIL, MATCH, POSITION_LIMIT, STATE_LIMIT, UNDECIDED};
use crate::pattern::{Node, NodeId, Operator, Pattern};
use crate::property::Property;
use crate::refusal::{Refusal, Refused};

/// A set of numbers 0 to 31: bit i for number i. Number 0 stands for the start.
type Set = u32;
const START: Set = 1;

/// Where readings can be: what the event names of the pattern allow after one another.
struct Positions {
    /// The event named at each position; position 0 names none.
    events: Vec<Option<usize>>,
    /// The positions at which a reading can go on from each position.
    follow: [Set; POSITION_LIMIT + 1],
    /// The positions at which a word can stop, 0 among them if the empty word is one.
    last: Set,
}

/// What a part of the pattern allows: to be skipped, to begin there, to stop there.
struct Part {
    nullable: bool,
    first: Set,
    last: Set,
}

/// The property table for declarations and a pattern text: 1 to 5, 1, 6 to 9, 10.
pub fn translate(declarations: &[u8], text: &[u8]) -> Result<Property, Refused> {
    let declared = Declarations::read(declarations)?;
    let pattern = Pattern::read(&declared, text)?;
    Ok(table(&declared, &pattern)?)
}

/// The property table of an accepted pattern, or 10.
pub fn table(declared: &Declarations, pattern: &Pattern) -> Result<Property, Refusal> {
    let positions = Positions::of(pattern);
    let mut property = Property::EMPTY;
    property.parameters = declared.parameters.len() as u32;
    property.events = declared.events.len() as u32;
    property.asked = pattern.asked;
    for (number, event) in declared.events.iter().enumerate() {
        property.sets[number] = event.set;
    }
    let mut states = vec![START];
    let mut state = 0;
    while state < states.len() {
        property.verdicts[state] = positions.verdict(states[state]);
        for event in 0..declared.events.len() {
            let set = positions.after(states[state], event);
            let next = states.iter().position(|&known| known == set).unwrap_or(states.len());
            if next == STATE_LIMIT {
                return Err(Refusal::TooManyStates);
            }
            if next == states.len() {
                states.push(set);
            }
            property.next[state * EVENT_LIMIT + event] = next as u32;
        }
        state += 1;
    }
    property.states = states.len() as u32;
    Ok(property)
}

impl Positions {
    fn of(pattern: &Pattern) -> Positions {
        let mut positions = Positions { events: vec![None], follow: [0; POSITION_LIMIT + 1], last: 0 };
        let whole = positions.add(pattern, pattern.root);
        positions.follow[0] = whole.first;
        positions.last = whole.last | if whole.nullable { START } else { 0 };
        positions
    }

    /// Numbers the event names of a node from the left and records which follow which inside it.
    fn add(&mut self, pattern: &Pattern, node: NodeId) -> Part {
        match &pattern.nodes[node] {
            Node::Epsilon => Part { nullable: true, first: 0, last: 0 },
            Node::Event(event) => {
                let bit = 1 << self.events.len();
                self.events.push(Some(*event));
                Part { nullable: false, first: bit, last: bit }
            }
            Node::Alternative(sequences) => {
                let mut whole = Part { nullable: false, first: 0, last: 0 };
                for &sequence in sequences {
                    let part = self.add(pattern, sequence);
                    whole.nullable |= part.nullable;
                    whole.first |= part.first;
                    whole.last |= part.last;
                }
                whole
            }
            Node::Sequence(repetitions) => {
                let mut whole = Part { nullable: true, first: 0, last: 0 };
                for &repetition in repetitions {
                    let part = self.add(pattern, repetition);
                    self.link(whole.last, part.first);
                    whole.first |= if whole.nullable { part.first } else { 0 };
                    whole.last = part.last | if part.nullable { whole.last } else { 0 };
                    whole.nullable &= part.nullable;
                }
                whole
            }
            Node::Repetition(atom, operators) => {
                let mut part = self.add(pattern, *atom);
                if !operators.is_empty() {
                    self.link(part.last, part.first);
                }
                part.nullable |= operators.contains(&Operator::Star);
                part
            }
        }
    }

    /// Each of `to` may be read directly after each of `from`.
    fn link(&mut self, from: Set, to: Set) {
        for position in numbers(from) {
            self.follow[position] |= to;
        }
    }

    /// The set after one more event.
    fn after(&self, set: Set, event: usize) -> Set {
        let reach = numbers(set).fold(0, |reach, position| reach | self.follow[position]);
        numbers(reach).filter(|&position| self.events[position] == Some(event)).map(|p| 1 << p).sum()
    }

    fn verdict(&self, set: Set) -> u32 {
        if set == 0 {
            FAIL
        } else if set & self.last != 0 {
            MATCH
        } else {
            UNDECIDED
        }
    }
}

/// The numbers in a set, ascending.
fn numbers(set: Set) -> impl Iterator<Item = usize> {
    (0..=POSITION_LIMIT).filter(move |&number| set >> number & 1 == 1)
}
