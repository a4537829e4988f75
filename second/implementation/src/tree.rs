//! Total matching (source document 000, Definitions 1 to 3) decided on the pattern's tree: no
//! position sets here. What may still be read after a sequence is a set of *rests*; a rest is a
//! list of parts of the tree to be read one after another (partial derivatives). No pattern has an
//! empty language, so each rest can be completed: a sequence begins a word exactly if it has a rest.

use std::collections::{BTreeMap, BTreeSet, VecDeque};

use crate::limits::{FAIL, MATCH, UNDECIDED};
use crate::pattern::{Node, NodeId, Operator, Pattern};
use crate::property::asks;

/// A part of the tree that is still to be read.
#[derive(Clone, Copy, Debug, PartialEq, Eq, PartialOrd, Ord)]
pub enum Part {
    /// The node, once.
    Once(NodeId),
    /// The node, any number of times.
    Again(NodeId),
}

/// Parts to be read one after another.
pub type Rest = Vec<Part>;
/// Everything that may still be read after some sequence.
pub type Rests = BTreeSet<Rest>;

impl Pattern {
    /// What may be read before any event: the whole pattern.
    pub fn whole(&self) -> Rests {
        BTreeSet::from([vec![Part::Once(self.root)]])
    }

    /// What may be read once `event` has been read first.
    pub fn after(&self, rests: &Rests, event: usize) -> Rests {
        let mut found = Rests::new();
        for rest in rests {
            self.read_in_rest(rest, event, &mut found);
        }
        found
    }

    /// What may be read after a sequence.
    pub fn after_all(&self, sequence: &[usize]) -> Rests {
        sequence.iter().fold(self.whole(), |rests, &event| self.after(&rests, event))
    }

    /// Match if nothing need be read any more, fail if nothing may be, else undecided.
    pub fn verdict_of_rests(&self, rests: &Rests) -> u32 {
        let may_stop = |rest: &Rest| rest.iter().all(|&part| self.may_skip(part));
        if rests.is_empty() {
            FAIL
        } else if rests.iter().any(may_stop) {
            MATCH
        } else {
            UNDECIDED
        }
    }

    /// The total-matching verdict of a sequence.
    pub fn verdict(&self, sequence: &[usize]) -> u32 {
        self.verdict_of_rests(&self.after_all(sequence))
    }

    /// Some one or more of `events` declared events lead from here to a verdict asked for.
    pub fn hopeful(&self, from: &Rests, events: usize) -> bool {
        let mut met = BTreeSet::new();
        let mut waiting = VecDeque::from([from.clone()]);
        while let Some(rests) = waiting.pop_front() {
            for event in 0..events {
                let next = self.after(&rests, event);
                if asks(self.asked, self.verdict_of_rests(&next)) {
                    return true;
                }
                if met.insert(next.clone()) {
                    waiting.push_back(next);
                }
            }
        }
        false
    }

    /// Readings of `event` as the first event of a rest.
    fn read_in_rest(&self, rest: &[Part], event: usize, found: &mut Rests) {
        for (i, &part) in rest.iter().enumerate() {
            self.read_in_part(part, event, &rest[i + 1..], found);
            if !self.may_skip(part) {
                return;
            }
        }
    }

    /// Readings of `event` inside a part, with what comes behind that part.
    fn read_in_part(&self, part: Part, event: usize, behind: &[Part], found: &mut Rests) {
        match part {
            Part::Again(node) => {
                let behind = in_front(&[part], behind);
                self.read_in_part(Part::Once(node), event, &behind, found);
            }
            Part::Once(node) => self.read_in_node(node, event, behind, found),
        }
    }

    fn read_in_node(&self, node: NodeId, event: usize, behind: &[Part], found: &mut Rests) {
        match &self.nodes[node] {
            Node::Epsilon => {}
            Node::Event(named) => {
                if *named == event {
                    found.insert(behind.to_vec());
                }
            }
            Node::Alternative(sequences) => {
                for &sequence in sequences {
                    self.read_in_node(sequence, event, behind, found);
                }
            }
            Node::Sequence(repetitions) => {
                let parts: Rest = repetitions.iter().map(|&node| Part::Once(node)).collect();
                for (i, &repetition) in repetitions.iter().enumerate() {
                    let behind = in_front(&parts[i + 1..], behind);
                    self.read_in_node(repetition, event, &behind, found);
                    if !self.nullable(repetition) {
                        return;
                    }
                }
            }
            Node::Repetition(atom, operators) if operators.is_empty() => {
                self.read_in_node(*atom, event, behind, found);
            }
            // However many operators stand behind it, once begun the atom may come again.
            Node::Repetition(atom, _) => {
                let behind = in_front(&[Part::Again(*atom)], behind);
                self.read_in_node(*atom, event, &behind, found);
            }
        }
    }

    fn may_skip(&self, part: Part) -> bool {
        match part {
            Part::Again(_) => true,
            Part::Once(node) => self.nullable(node),
        }
    }

    /// The empty word is a word of this node.
    pub fn nullable(&self, node: NodeId) -> bool {
        match &self.nodes[node] {
            Node::Epsilon => true,
            Node::Event(_) => false,
            Node::Alternative(sequences) => sequences.iter().any(|&node| self.nullable(node)),
            Node::Sequence(repetitions) => repetitions.iter().all(|&node| self.nullable(node)),
            Node::Repetition(atom, operators) => operators.contains(&Operator::Star) || self.nullable(*atom),
        }
    }
}

fn in_front(parts: &[Part], behind: &[Part]) -> Rest {
    parts.iter().chain(behind).copied().collect()
}

/// Answers about slices, remembered by slice and by what may still be read.
pub struct Slices<'p> {
    pattern: &'p Pattern,
    events: usize,
    judged: BTreeMap<Vec<usize>, (u32, bool)>,
    hope: BTreeMap<Rests, bool>,
}

impl<'p> Slices<'p> {
    pub fn new(pattern: &'p Pattern, events: usize) -> Slices<'p> {
        Slices { pattern, events, judged: BTreeMap::new(), hope: BTreeMap::new() }
    }

    /// The verdict of a slice, and whether it is hopeful.
    pub fn judge(&mut self, slice: &[usize]) -> (u32, bool) {
        if let Some(&answer) = self.judged.get(slice) {
            return answer;
        }
        let rests = self.pattern.after_all(slice);
        let verdict = self.pattern.verdict_of_rests(&rests);
        let (pattern, events) = (self.pattern, self.events);
        let hopeful = *self.hope.entry(rests).or_insert_with_key(|rests| pattern.hopeful(rests, events));
        self.judged.insert(slice.to_vec(), (verdict, hopeful));
        (verdict, hopeful)
    }
}
