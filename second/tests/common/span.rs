//! The meaning of a pattern written down directly: which parts of a sequence a node can have read.
//! Operators are applied one by one, so `a**` is a star around a star.

use std::collections::BTreeSet;

use implementation::limits::{FAIL, MATCH, UNDECIDED};
use implementation::pattern::{Node, NodeId, Operator, Pattern};

pub struct Span<'a> {
    pub pattern: &'a Pattern,
    pub sequence: &'a [usize],
}

impl Span<'_> {
    /// Match if the sequence is a word, fail if no word begins with it, undecided otherwise.
    pub fn verdict(&self) -> u32 {
        if self.ends(self.pattern.root, 0).contains(&self.sequence.len()) {
            MATCH
        } else if self.begins(self.pattern.root, 0) {
            UNDECIDED
        } else {
            FAIL
        }
    }

    /// The places at which a word of the node that begins at `from` can end.
    fn ends(&self, node: NodeId, from: usize) -> BTreeSet<usize> {
        match &self.pattern.nodes[node] {
            Node::Epsilon => BTreeSet::from([from]),
            Node::Event(event) if self.sequence.get(from) == Some(event) => BTreeSet::from([from + 1]),
            Node::Event(_) => BTreeSet::new(),
            Node::Alternative(parts) => parts.iter().flat_map(|&part| self.ends(part, from)).collect(),
            Node::Sequence(parts) => parts.iter().fold(BTreeSet::from([from]), |places, &part| {
                places.into_iter().flat_map(|place| self.ends(part, place)).collect()
            }),
            Node::Repetition(atom, operators) => self.repeated(*atom, operators, from),
        }
    }

    fn repeated(&self, atom: NodeId, operators: &[Operator], from: usize) -> BTreeSet<usize> {
        let Some((last, inner)) = operators.split_last() else {
            return self.ends(atom, from);
        };
        let mut found = self.repeated(atom, inner, from);
        loop {
            let more: BTreeSet<usize> = found.iter().flat_map(|&place| self.repeated(atom, inner, place)).collect();
            let before = found.len();
            found.extend(more);
            if found.len() == before {
                break;
            }
        }
        if *last == Operator::Star {
            found.insert(from);
        }
        found
    }

    /// Some word of the node begins with what is left of the sequence.
    fn begins(&self, node: NodeId, from: usize) -> bool {
        let length = self.sequence.len();
        if from == length {
            return true; // no node is without a word
        }
        match &self.pattern.nodes[node] {
            Node::Epsilon => false,
            Node::Event(event) => self.sequence[from] == *event && from + 1 == length,
            Node::Alternative(parts) => parts.iter().any(|&part| self.begins(part, from)),
            Node::Sequence(parts) => {
                let mut places = BTreeSet::from([from]);
                for &part in parts {
                    if places.iter().any(|&place| self.begins(part, place)) {
                        return true;
                    }
                    places = places.into_iter().flat_map(|place| self.ends(part, place)).collect();
                }
                false
            }
            Node::Repetition(atom, operators) if operators.is_empty() => self.begins(*atom, from),
            Node::Repetition(atom, _) => {
                let mut places = self.repeated(*atom, &[Operator::Star], from);
                places.insert(from);
                places.iter().any(|&place| self.begins(*atom, place))
            }
        }
    }
}
