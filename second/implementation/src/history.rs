//! The mission's demand 3, decided from the whole history of accepted events: no seen table, no
//! kept table, no step. What is made is joined from the bindings of the history, a slice is picked
//! out of it, and the slice is judged on the pattern's tree or, for a bare table, by running it.

use std::collections::BTreeSet;

use crate::combination::Combination;
use crate::property::{Hopeful, Property};
use crate::refusal::Refusal;
use crate::session::Marked;
use crate::tree::Slices;

/// Judges slices: the verdict, whether one that is asked for, and whether one can still come.
pub trait Judge {
    /// The verdict of a slice and whether one or more further events can lead to one asked for.
    fn judge(&mut self, slice: &[usize]) -> (u32, bool);
}

impl Judge for Slices<'_> {
    fn judge(&mut self, slice: &[usize]) -> (u32, bool) {
        Slices::judge(self, slice)
    }
}

/// A bare property table, run over each slice.
pub struct TableJudge<'p> {
    pub property: &'p Property,
    pub hopeful: Hopeful,
}

impl Judge for TableJudge<'_> {
    fn judge(&mut self, slice: &[usize]) -> (u32, bool) {
        let state = slice.iter().fold(0, |state, &event| self.property.step(state, event));
        (self.property.verdicts[state as usize], self.hopeful[state as usize])
    }
}

/// How many rows of each kind there is room for.
#[derive(Clone, Copy, Debug, PartialEq, Eq)]
pub struct Rooms {
    pub seen: usize,
    pub kept: usize,
    pub reports: usize,
}

/// A session as its accepted events, in order.
pub struct History<'p, J> {
    property: &'p Property,
    judge: J,
    rooms: Rooms,
    events: Vec<(usize, Combination)>,
    /// Combinations made by the history: joins of pairwise compatible bindings, and the empty one.
    made: BTreeSet<Combination>,
}

impl<'p, J: Judge> History<'p, J> {
    /// A fresh start. Of the property only counts, sets and asked verdicts are read here.
    pub fn start(property: &'p Property, judge: J, rooms: Rooms) -> Result<History<'p, J>, Refusal> {
        let made = BTreeSet::from([Combination::EMPTY]);
        let mut history = History { property, judge, rooms, events: Vec::new(), made };
        if history.kept().len() > rooms.kept {
            return Err(Refusal::NoRoomForKept);
        }
        Ok(history)
    }

    /// One event: its reports, or a refusal that leaves the history as it was. 13 to 17.
    pub fn offer(&mut self, event: u32, values: &Combination) -> Result<Vec<Marked>, Refusal> {
        if event >= self.property.events {
            return Err(Refusal::EventNotDeclared);
        }
        if values.set() != self.property.sets[event as usize] {
            return Err(Refusal::ValuesNotTheSet);
        }
        let made_before = self.made.clone();
        self.events.push((event as usize, *values));
        extend_made(&mut self.made, values);
        let answer = self.judge_room(values);
        if answer.is_err() {
            self.events.pop();
            self.made = made_before;
        }
        answer
    }

    /// The reports of the event just put in, unless some count exceeds its room.
    fn judge_room(&mut self, b: &Combination) -> Result<Vec<Marked>, Refusal> {
        if self.seen().len() > self.rooms.seen {
            return Err(Refusal::NoRoomForSeen);
        }
        if self.kept().len() > self.rooms.kept {
            return Err(Refusal::NoRoomForKept);
        }
        let reports = self.reports(b);
        if reports.len() > self.rooms.reports {
            return Err(Refusal::NoRoomForReports);
        }
        Ok(reports)
    }

    /// The distinct non-empty bindings.
    pub fn seen(&self) -> BTreeSet<Combination> {
        self.events.iter().map(|(_, b)| *b).filter(|b| !b.is_empty()).collect()
    }

    /// The accepted events whose binding `c` includes, in order, values removed.
    pub fn slice(&self, c: &Combination) -> Vec<usize> {
        self.events.iter().filter(|(_, b)| c.includes(b)).map(|(event, _)| *event).collect()
    }

    /// The made combinations whose slice can still come to a verdict asked for.
    pub fn kept(&mut self) -> Vec<Combination> {
        let made: Vec<Combination> = self.made.iter().copied().collect();
        made.into_iter().filter(|c| self.judge_slice(c).1).collect()
    }

    /// The made combinations that include `b` and whose slice has a verdict asked for.
    fn reports(&mut self, b: &Combination) -> Vec<Marked> {
        let asked = self.property.asked;
        let made: Vec<Combination> = self.made.iter().filter(|c| c.includes(b)).copied().collect();
        let judged = made.into_iter().map(|c| (c, self.judge_slice(&c).0));
        judged.filter(|(_, verdict)| crate::property::asks(asked, *verdict)).collect()
    }

    pub fn judge_slice(&mut self, c: &Combination) -> (u32, bool) {
        let slice = self.slice(c);
        self.judge.judge(&slice)
    }

    /// Every combination made so far, in order.
    pub fn made(&self) -> impl Iterator<Item = &Combination> {
        self.made.iter()
    }
}

/// Adds what one more binding makes. The join of a pairwise compatible set is compatible with a
/// further binding exactly if each of the set is, so joining it to what was made is enough.
pub fn extend_made(made: &mut BTreeSet<Combination>, b: &Combination) {
    let joined: Vec<Combination> = made.iter().filter(|c| c.compatible(b)).map(|c| c.join(b)).collect();
    made.extend(joined);
}
