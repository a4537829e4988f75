//! The property table as a value, its check (refusal 11), and which of its states are hopeful.

use crate::declarations::Declarations;
use crate::limits::{ASKED_BOTH, EVENT_LIMIT, STATE_LIMIT, UNDECIDED, VERDICT_LIMIT, WIDTH};
use crate::refusal::Refusal;

/// Numbers of the transitions: one for each state and event that can be.
pub const NEXT_LENGTH: usize = STATE_LIMIT * EVENT_LIMIT;

/// A property table; any numbers may stand in it until it is checked.
#[derive(Clone, Debug, PartialEq, Eq)]
pub struct Property {
    pub parameters: u32,
    pub events: u32,
    pub states: u32,
    /// 1 match, 2 fail, 3 both.
    pub asked: u32,
    /// For each event the set it binds: bit i for parameter i.
    pub sets: [u32; EVENT_LIMIT],
    /// The next state, at state * 16 + event.
    pub next: [u32; NEXT_LENGTH],
    /// For each state 1 match, 2 fail, 0 undecided.
    pub verdicts: [u32; STATE_LIMIT],
}

/// For each state, whether it is hopeful.
pub type Hopeful = [bool; STATE_LIMIT];

/// The verdict is one of those asked for.
pub fn asks(asked: u32, verdict: u32) -> bool {
    verdict != UNDECIDED && verdict <= VERDICT_LIMIT && (asked >> (verdict - 1)) & 1 == 1
}

impl Property {
    /// All numbers 0: refused 11, since it has no event.
    pub const EMPTY: Property = Property {
        parameters: 0,
        events: 0,
        states: 0,
        asked: 0,
        sets: [0; EVENT_LIMIT],
        next: [0; NEXT_LENGTH],
        verdicts: [0; STATE_LIMIT],
    };

    /// Refusal 11, or which states are hopeful. Entries past the counts are not read.
    pub fn check(&self) -> Result<Hopeful, Refusal> {
        let counts = self.parameters as usize <= WIDTH
            && (1..=EVENT_LIMIT).contains(&(self.events as usize))
            && (1..=STATE_LIMIT).contains(&(self.states as usize))
            && (1..=ASKED_BOTH).contains(&self.asked);
        if !counts {
            return Err(Refusal::PropertyOutOfRange);
        }
        let (events, states) = (self.events as usize, self.states as usize);
        let sets = self.sets[..events].iter().all(|&set| set >> self.parameters == 0);
        let verdicts = self.verdicts[..states].iter().all(|&verdict| verdict <= VERDICT_LIMIT);
        let next = (0..states).all(|s| (0..events).all(|e| self.next[s * EVENT_LIMIT + e] < self.states));
        if !(sets && verdicts && next) {
            return Err(Refusal::PropertyOutOfRange);
        }
        Ok(self.hopeful())
    }

    /// The state after an event; for checked tables, states and events.
    pub fn step(&self, state: u32, event: usize) -> u32 {
        self.next[state as usize * EVENT_LIMIT + event]
    }

    /// The verdict of a state is asked for.
    pub fn asked_in(&self, state: u32) -> bool {
        asks(self.asked, self.verdicts[state as usize])
    }

    /// The states from which some one or more events lead to a verdict asked for.
    fn hopeful(&self) -> Hopeful {
        let mut hopeful = [false; STATE_LIMIT];
        loop {
            let mut grown = false;
            for state in 0..self.states {
                let leads = (0..self.events as usize).any(|event| {
                    let next = self.step(state, event);
                    self.asked_in(next) || hopeful[next as usize]
                });
                grown |= leads && !hopeful[state as usize];
                hopeful[state as usize] = leads;
            }
            if !grown {
                return hopeful;
            }
        }
    }

    /// Refusal 25: counts and sets are those of the declarations. For checked tables.
    pub fn agrees(&self, declared: &Declarations) -> Result<(), Refusal> {
        let sets = self.sets[..self.events as usize].iter().copied();
        let same = self.parameters as usize == declared.parameters.len()
            && sets.eq(declared.events.iter().map(|event| event.set));
        if same {
            Ok(())
        } else {
            Err(Refusal::DeclarationsDiffer)
        }
    }
}
