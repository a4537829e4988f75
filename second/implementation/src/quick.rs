//! The step of "One event" for long logs. From a fresh start each kept row is the join of the seen
//! rows it includes, so rows that include the binding move where they stand; only a binding never
//! seen before can begin new rows, and at most 1,024 are ever seen. Tests hold it to `session`.

use std::collections::HashSet;

use crate::combination::Combination;
use crate::history::Rooms;
use crate::limits::WIDTH;
use crate::property::{Hopeful, Property};
use crate::refusal::Refusal;
use crate::session::Marked;

pub struct Quick<'p> {
    property: &'p Property,
    hopeful: Hopeful,
    rooms: Rooms,
    seen: HashSet<Combination>,
    /// For each set of parameters, whether some seen row binds exactly it.
    seen_sets: [bool; 1 << WIDTH],
    kept: Vec<Marked>,
}

impl<'p> Quick<'p> {
    pub fn start(property: &'p Property, rooms: Rooms) -> Result<Quick<'p>, Refusal> {
        let hopeful = property.check()?;
        let kept = if hopeful[0] { vec![(Combination::EMPTY, 0)] } else { Vec::new() };
        if kept.len() > rooms.kept {
            return Err(Refusal::NoRoomForKept);
        }
        let (seen, seen_sets) = (HashSet::new(), [false; 1 << WIDTH]);
        Ok(Quick { property, hopeful, rooms, seen, seen_sets, kept })
    }

    /// One event with its binding: its reports in order, 15 to 17.
    pub fn take(&mut self, event: usize, b: &Combination) -> Result<Vec<Marked>, Refusal> {
        let fresh = !b.is_empty() && !self.seen.contains(b);
        if fresh && self.seen.len() >= self.rooms.seen {
            return Err(Refusal::NoRoomForSeen);
        }
        let touched = self.touched(b);
        let freed = touched.iter().filter(|&&row| !self.stays_hopeful(self.kept[row].1, event)).count();
        let begun = if fresh { self.begun(event, b, freed)? } else { Vec::new() };
        let reports = self.reports(event, &touched, &begun);
        if reports.len() > self.rooms.reports {
            return Err(Refusal::NoRoomForReports);
        }
        self.write_down(event, &touched, begun, freed > 0);
        if fresh {
            self.seen.insert(*b);
            self.seen_sets[b.set() as usize] = true;
        }
        Ok(reports)
    }

    /// The kept rows that include `b`: those that move where they stand.
    fn touched(&self, b: &Combination) -> Vec<usize> {
        let bound = b.0.map(|value| if value == 0 { 0 } else { u32::MAX });
        let differs = |k: &Combination| (0..WIDTH).fold(0, |bits, i| bits | (k.0[i] ^ b.0[i]) & bound[i]) != 0;
        (0..self.kept.len()).filter(|&row| !differs(&self.kept[row].0)).collect()
    }

    fn stays_hopeful(&self, state: u32, event: usize) -> bool {
        self.hopeful[self.property.step(state, event) as usize]
    }

    /// The rows that a binding never seen before begins, or 16 as soon as it is certain.
    fn begun(&self, event: usize, b: &Combination, freed: usize) -> Result<Vec<Marked>, Refusal> {
        let mut begun = Vec::new();
        let mut count = self.kept.len() - freed;
        for (k, state) in &self.kept {
            if k.includes(b) || !k.compatible(b) {
                continue;
            }
            let c = b.join(k);
            if self.included_elsewhere(&c, k) {
                continue;
            }
            let moved = self.property.step(*state, event);
            begun.push((c, moved));
            count += usize::from(self.hopeful[moved as usize]);
            if count > self.rooms.kept {
                return Err(Refusal::NoRoomForKept);
            }
        }
        begun.sort_unstable();
        Ok(begun)
    }

    /// Some seen row is included in `c` but not in `k`.
    fn included_elsewhere(&self, c: &Combination, k: &Combination) -> bool {
        let (of_c, of_k) = (c.set(), k.set());
        (1..1u32 << WIDTH).any(|set| {
            self.seen_sets[set as usize] && set & !of_c == 0 && set & !of_k != 0 && self.seen.contains(&part(c, set))
        })
    }

    fn reports(&self, event: usize, touched: &[usize], begun: &[Marked]) -> Vec<Marked> {
        let moved = touched.iter().map(|&row| (self.kept[row].0, self.property.step(self.kept[row].1, event)));
        let asked = moved.chain(begun.iter().copied()).filter(|(_, state)| self.property.asked_in(*state));
        let mut reports: Vec<Marked> = asked.map(|(c, s)| (c, self.property.verdicts[s as usize])).collect();
        if !begun.is_empty() {
            reports.sort_unstable();
        }
        reports
    }

    fn write_down(&mut self, event: usize, touched: &[usize], begun: Vec<Marked>, some_freed: bool) {
        for &row in touched {
            self.kept[row].1 = self.property.step(self.kept[row].1, event);
        }
        let hopeful = &self.hopeful;
        if some_freed {
            self.kept.retain(|(_, state)| hopeful[*state as usize]);
        }
        let before = self.kept.len();
        self.kept.extend(begun.into_iter().filter(|(_, state)| hopeful[*state as usize]));
        if self.kept.len() > before {
            self.kept.sort_unstable();
        }
    }

    pub fn seen(&self) -> Vec<Combination> {
        let mut seen: Vec<Combination> = self.seen.iter().copied().collect();
        seen.sort_unstable();
        seen
    }

    pub fn kept(&self) -> &[Marked] {
        &self.kept
    }
}

/// What `c` binds of a set.
fn part(c: &Combination, set: u32) -> Combination {
    let mut numbers = c.0;
    for (i, number) in numbers.iter_mut().enumerate() {
        if set >> i & 1 == 0 {
            *number = 0;
        }
    }
    Combination(numbers)
}
