//! Document 01, "One event": the calls on lent tables, whatever numbers they hold. There is no
//! history here; the step goes by what was seen and what is kept, as the document words it.

use crate::combination::Combination;
use crate::limits::{KEPT_LIMIT, KEPT_WIDTH, REPORT_WIDTH, SEEN_LIMIT, SEEN_WIDTH};
use crate::property::{Hopeful, Property};
use crate::refusal::Refusal;

/// The tables and the report numbers that a caller lends, and the counts that it gives.
#[derive(Clone, Debug, PartialEq, Eq, Default)]
pub struct Lent {
    pub seen: Vec<u32>,
    pub kept: Vec<u32>,
    pub reports: Vec<u32>,
    pub seen_count: u64,
    pub kept_count: u64,
}

/// A combination and its state, or its verdict.
pub type Marked = (Combination, u32);

/// What lookup answers.
#[derive(Clone, Copy, Debug, PartialEq, Eq)]
pub enum Found {
    /// The join is kept in this state, which has this verdict.
    Kept { state: u32, verdict: u32 },
    /// The join is not kept.
    Hopeless,
}

/// What an event leads to, before any room is asked for.
#[derive(Clone, Debug, PartialEq, Eq, Default)]
pub struct Outcome {
    pub seen: Vec<Combination>,
    pub kept: Vec<Marked>,
    pub reports: Vec<Marked>,
}

impl Lent {
    /// Whole rows lent, no more than the limit.
    pub fn seen_room(&self) -> usize {
        SEEN_LIMIT.min(self.seen.len() / SEEN_WIDTH)
    }

    pub fn kept_room(&self) -> usize {
        KEPT_LIMIT.min(self.kept.len() / KEPT_WIDTH)
    }

    /// Whole rows lent for reports; they have no limit.
    pub fn report_room(&self) -> usize {
        self.reports.len() / REPORT_WIDTH
    }

    /// The seen rows in use; for counts within the room.
    fn seen_rows(&self) -> Vec<Combination> {
        let used = self.seen_count as usize * SEEN_WIDTH;
        self.seen[..used].chunks_exact(SEEN_WIDTH).map(Combination::of_row).collect()
    }

    /// The kept rows in use; for counts within the room.
    fn kept_rows(&self) -> Vec<Marked> {
        let used = self.kept_count as usize * KEPT_WIDTH;
        let marked = |row: &[u32]| (Combination::of_row(row), row[KEPT_WIDTH - 1]);
        self.kept[..used].chunks_exact(KEPT_WIDTH).map(marked).collect()
    }

    /// Puts rows into both rooms; the rows past them are 0, the numbers past the room stay.
    fn write_down(&mut self, seen: &[Combination], kept: &[Marked]) {
        let (seen_end, kept_end) = (self.seen_room() * SEEN_WIDTH, self.kept_room() * KEPT_WIDTH);
        self.seen[..seen_end].fill(0);
        self.kept[..kept_end].fill(0);
        for (row, binding) in self.seen.chunks_exact_mut(SEEN_WIDTH).zip(seen) {
            row.copy_from_slice(&binding.0);
        }
        write_marked(&mut self.kept, kept);
        self.seen_count = seen.len() as u64;
        self.kept_count = kept.len() as u64;
    }
}

/// Puts marked combinations into rows from the first on; other rows stay.
fn write_marked(numbers: &mut [u32], marked: &[Marked]) {
    for (row, (combination, mark)) in numbers.chunks_exact_mut(KEPT_WIDTH).zip(marked) {
        row[..KEPT_WIDTH - 1].copy_from_slice(&combination.0);
        row[KEPT_WIDTH - 1] = *mark;
    }
}

/// The join of all seen bindings that `c` includes.
pub fn join_of_included(seen: &[Combination], c: &Combination) -> Combination {
    let included = seen.iter().filter(|binding| c.includes(binding));
    included.fold(Combination::EMPTY, |joined, binding| joined.join(binding))
}

/// Refusal 12.
pub fn check(property: &Property, hopeful: &Hopeful, lent: &Lent) -> Result<(), Refusal> {
    let counts = lent.seen_count <= lent.seen_room() as u64 && lent.kept_count <= lent.kept_room() as u64;
    if counts && past_counts_are_zero(lent) && seen_is_good(property, lent) && kept_is_good(property, hopeful, lent) {
        Ok(())
    } else {
        Err(Refusal::SessionBroken)
    }
}

fn past_counts_are_zero(lent: &Lent) -> bool {
    let seen = &lent.seen[lent.seen_count as usize * SEEN_WIDTH..lent.seen_room() * SEEN_WIDTH];
    let kept = &lent.kept[lent.kept_count as usize * KEPT_WIDTH..lent.kept_room() * KEPT_WIDTH];
    seen.iter().chain(kept).all(|&number| number == 0)
}

fn seen_is_good(property: &Property, lent: &Lent) -> bool {
    let seen = lent.seen_rows();
    let good = |row: &Combination| !row.is_empty() && !row.exceeds(property.parameters);
    seen.windows(2).all(|pair| pair[0] < pair[1]) && seen.iter().all(good)
}

fn kept_is_good(property: &Property, hopeful: &Hopeful, lent: &Lent) -> bool {
    let (seen, kept) = (lent.seen_rows(), lent.kept_rows());
    let good = |(k, state): &Marked| {
        !k.exceeds(property.parameters)
            && *state < property.states
            && hopeful[*state as usize]
            && join_of_included(&seen, k) == *k
    };
    kept.windows(2).all(|pair| pair[0].0 < pair[1].0) && kept.iter().all(good)
}

/// Clears both rooms and keeps the empty combination in state 0 if that is hopeful: 11, 16.
pub fn start(property: &Property, lent: &mut Lent) -> Result<(), Refusal> {
    let hopeful = property.check()?;
    let kept: &[Marked] = if hopeful[0] { &[(Combination::EMPTY, 0)] } else { &[] };
    if kept.len() > lent.kept_room() {
        return Err(Refusal::NoRoomForKept);
    }
    lent.write_down(&[], kept);
    Ok(())
}

/// One event; answers the number of reports: 11, 12, 13 to 17.
pub fn event(property: &Property, lent: &mut Lent, event: u32, values: &Combination) -> Result<usize, Refusal> {
    let hopeful = property.check()?;
    check(property, &hopeful, lent)?;
    if event >= property.events {
        return Err(Refusal::EventNotDeclared);
    }
    if values.set() != property.sets[event as usize] {
        return Err(Refusal::ValuesNotTheSet);
    }
    take(property, &hopeful, lent, event as usize, values, 0)
}

/// One event of a checked session with its binding; its reports go behind the first `before` report rows.
pub fn take(
    property: &Property,
    hopeful: &Hopeful,
    lent: &mut Lent,
    event: usize,
    b: &Combination,
    before: usize,
) -> Result<usize, Refusal> {
    let outcome = work_out(property, hopeful, &lent.seen_rows(), &lent.kept_rows(), event, b);
    if outcome.seen.len() > lent.seen_room() {
        return Err(Refusal::NoRoomForSeen);
    }
    if outcome.kept.len() > lent.kept_room() {
        return Err(Refusal::NoRoomForKept);
    }
    if outcome.reports.len() > lent.report_room() - before {
        return Err(Refusal::NoRoomForReports);
    }
    lent.write_down(&outcome.seen, &outcome.kept);
    write_marked(&mut lent.reports[before * REPORT_WIDTH..], &outcome.reports);
    Ok(outcome.reports.len())
}

/// "One event", second paragraph, without any room.
pub fn work_out(
    property: &Property,
    hopeful: &Hopeful,
    seen: &[Combination],
    kept: &[Marked],
    event: usize,
    b: &Combination,
) -> Outcome {
    let mut outcome = Outcome::default();
    for (k, state) in kept {
        if !k.includes(b) {
            outcome.kept.push((*k, *state));
        }
        let c = b.join(k);
        if !k.compatible(b) || join_of_included(seen, &c) != *k {
            continue;
        }
        let moved = property.step(*state, event);
        if property.asked_in(moved) {
            outcome.reports.push((c, property.verdicts[moved as usize]));
        }
        if hopeful[moved as usize] {
            outcome.kept.push((c, moved));
        }
    }
    outcome.kept.sort();
    outcome.reports.sort();
    outcome.seen = seen.to_vec();
    if let (false, Err(place)) = (b.is_empty(), seen.binary_search(b)) {
        outcome.seen.insert(place, *b);
    }
    outcome
}

/// What is known of any combination: 11, 12, 23.
pub fn lookup(property: &Property, lent: &Lent, c: &Combination) -> Result<Found, Refusal> {
    let hopeful = property.check()?;
    check(property, &hopeful, lent)?;
    if c.exceeds(property.parameters) {
        return Err(Refusal::LookupPastParameters);
    }
    let joined = join_of_included(&lent.seen_rows(), c);
    let kept = lent.kept_rows();
    Ok(match kept.iter().find(|(k, _)| *k == joined) {
        Some((_, state)) => Found::Kept { state: *state, verdict: property.verdicts[*state as usize] },
        None => Found::Hopeless,
    })
}
