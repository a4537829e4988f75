//! Damage by one number: each clause of refusals 11 and 12 in document 01's list, and what stands beside it untouched.
//! A change answers nothing where the tables at hand have no place for it.

use crate::random::rng::Rng;
use implementation::combination::Combination;
use implementation::limits::{ASKED_BOTH, EVENT_LIMIT, KEPT_WIDTH, SEEN_WIDTH, STATE_LIMIT, VERDICT_LIMIT, WIDTH};
use implementation::property::Property;
use implementation::session::{join_of_included, Lent};

/// A change of one number of the lent tables or their counts.
pub type SessionChange = fn(&mut Rng, &Property, &mut Lent) -> Option<()>;

/// A change of one number of a property table.
pub type PropertyChange = fn(&mut Rng, &mut Property) -> Option<()>;

/// Clauses of refusal 12, in the document's order. Tables that were good are refused after each.
pub const SESSION_CLAUSES: [SessionChange; 15] = [
    seen_count_over_the_room,
    kept_count_over_the_room,
    seen_not_ascending,
    kept_not_ascending,
    empty_seen_row,
    seen_past_parameters,
    kept_past_parameters,
    state_out_of_range,
    state_not_hopeful,
    kept_not_a_join,
    kept_without_its_seen,
    seen_number_past_count,
    kept_number_past_count,
    seen_row_past_count,
    kept_row_past_count,
];

/// Numbers that refusal 12 does not ask about. Tables that were good stay so.
pub const SESSION_BESIDE: [SessionChange; 2] = [seen_past_the_room, kept_past_the_room];

/// Clauses of refusal 11, in the document's order. A table that was taken is refused after each.
pub const PROPERTY_CLAUSES: [PropertyChange; 11] = [
    |rng, p| put(&mut p.parameters, over(rng, WIDTH)),
    |_, p| put(&mut p.events, 0),
    |rng, p| put(&mut p.events, over(rng, EVENT_LIMIT)),
    |_, p| put(&mut p.states, 0),
    |rng, p| put(&mut p.states, over(rng, STATE_LIMIT)),
    |rng, p| put(&mut p.asked, over(rng, ASKED_BOTH as usize)),
    set_outside,
    parameters_below_a_set,
    next_state_outside,
    verdict_outside,
    |_, p| put(&mut p.asked, 0),
];

/// Numbers past the counts, which are not read. A table that was taken stays so.
pub const PROPERTY_BESIDE: [PropertyChange; 3] = [
    |rng, p| past(rng, &mut p.sets, p.events as usize),
    |rng, p| {
        let place = rng.between(p.states as usize, STATE_LIMIT) * EVENT_LIMIT;
        past(rng, &mut p.next, place)
    },
    |rng, p| past(rng, &mut p.verdicts, p.states as usize),
];

/// Tries the changes from a random one on, until one finds a place; false if none does.
pub fn some<T: Copy>(rng: &mut Rng, changes: &[T], mut apply: impl FnMut(&mut Rng, T) -> Option<()>) -> bool {
    let first = rng.below(changes.len());
    let (before, from) = changes.split_at(first);
    from.iter().chain(before).any(|&change| apply(rng, change).is_some())
}

fn put(number: &mut u32, value: u32) -> Option<()> {
    *number = value;
    Some(())
}

/// A number over a limit: the next one, or any.
fn over(rng: &mut Rng, limit: usize) -> u32 {
    let next = limit as u32 + 1;
    *rng.pick(&[next, next, next + 1, 256, 1 << 31, u32::MAX])
}

/// A number other than 0.
fn not_zero(rng: &mut Rng) -> u32 {
    rng.odd_number().max(1)
}

/// A number below a limit, if there is one.
fn below(rng: &mut Rng, limit: usize) -> Option<usize> {
    (limit > 0).then(|| rng.below(limit))
}

/// One of some, if there is one.
fn one_of<T: Copy>(rng: &mut Rng, from: &[T]) -> Option<T> {
    (!from.is_empty()).then(|| *rng.pick(from))
}

/// Any number at a place from here on, if there is one.
fn past(rng: &mut Rng, numbers: &mut [u32], from: usize) -> Option<()> {
    let place = from + below(rng, numbers.len().checked_sub(from)?)?;
    put(&mut numbers[place], not_zero(rng))
}

fn set_outside(rng: &mut Rng, p: &mut Property) -> Option<()> {
    let event = below(rng, p.events as usize)?;
    let bit = 1 << p.parameters;
    let value = *rng.pick(&[bit, bit, bit | p.sets[event], bit << 1, 256, u32::MAX]);
    put(&mut p.sets[event], value)
}

/// Fewer parameters than an event binds.
fn parameters_below_a_set(rng: &mut Rng, p: &mut Property) -> Option<()> {
    let largest = p.sets[..p.events as usize].iter().max()?;
    let needed = u32::BITS - largest.leading_zeros();
    put(&mut p.parameters, below(rng, needed as usize)? as u32)
}

fn next_state_outside(rng: &mut Rng, p: &mut Property) -> Option<()> {
    let (state, event) = (below(rng, p.states as usize)?, below(rng, p.events as usize)?);
    let value = *rng.pick(&[p.states, p.states, p.states + 1, 64, 255, 256, u32::MAX]);
    put(&mut p.next[state * EVENT_LIMIT + event], value.max(p.states))
}

fn verdict_outside(rng: &mut Rng, p: &mut Property) -> Option<()> {
    let state = below(rng, p.states as usize)?;
    put(&mut p.verdicts[state], over(rng, VERDICT_LIMIT as usize))
}

/// A count over a room: the next one, or any.
fn long_over(rng: &mut Rng, room: usize) -> u64 {
    let next = room as u64 + 1;
    *rng.pick(&[next, next, next + 1, 1 << 32, (1 << 32) + 1, u64::MAX])
}

fn seen_count_over_the_room(rng: &mut Rng, _: &Property, lent: &mut Lent) -> Option<()> {
    lent.seen_count = long_over(rng, lent.seen_room());
    Some(())
}

fn kept_count_over_the_room(rng: &mut Rng, _: &Property, lent: &mut Lent) -> Option<()> {
    lent.kept_count = long_over(rng, lent.kept_room());
    Some(())
}

/// The combinations of the first rows of a table.
fn rows(numbers: &[u32], width: usize, count: u64) -> Vec<Combination> {
    numbers.chunks_exact(width).take(count as usize).map(Combination::of_row).collect()
}

fn ascending(rows: &[Combination]) -> bool {
    rows.windows(2).all(|pair| pair[0] < pair[1])
}

/// Two neighbours made equal, or put out of order, by the first number in which they differ.
fn not_ascending(rng: &mut Rng, numbers: &mut [u32], width: usize, count: u64) -> Option<()> {
    let later = 1 + below(rng, (count as usize).checked_sub(1)?)?;
    let (a, b) = ((later - 1) * width, later * width);
    let place = (0..WIDTH).find(|&i| numbers[a + i] != numbers[b + i])?;
    let (less, more) = (numbers[a + place], numbers[b + place]);
    let mut changes = vec![(b + place, less), (a + place, more), (a + place, more.saturating_add(1))];
    changes.push((b + place, less.saturating_sub(1)));
    let broken = |&(at, value): &(usize, u32)| {
        let mut numbers = numbers.to_vec();
        numbers[at] = value;
        !ascending(&rows(&numbers, width, count))
    };
    changes.retain(broken);
    let (at, value) = one_of(rng, &changes)?;
    put(&mut numbers[at], value)
}

fn seen_not_ascending(rng: &mut Rng, _: &Property, lent: &mut Lent) -> Option<()> {
    not_ascending(rng, &mut lent.seen, SEEN_WIDTH, lent.seen_count)
}

fn kept_not_ascending(rng: &mut Rng, _: &Property, lent: &mut Lent) -> Option<()> {
    not_ascending(rng, &mut lent.kept, KEPT_WIDTH, lent.kept_count)
}

/// A row that binds one value loses it; the first row if it can be, which leaves the order.
fn empty_seen_row(_: &mut Rng, _: &Property, lent: &mut Lent) -> Option<()> {
    let seen = rows(&lent.seen, SEEN_WIDTH, lent.seen_count);
    let row = seen.iter().position(|binding| binding.set().is_power_of_two())?;
    let place = seen[row].0.iter().position(|&number| number != 0)?;
    put(&mut lent.seen[row * SEEN_WIDTH + place], 0)
}

fn past_parameters(rng: &mut Rng, p: &Property, numbers: &mut [u32], width: usize, count: u64) -> Option<()> {
    let row = below(rng, count as usize)?;
    let first = p.parameters as usize;
    let place = first + below(rng, WIDTH - first)?;
    put(&mut numbers[row * width + place], not_zero(rng))
}

fn seen_past_parameters(rng: &mut Rng, p: &Property, lent: &mut Lent) -> Option<()> {
    past_parameters(rng, p, &mut lent.seen, SEEN_WIDTH, lent.seen_count)
}

fn kept_past_parameters(rng: &mut Rng, p: &Property, lent: &mut Lent) -> Option<()> {
    past_parameters(rng, p, &mut lent.kept, KEPT_WIDTH, lent.kept_count)
}

/// The place of the state of some kept row.
fn state_place(rng: &mut Rng, lent: &Lent) -> Option<usize> {
    Some(below(rng, lent.kept_count as usize)? * KEPT_WIDTH + WIDTH)
}

fn state_out_of_range(rng: &mut Rng, p: &Property, lent: &mut Lent) -> Option<()> {
    let place = state_place(rng, lent)?;
    let value = *rng.pick(&[p.states, p.states, p.states + 1, 64, 1 << 6 | 1, 1 << 31, u32::MAX]);
    put(&mut lent.kept[place], value.max(p.states))
}

fn state_not_hopeful(rng: &mut Rng, p: &Property, lent: &mut Lent) -> Option<()> {
    let place = state_place(rng, lent)?;
    let hopeful = p.check().ok()?;
    let hopeless: Vec<u32> = (0..p.states).filter(|&state| !hopeful[state as usize]).collect();
    let state = one_of(rng, &hopeless)?;
    put(&mut lent.kept[place], state)
}

/// Every change of one number of a table to a small value, or to a value that another row has there.
fn small_changes(p: &Property, numbers: &[u32], width: usize, count: u64) -> Vec<(usize, u32)> {
    let mut changes = Vec::new();
    for place in (0..count as usize * width).filter(|place| place % width < p.parameters as usize) {
        let others = (0..count as usize).map(|row| numbers[row * width + place % width]);
        let values = others.chain(0..4).filter(|&value| value != numbers[place]);
        changes.extend(values.map(|value| (place, value)));
    }
    changes
}

/// Whether each kept row is the join of the seen rows that it includes.
fn all_joins(seen: &[Combination], kept: &[Combination]) -> bool {
    kept.iter().all(|k| join_of_included(seen, k) == *k)
}

/// A kept row, in its order, that is not the join of the seen rows that it includes.
fn kept_not_a_join(rng: &mut Rng, p: &Property, lent: &mut Lent) -> Option<()> {
    let seen = rows(&lent.seen, SEEN_WIDTH, lent.seen_count);
    let mut changes = small_changes(p, &lent.kept, KEPT_WIDTH, lent.kept_count);
    changes.retain(|&(place, value)| {
        let mut numbers = lent.kept.clone();
        numbers[place] = value;
        let kept = rows(&numbers, KEPT_WIDTH, lent.kept_count);
        ascending(&kept) && !all_joins(&seen, &kept)
    });
    let (place, value) = one_of(rng, &changes)?;
    put(&mut lent.kept[place], value)
}

/// A seen row, in its order and not empty, such that some kept row is no longer the join.
fn kept_without_its_seen(rng: &mut Rng, p: &Property, lent: &mut Lent) -> Option<()> {
    let kept = rows(&lent.kept, KEPT_WIDTH, lent.kept_count);
    let mut changes = small_changes(p, &lent.seen, SEEN_WIDTH, lent.seen_count);
    changes.retain(|&(place, value)| {
        let mut numbers = lent.seen.clone();
        numbers[place] = value;
        let seen = rows(&numbers, SEEN_WIDTH, lent.seen_count);
        ascending(&seen) && seen.iter().all(|row| !row.is_empty()) && !all_joins(&seen, &kept)
    });
    let (place, value) = one_of(rng, &changes)?;
    put(&mut lent.seen[place], value)
}

fn seen_number_past_count(rng: &mut Rng, _: &Property, lent: &mut Lent) -> Option<()> {
    let end = lent.seen_room() * SEEN_WIDTH;
    past(rng, &mut lent.seen[..end], lent.seen_count as usize * SEEN_WIDTH)
}

fn kept_number_past_count(rng: &mut Rng, _: &Property, lent: &mut Lent) -> Option<()> {
    let end = lent.kept_room() * KEPT_WIDTH;
    past(rng, &mut lent.kept[..end], lent.kept_count as usize * KEPT_WIDTH)
}

/// A count that leaves out the last row.
fn seen_row_past_count(_: &mut Rng, _: &Property, lent: &mut Lent) -> Option<()> {
    lent.seen_count = lent.seen_count.checked_sub(1)?;
    Some(())
}

/// The same; the empty combination in state 0 is zeros, and would not be missed.
fn kept_row_past_count(_: &mut Rng, _: &Property, lent: &mut Lent) -> Option<()> {
    let last = lent.kept_count.checked_sub(1)?;
    let row = &lent.kept[last as usize * KEPT_WIDTH..][..KEPT_WIDTH];
    if row.iter().all(|&number| number == 0) {
        return None;
    }
    lent.kept_count = last;
    Some(())
}

fn seen_past_the_room(rng: &mut Rng, _: &Property, lent: &mut Lent) -> Option<()> {
    let end = lent.seen_room() * SEEN_WIDTH;
    past(rng, &mut lent.seen, end)
}

fn kept_past_the_room(rng: &mut Rng, _: &Property, lent: &mut Lent) -> Option<()> {
    let end = lent.kept_room() * KEPT_WIDTH;
    past(rng, &mut lent.kept, end)
}
