//! Random declarations, rows and damage to bytes.

use crate::random::rng::Rng;

const PARAMETERS: [&str; 8] = ["bay", "batch", "valve", "tank", "event", "x", "epsilon", "Bay"];
const EVENTS: [&str; 20] = [
    "a", "b", "c", "d", "mix", "feed", "drain", "open", "ere", "match", "e1", "e2", "e3", "e4", "e5", "e6", "e7", "e8",
    "e_9", "Zz",
];
/// Bytes that mean something somewhere, and some that never do.
const BYTES: &[u8] = b",,,\r\n\r\n\"\"01 29_aZ():|*+@\t\x00\xff;-";

/// Shuffled distinct names of a list.
fn names(rng: &mut Rng, from: &[&str], count: usize) -> Vec<String> {
    let mut left: Vec<&str> = from.to_vec();
    let mut found = Vec::new();
    for _ in 0..count {
        let name = left.remove(rng.below(left.len().min(count + 2)));
        found.push(if rng.chance(3) { format!("{name}{}", "n".repeat(32 - name.len())) } else { name.to_string() });
    }
    found
}

/// Declarations as values: parameter names, then event names and their sets.
#[derive(Clone, Debug)]
pub struct Declared {
    pub parameters: Vec<String>,
    pub events: Vec<(String, u32)>,
}

/// Valid declarations, small for the most part.
pub fn declared(rng: &mut Rng) -> Declared {
    let parameters = *rng.pick(&[0, 1, 1, 2, 2, 2, 2, 3, 3, 4, 4]);
    let events = if rng.chance(4) { 16 } else { rng.between(1, 5) };
    let parameters = names(rng, &PARAMETERS, parameters);
    let sets = 1 << parameters.len();
    let events = names(rng, &EVENTS, events).into_iter().map(|name| (name, rng.below(sets) as u32)).collect();
    Declared { parameters, events }
}

impl Declared {
    pub fn header(&self) -> String {
        self.parameters.iter().fold("event".to_string(), |row, name| row + "," + name)
    }

    /// The text; its last line end is left out if so wished.
    pub fn text(&self, last_line_end: bool) -> Vec<u8> {
        let mut rows = vec![self.header()];
        for (name, set) in &self.events {
            let marks = (0..self.parameters.len()).map(|i| if set >> i & 1 == 1 { ",1" } else { ",0" });
            rows.push(marks.fold(name.clone(), |row, mark| row + mark));
        }
        let end = if last_line_end { "\r\n" } else { "" };
        (rows.join("\r\n") + end).into_bytes()
    }
}

/// Valid declarations as a text.
pub fn declarations(rng: &mut Rng) -> (Declared, Vec<u8>) {
    let declared = declared(rng);
    let text = declared.text(rng.chance(70));
    (declared, text)
}

/// Declarations that are valid as often as not.
pub fn any_declarations(rng: &mut Rng) -> Vec<u8> {
    let (declared, text) = declarations(rng);
    match rng.below(12) {
        0..=4 => text,
        5..=7 => wrong_names_or_counts(rng, declared).text(rng.chance(50)),
        8..=10 => damaged(rng, text),
        _ => noise(rng, 60),
    }
}

/// Declarations with one or two names or counts that may be wrong.
fn wrong_names_or_counts(rng: &mut Rng, mut declared: Declared) -> Declared {
    const BAD: [&str; 6] = ["epsilon", "9a", "_", "", "a-b", "nnnnnnnnnnnnnnnnnnnnnnnnnnnnnnnnn"];
    for _ in 0..rng.between(1, 2) {
        match rng.below(6) {
            0 => declared.events.push((rng.pick(&declared.events).0.clone(), 0)),
            1 if !declared.parameters.is_empty() => declared.parameters.push(rng.pick(&declared.parameters).clone()),
            2 => declared.events.push((rng.pick(&BAD).to_string(), 1)),
            3 => declared.parameters.push(rng.pick(&BAD).to_string()),
            4 => declared.events.extend((0..rng.between(11, 16)).map(|i| (format!("more{i}"), 0))),
            _ => declared.parameters.extend((0..rng.between(1, 4)).map(|i| format!("more{i}"))),
        }
    }
    declared
}

/// One to three changes to some bytes.
pub fn damaged(rng: &mut Rng, mut bytes: Vec<u8>) -> Vec<u8> {
    for _ in 0..rng.between(1, 3) {
        let place = rng.below(bytes.len() + 1);
        match rng.below(6) {
            0 | 1 => bytes.insert(place, *rng.pick(BYTES)),
            2 if place < bytes.len() => {
                bytes.remove(place);
            }
            3 if place < bytes.len() => bytes[place] = *rng.pick(BYTES),
            4 => {
                let end = (place + rng.between(1, 12)).min(bytes.len());
                let copy = bytes[place..end].to_vec();
                let to = rng.below(bytes.len() + 1);
                bytes.splice(to..to, copy);
            }
            _ if rng.chance(30) => bytes.truncate(place),
            _ => {}
        }
    }
    bytes
}

/// Bytes without sense, fewer than `limit`.
pub fn noise(rng: &mut Rng, limit: usize) -> Vec<u8> {
    let length = rng.below(limit);
    let any = rng.chance(30);
    (0..length).map(|_| if any { rng.draw() as u8 } else { *rng.pick(BYTES) }).collect()
}

/// A value as a row writes it: few distinct ones, so that combinations meet.
pub fn value(rng: &mut Rng, values: usize) -> u32 {
    if rng.chance(2) {
        u32::MAX
    } else {
        rng.between(1, values) as u32
    }
}

/// A log row of a declared event.
pub fn row(rng: &mut Rng, declared: &Declared, values: usize) -> String {
    let (name, set) = rng.pick(&declared.events).clone();
    let mut row = name;
    for i in 0..declared.parameters.len() {
        row.push(',');
        if set >> i & 1 == 1 {
            row += &value(rng, values).to_string();
        }
    }
    row
}

/// A log row that is valid for the most part.
pub fn any_row(rng: &mut Rng, declared: &Declared, values: usize) -> Vec<u8> {
    let row = row(rng, declared, values).into_bytes();
    match rng.below(40) {
        0..=32 => row,
        33..=36 => wrong_field(rng, &row),
        37 | 38 => damaged(rng, row),
        _ => noise(rng, 140),
    }
}

/// A row with one field that may be wrong.
fn wrong_field(rng: &mut Rng, row: &[u8]) -> Vec<u8> {
    const FIELDS: [&[u8]; 12] = [
        b"",
        b"0",
        b"01",
        b"7",
        b"4294967295",
        b"4294967296",
        b"99999999999",
        b"x",
        b" 1",
        b"\"1\"",
        b"1,1",
        b"epsilon",
    ];
    let mut fields: Vec<&[u8]> = row.split(|&b| b == b',').collect();
    let place = rng.below(fields.len());
    fields[place] = *rng.pick(&FIELDS);
    fields.join(&b","[..])
}

/// A log without its header: rows and their line ends.
pub fn log(rng: &mut Rng, declared: &Declared, rows: usize, values: usize) -> Vec<u8> {
    let mut text = Vec::new();
    for i in 0..rows {
        text.extend(any_row(rng, declared, values));
        if i + 1 < rows || rng.chance(60) {
            text.extend(if rng.chance(98) { &b"\r\n"[..] } else { b"\n" });
        }
    }
    text
}
