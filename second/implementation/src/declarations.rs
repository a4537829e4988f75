//! Document 01, "The declarations": parameters, events and the sets they bind; refusals 1 to 5.

use crate::class::name_at_start;
use crate::limits::{EVENT_LIMIT, NAME_LIMIT, TEXT_LIMIT, WIDTH};
use crate::refusal::Refusal;
use crate::rows::{fields, has_stray_line_end, rows, split_first_row};

/// Accepted declarations; every name is a part of their text.
#[derive(Clone, Debug, PartialEq, Eq)]
pub struct Declarations<'t> {
    pub header: &'t [u8],
    pub parameters: Vec<&'t [u8]>,
    pub events: Vec<Event<'t>>,
}

/// A declared event: its name and the parameters it binds (bit i for parameter i).
#[derive(Clone, Copy, Debug, PartialEq, Eq)]
pub struct Event<'t> {
    pub name: &'t [u8],
    pub set: u32,
}

impl<'t> Declarations<'t> {
    /// The declarations of a text: 1 first, then the first faulty row, "no event" last.
    pub fn read(text: &'t [u8]) -> Result<Declarations<'t>, Refusal> {
        if text.len() > TEXT_LIMIT {
            return Err(Refusal::TextTooLong);
        }
        let (header, rest) = split_first_row(text);
        let mut declared = Declarations { header, parameters: read_header(header)?, events: Vec::new() };
        for row in rows(rest) {
            let event = declared.read_event(row)?;
            declared.events.push(event);
        }
        if declared.events.is_empty() {
            return Err(Refusal::DeclarationCount);
        }
        Ok(declared)
    }

    /// The number of the event with this name.
    pub fn event_number(&self, name: &[u8]) -> Option<usize> {
        self.events.iter().position(|event| event.name == name)
    }

    /// One event row; within it 5, 2, 3, 4.
    fn read_event(&self, row: &'t [u8]) -> Result<Event<'t>, Refusal> {
        if self.events.len() >= EVENT_LIMIT {
            return Err(Refusal::DeclarationCount);
        }
        let parts = fields(row);
        let marks = &parts[1..];
        let marks_good = marks.iter().all(|&mark| mark == b"0" || mark == b"1");
        if has_stray_line_end(row) || marks.len() != self.parameters.len() || !marks_good {
            return Err(Refusal::DeclarationShape);
        }
        let name = parts[0];
        if !is_name(name) || name == b"epsilon" {
            return Err(Refusal::BadName);
        }
        if self.event_number(name).is_some() {
            return Err(Refusal::NameTwice);
        }
        let set = (0..marks.len()).filter(|&i| marks[i] == b"1").map(|i| 1 << i).sum();
        Ok(Event { name, set })
    }
}

/// The parameter names of a header; within it 5, 2, 3, 4.
fn read_header(row: &[u8]) -> Result<Vec<&[u8]>, Refusal> {
    let parts = fields(row);
    let names = &parts[1..];
    if names.len() > WIDTH {
        return Err(Refusal::DeclarationCount);
    }
    if has_stray_line_end(row) || parts[0] != b"event" {
        return Err(Refusal::DeclarationShape);
    }
    if !names.iter().all(|name| is_name(name)) {
        return Err(Refusal::BadName);
    }
    if (1..names.len()).any(|i| names[..i].contains(&names[i])) {
        return Err(Refusal::NameTwice);
    }
    Ok(names.to_vec())
}

/// 1 to 32 letters, digits and underscores, the first a letter.
pub fn is_name(bytes: &[u8]) -> bool {
    !bytes.is_empty() && bytes.len() <= NAME_LIMIT && name_at_start(bytes).len() == bytes.len()
}
