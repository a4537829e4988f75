//! Document 01, "Log rows and the run": the header, one row into a session, and the run.

use crate::combination::Combination;
use crate::declarations::Declarations;
use crate::limits::{ROW_LIMIT, WIDTH};
use crate::property::{Hopeful, Property};
use crate::refusal::Refusal;
use crate::rows::{fields, Reader};
use crate::session::{check, take, Lent};

/// What the run answers beside the lent numbers and their counts.
#[derive(Clone, Copy, Debug, PartialEq, Eq)]
pub struct Run {
    pub rows: u64,
    pub next: u64,
    pub reports: usize,
    pub refusal: Option<Refusal>,
}

/// The log's header, without its line end, is the declarations': 1 to 5, 22.
pub fn judge_header(declarations: &[u8], row: &[u8]) -> Result<(), Refusal> {
    if Declarations::read(declarations)?.header == row {
        Ok(())
    } else {
        Err(Refusal::HeaderDiffers)
    }
}

/// The event and the binding that a row names: 18 to 21.
pub fn read_row(declared: &Declarations, row: &[u8]) -> Result<(usize, Combination), Refusal> {
    let parts = fields(row);
    let shape_byte = |b: &u8| matches!(b, b'\r' | b'\n' | b'"');
    if row.len() > ROW_LIMIT || row.iter().any(shape_byte) || parts.len() != declared.parameters.len() + 1 {
        return Err(Refusal::RowShape);
    }
    let event = declared.event_number(parts[0]).ok_or(Refusal::EventUnknown)?;
    let mut numbers = [0; WIDTH];
    for (number, part) in numbers.iter_mut().zip(&parts[1..]) {
        *number = read_value(part).ok_or(Refusal::FieldNotAValue)?;
    }
    let binding = Combination(numbers);
    if binding.set() != declared.events[event].set {
        return Err(Refusal::FieldsNotTheSet);
    }
    Ok((event, binding))
}

/// 0 for the empty field, else its value; nothing if it is neither.
fn read_value(part: &[u8]) -> Option<u32> {
    if part.is_empty() {
        return Some(0);
    }
    if part[0] == b'0' || !part.iter().all(u8::is_ascii_digit) {
        return None;
    }
    part.iter().try_fold(0u32, |value, digit| value.checked_mul(10)?.checked_add(u32::from(digit - b'0')))
}

/// What row and run ask before they look at a row: 1 to 5, 11, 25, 12.
fn prepare<'d>(
    declarations: &'d [u8],
    property: &Property,
    lent: &Lent,
) -> Result<(Declarations<'d>, Hopeful), Refusal> {
    let declared = Declarations::read(declarations)?;
    let hopeful = property.check()?;
    property.agrees(&declared)?;
    check(property, &hopeful, lent)?;
    Ok((declared, hopeful))
}

/// One row into a session; answers the number of reports: 1 to 5, 11, 25, 12, 18 to 21, 15 to 17.
pub fn row(declarations: &[u8], property: &Property, lent: &mut Lent, row: &[u8]) -> Result<usize, Refusal> {
    let (declared, hopeful) = prepare(declarations, property, lent)?;
    let (event, binding) = read_row(&declared, row)?;
    take(property, &hopeful, lent, event, &binding, 0)
}

/// At most `budget` rows of the log from an offset on: 1 to 5, 11, 25, 12, 24, then as for a row.
pub fn run(declarations: &[u8], property: &Property, lent: &mut Lent, log: &[u8], offset: u64, budget: u64) -> Run {
    let mut answer = Run { rows: 0, next: offset, reports: 0, refusal: None };
    let prepared = prepare(declarations, property, lent).and_then(|prepared| {
        if offset > log.len() as u64 {
            return Err(Refusal::OffsetPastLog);
        }
        Ok(prepared)
    });
    let (declared, hopeful) = match prepared {
        Ok(prepared) => prepared,
        Err(refusal) => return Run { refusal: Some(refusal), ..answer },
    };
    let mut reader = Reader::new(log, offset as usize);
    while answer.rows < budget {
        let Some(row) = reader.peek() else { break };
        let taken = read_row(&declared, row)
            .and_then(|(event, binding)| take(property, &hopeful, lent, event, &binding, answer.reports));
        match taken {
            Ok(reports) => answer.reports += reports,
            Err(refusal) => return Run { refusal: Some(refusal), ..answer },
        }
        reader.next();
        answer.rows += 1;
        answer.next = reader.offset() as u64;
    }
    answer
}
