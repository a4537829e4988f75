//! Document 01, "The program and its example": what the watch program prints.

use std::io::{self, Write};

use crate::combination::Combination;
use crate::declarations::Declarations;
use crate::history::{History, Rooms};
use crate::limits::{FAIL, KEPT_LIMIT, MATCH, SEEN_LIMIT, WATCH_REPORTS};
use crate::log::{judge_header, read_row};
use crate::pattern::Pattern;
use crate::property::Property;
use crate::quick::Quick;
use crate::refusal::{Refusal, Refused};
use crate::rows::{rows, split_first_row};
use crate::session::Marked;
use crate::table::table;
use crate::tree::Slices;

/// How the program decides what a row leads to.
#[derive(Clone, Copy, Debug, PartialEq, Eq)]
pub enum Way {
    /// By the step over tables.
    ByTables,
    /// By the whole history.
    ByHistory,
}

/// The program's rooms; each row has the whole report room.
pub const ROOMS: Rooms = Rooms { seen: SEEN_LIMIT, kept: KEPT_LIMIT, reports: WATCH_REPORTS };

/// Prints what the program prints for the bytes of its three files.
pub fn watch(way: Way, events: &[u8], pattern: &[u8], log: &[u8], out: &mut impl Write) -> io::Result<()> {
    match prepare(events, pattern, log) {
        Err(refused) => write!(out, "refused {}\r\n", refused.refusal.number()),
        Ok((declared, tree, property)) => {
            print_header(&declared, out)?;
            print_rows(way, &declared, &tree, &property, split_first_row(log).1, out)
        }
    }
}

/// What must be accepted before any row is: declarations, pattern, header.
fn prepare<'t>(events: &'t [u8], text: &[u8], log: &[u8]) -> Result<(Declarations<'t>, Pattern, Property), Refused> {
    let declared = Declarations::read(events)?;
    let pattern = Pattern::read(&declared, text)?;
    let property = table(&declared, &pattern)?;
    judge_header(events, split_first_row(log).0)?;
    Ok((declared, pattern, property))
}

fn print_header(declared: &Declarations, out: &mut impl Write) -> io::Result<()> {
    out.write_all(b"row,verdict")?;
    for name in &declared.parameters {
        out.write_all(b",")?;
        out.write_all(name)?;
    }
    out.write_all(b"\r\n")
}

fn print_rows(
    way: Way,
    declared: &Declarations,
    tree: &Pattern,
    property: &Property,
    log: &[u8],
    out: &mut impl Write,
) -> io::Result<()> {
    // The rooms of the program are not 0, so neither start is refused.
    let judge = Slices::new(tree, declared.events.len());
    let (Ok(mut quick), Ok(mut history)) = (Quick::start(property, ROOMS), History::start(property, judge, ROOMS))
    else {
        return Ok(());
    };
    for (index, row) in rows(log).enumerate() {
        let answer = read_row(declared, row).and_then(|(event, binding)| match way {
            Way::ByTables => quick.take(event, &binding),
            Way::ByHistory => history.offer(event as u32, &binding),
        });
        print_row(declared.parameters.len(), index as u64 + 1, &answer, out)?;
    }
    Ok(())
}

/// The lines of one row: one for each report, or one for its refusal.
pub fn print_row(
    parameters: usize,
    number: u64,
    answer: &Result<Vec<Marked>, Refusal>,
    out: &mut impl Write,
) -> io::Result<()> {
    match answer {
        Err(refusal) => {
            write!(out, "{number},refused {}", refusal.number())?;
            print_values(parameters, &Combination::EMPTY, out)
        }
        Ok(reports) => {
            for (combination, verdict) in reports {
                write!(out, "{number},{}", word(*verdict))?;
                print_values(parameters, combination, out)?;
            }
            Ok(())
        }
    }
}

/// The word printed for a verdict that is reported.
fn word(verdict: u32) -> &'static str {
    match verdict {
        MATCH => "match",
        FAIL => "fail",
        _ => "undecided",
    }
}

/// The values, empty where unbound, and the line end.
fn print_values(parameters: usize, combination: &Combination, out: &mut impl Write) -> io::Result<()> {
    for value in &combination.0[..parameters] {
        out.write_all(b",")?;
        if *value != 0 {
            write!(out, "{value}")?;
        }
    }
    out.write_all(b"\r\n")
}
