//! Cases at the edges of what a program that answers batches holds in mind: before the first row, the
//! largest tables, the last parameters, rows of many reports.

use super::sessions::{fill, start, texts};
use super::{case, Case};
use crate::request::{call, Request};

const EVENTS: &str = "event,x\r\nmark,1\r\nall,0\r\n";
const PATTERN: &str = "ere : mark all @match";

/// Rows that mark so many values, and one that reports them all.
fn rows(marked: u32) -> String {
    let marks: String = (1..=marked).map(|x| format!("mark,{x}\r\n")).collect();
    format!("event,x\r\n{marks}all,\r\n")
}

/// A table of which no set, no transition and no verdict is written.
fn left_out() -> Vec<Request> {
    vec![call("check").numbers(&[0, 1, 1, 1, 0, 0, 0])]
}

/// Every number that can be lent.
fn largest() -> Vec<Request> {
    vec![fill(65_536, 65_536, 65_536), call("digest")]
}

/// Events whose values grow by another step at each parameter.
fn grown() -> Vec<Request> {
    vec![
        call("property").numbers(&[4, 1, 1, 1, 1, 15, 1, 0, 1, 0]),
        fill(100, 100, 100),
        start(),
        call("grow").numbers(&[3, 0, 1, 1, 1, 1, 1, 2, 3, 4]),
        call("tables"),
    ]
}

/// A row of sixty reports, and its lines.
fn many_lines() -> Vec<Request> {
    let log = rows(60);
    let mut requests = texts(EVENTS, PATTERN);
    requests.extend([fill(4_096, 15_000, 15_000), start()]);
    requests.push(call("run").number(9u32).number(60u32).bytes(&log));
    requests.extend([call("row").bytes("all,"), call("lines").number(61u32)]);
    requests
}

/// A log with a row of seven hundred reports.
fn many_reports() -> Vec<Request> {
    vec![call("watch").bytes(EVENTS).bytes(PATTERN).bytes(rows(700))]
}

pub fn cases() -> Vec<Case> {
    vec![
        case("patterns", "left-out", left_out()),
        case("sessions", "largest", largest()),
        case("sessions", "grown", grown()),
        case("logs", "before-any-row", vec![call("lines").number(1u32)]),
        case("logs", "many-lines", many_lines()),
        case("logs", "many-reports", many_reports()),
    ]
}
