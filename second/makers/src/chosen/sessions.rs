//! Chosen cases: start, events and lookups.

use crate::chosen::properties::{changed, outside, within};
use crate::chosen::{case, Case, EVENTS, PATTERN};
use crate::request::{call, Request};

/// Requests that set declarations and pattern.
pub fn texts(events: impl AsRef<[u8]>, pattern: impl AsRef<[u8]>) -> Vec<Request> {
    vec![call("declare").bytes(events), call("pattern").bytes(pattern)]
}

/// Lengths in numbers, all numbers of the tables 0 and those of the reports 9.
pub fn fill(seen: u32, kept: u32, reports: u32) -> Request {
    call("fill").numbers(&[seen, 0, kept, 0, reports, 9])
}

pub fn event(number: u32, values: [u32; 4]) -> Request {
    call("event").number(number).numbers(&values)
}

pub fn lookup(values: [u32; 4]) -> Request {
    call("lookup").numbers(&values)
}

pub fn start() -> Request {
    call("start")
}

/// The rows of the document's example as events.
pub const EXAMPLE: [(u32, [u32; 4]); 6] =
    [(0, [0, 7, 0, 0]), (1, [1, 7, 0, 0]), (2, [2, 0, 0, 0]), (1, [2, 7, 0, 0]), (2, [1, 0, 0, 0]), (2, [2, 0, 0, 0])];

fn example() -> Vec<Request> {
    let mut requests = texts(EVENTS, PATTERN);
    requests.push(call("fill").numbers(&[27, 9, 24, 8, 16, 7]));
    requests.push(start());
    for (number, values) in EXAMPLE {
        requests.push(event(number, values));
        requests.push(lookup(values));
    }
    for values in [
        [0; 4],
        [0, 7, 0, 0],
        [1, 7, 0, 0],
        [2, 7, 0, 0],
        [9, 7, 0, 0],
        [9, 9, 0, 0],
        [1, 0, 0, 0],
        [0, 0, 1, 0],
        [0, 0, 0, 1],
        [1, 7, 0, u32::MAX],
    ] {
        requests.push(lookup(values));
    }
    requests.push(start());
    requests.push(lookup([0; 4]));
    requests
}

/// Start: what it clears and what it leaves, 11 before 16, and rooms of nothing.
fn starts() -> Vec<Request> {
    let mut requests = vec![start(), event(0, [0; 4]), lookup([0; 4])];
    requests.extend(texts(EVENTS, PATTERN));
    for lengths in
        [[0, 0, 0], [3, 4, 4], [3, 5, 4], [4, 4, 5], [4, 5, 0], [7, 9, 9], [8, 10, 10], [9, 11, 1], [13, 14, 3]]
    {
        requests.push(call("fill").numbers(&[lengths[0], 7, lengths[1], 7, lengths[2], 7]));
        requests.push(start());
        requests.push(event(0, [0, 7, 0, 0]));
    }
    // given counts do not matter to start
    requests.push(call("seen").number(99u64).list(&[7; 5]));
    requests.push(call("kept").number(u64::MAX).list(&[7; 6]));
    requests.push(start());
    // a state 0 that is not hopeful needs no kept room
    requests.extend(texts(EVENTS, "ere:epsilon@match"));
    for kept in [0, 4, 5, 10] {
        requests.push(call("fill").numbers(&[8, 7, kept, 7, 10, 7]));
        requests.push(start());
        requests.extend([event(0, [0, 7, 0, 0]), event(0, [0, 7, 0, 0]), lookup([0; 4]), lookup([0, 7, 0, 0])]);
    }
    requests.push(call("property").property(&changed(|p| p.asked = 0)));
    requests.push(call("fill").numbers(&[8, 7, 0, 7, 10, 7]));
    requests.push(start());
    requests
}

/// 13 and 14, and 13 before 14 before 15.
fn events() -> Vec<Request> {
    let mut requests = texts(EVENTS, PATTERN);
    for seen in [8, 0] {
        requests.extend([fill(seen, 20, 10), start()]);
        for (number, values) in [
            (3, [0; 4]),
            (3, [0, 7, 0, 0]),
            (16, [0; 4]),
            (u32::MAX, [1; 4]),
            (0, [0; 4]),
            (0, [7, 0, 0, 0]),
            (0, [7, 7, 0, 0]),
            (1, [1, 0, 0, 0]),
            (1, [0, 1, 0, 0]),
            (1, [1, 1, 1, 0]),
            (1, [1, 1, 0, 1]),
            (2, [0; 4]),
            (2, [0, 0, 1, 0]),
            (2, [0, 0, 0, 1]),
            (2, [1, 0, 0, u32::MAX]),
            (2, [u32::MAX, 0, 0, 0]),
            (1, [u32::MAX, u32::MAX, 0, 0]),
            (0, [0, 1, 0, 0]),
        ] {
            requests.push(event(number, values));
        }
    }
    requests
}

/// Verdicts that stay are reported at each event; fail is hopeful when it is asked for.
fn verdicts() -> Vec<Request> {
    let declared = "event,x\r\na,1\r\nb,1\r\nc,0\r\n";
    let mut requests = Vec::new();
    for pattern in [
        "ere:a b@fail",
        "ere:a b@match@fail",
        "ere:a*@match",
        "ere:(a|b|c)*@fail",
        "ere:a b@match",
        "ere:c a@match",
        "ere:epsilon@match@fail",
    ] {
        requests.extend(texts(declared, pattern));
        requests.extend([call("fill").numbers(&[16, 0, 25, 0, 30, 9]), start()]);
        for (number, x) in [(0, 1), (0, 2), (1, 1), (2, 0), (1, 2), (0, 3), (2, 0), (1, 3), (0, 1)] {
            requests.push(event(number, [x, 0, 0, 0]));
            requests.push(lookup([x, 0, 0, 0]));
        }
        requests.push(lookup([8, 0, 0, 0]));
    }
    requests
}

/// Joins of three and four parameters, and orders of rows.
fn joins() -> Vec<Request> {
    let declared = "event,w,x,y,z\r\na,1,1,0,0\r\nb,0,1,1,0\r\nc,0,0,1,1\r\nd,1,0,0,1\r\ne,0,0,0,0\r\n";
    let mut requests = texts(declared, "ere:(a|b|c|d)* e+ @match");
    requests.extend([fill(48, 60, 60), start()]);
    for (number, values) in [
        (0, [1, 1, 0, 0]),
        (2, [0, 0, 1, 1]),
        (1, [0, 1, 1, 0]),
        (4, [0; 4]),
        (3, [1, 0, 0, 1]),
        (3, [2, 0, 0, 1]),
        (1, [0, 2, 1, 0]),
        (4, [0; 4]),
        (0, [1, 2, 0, 0]),
        (2, [0, 0, 1, u32::MAX]),
        (4, [0; 4]),
        (0, [1, 1, 0, 0]),
    ] {
        requests.push(event(number, values));
    }
    for values in [[1, 1, 1, 1], [2, 1, 1, 1], [1, 2, 1, 1], [0, 0, 1, 1], [5, 0, 1, 1], [0; 4], [1, 0, 0, 0]] {
        requests.push(lookup(values));
    }
    requests
}

/// 11 at start, event and lookup, before 12 and all else; and tables within their ranges.
fn properties() -> Vec<Request> {
    let mut requests = vec![fill(16, 20, 10)];
    for property in outside() {
        requests.push(call("property").property(&property));
        requests.extend([start(), event(99, [1; 4]), lookup([0, 0, 0, 1])]);
    }
    requests.push(call("seen").number(99u64).list(&[0; 8]));
    requests.push(call("property").property(&changed(|p| p.asked = 4)));
    requests.extend([event(99, [1; 4]), lookup([0, 0, 0, 1])]);
    for property in within() {
        requests.push(call("property").property(&property));
        requests.extend([fill(16, 20, 10), start()]);
        for (number, values) in EXAMPLE {
            let set = property.sets[number as usize];
            let mut bound = [0; 4];
            for i in 0..4 {
                bound[i] = if set >> i & 1 == 1 { values[i].max(1) } else { 0 };
            }
            requests.push(event(number, bound));
        }
        requests.push(lookup([0; 4]));
    }
    requests
}

pub fn cases() -> Vec<Case> {
    vec![
        case("sessions", "example", example()),
        case("sessions", "start", starts()),
        case("sessions", "events", events()),
        case("sessions", "verdicts", verdicts()),
        case("sessions", "joins", joins()),
        case("sessions", "properties", properties()),
    ]
}
