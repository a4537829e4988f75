//! Chosen cases: rooms that run out, room that is freed, and the limits of 1,024 and 3,000 rows.

use crate::chosen::sessions::{event, fill, lookup, start, texts};
use crate::chosen::{case, Case};
use crate::request::{call, Request};

/// a binds x, b binds y, c binds both, e binds nothing.
const GRID: &str = "event,x,y\r\na,1,0\r\nb,0,1\r\nc,1,1\r\ne,0,0\r\n";

/// 15, 16 and 17 with one row too few and just enough, and which comes first.
fn small() -> Vec<Request> {
    let mut requests = texts(GRID, "ere:(a|b|c|e)*@match");
    for (seen, kept, reports) in [
        (0, 1, 1),
        (0, 1, 0),
        (0, 2, 1),
        (1, 1, 1),
        (1, 2, 0),
        (1, 2, 1),
        (1, 1, 0),
        (0, 1, 9),
        (2, 2, 9),
        (2, 3, 9),
        (2, 4, 1),
        (2, 4, 2),
        (9, 9, 9),
    ] {
        requests.extend([fill(seen * 4, kept * 5, reports * 5), start()]);
        for (number, x, y) in [(3, 0, 0), (0, 1, 0), (3, 0, 0), (0, 1, 0), (1, 0, 1), (2, 1, 1), (3, 0, 0), (2, 1, 2)] {
            requests.push(event(number, [x, y, 0, 0]));
        }
        requests.push(lookup([1, 1, 0, 0]));
    }
    // a part of a row is no room
    requests.extend([fill(7, 14, 9), start(), event(0, [1, 0, 0, 0]), event(0, [2, 0, 0, 0]), event(1, [0, 1, 0, 0])]);
    requests
}

/// Room freed by an event serves the same event; room for a property that can never report.
fn freed() -> Vec<Request> {
    let mut requests = texts("event,x,y\r\na,1,0\r\nc,1,1\r\n", "ere:a a|c c@match");
    for kept in [2, 3] {
        requests.extend([fill(40, kept * 5, 50), start()]);
        for (number, y) in [(1, 7), (0, 0), (0, 0), (1, 8)] {
            requests.push(event(number, [1, y, 0, 0]));
        }
    }
    requests.extend(texts("event,x\r\na,1\r\n", "ere:a|epsilon@match"));
    requests.extend([
        fill(8, 5, 5),
        start(),
        event(0, [1, 0, 0, 0]),
        event(0, [2, 0, 0, 0]),
        event(0, [3, 0, 0, 0]),
        event(0, [1, 0, 0, 0]),
    ]);
    requests.extend(texts("event,x\r\na,1\r\n", "ere:epsilon@match"));
    requests.extend([
        fill(8, 0, 0),
        start(),
        event(0, [1, 0, 0, 0]),
        event(0, [2, 0, 0, 0]),
        event(0, [3, 0, 0, 0]),
        event(0, [1, 0, 0, 0]),
    ]);
    requests
}

fn grow(times: u64, number: u32, values: [u32; 4], steps: [u32; 4]) -> Request {
    call("grow").number(times).number(number).numbers(&values).numbers(&steps)
}

/// 1,024 seen rows: of more rows lent, of exactly as many, of one fewer.
fn seen_limit() -> Vec<Request> {
    let mut requests = texts("event,x\r\na,1\r\ne,0\r\n", "ere:a a@match");
    for seen in [1030 * 4 + 3, 1024 * 4, 1023 * 4, 1023 * 4 + 3, 1025 * 4] {
        requests.push(call("fill").numbers(&[seen, 9, 1100 * 5, 9, 12, 9]));
        requests.extend([start(), call("digest"), grow(1023, 0, [1, 0, 0, 0], [1, 0, 0, 0]), call("digest")]);
        requests.extend([grow(1, 0, [5000, 0, 0, 0], [0; 4]), grow(1, 0, [5001, 0, 0, 0], [0; 4]), call("digest")]);
        requests.extend([grow(2, 0, [77, 0, 0, 0], [0; 4]), grow(1, 1, [0; 4], [0; 4]), call("digest")]);
    }
    requests.push(call("tables"));
    requests
}

/// 3,000 kept rows: 60 times 50, and a row of 60 more that does not fit.
fn kept_limit() -> Vec<Request> {
    let mut requests = texts(GRID, "ere:(a|b|c|e)*@match");
    for (kept, reports) in
        [(3010 * 5 + 4, 3005 * 5), (3000 * 5, 3000 * 5), (2999 * 5, 3000 * 5), (3001 * 5, 2999 * 5 + 4)]
    {
        requests.push(call("fill").numbers(&[200 * 4, 9, kept, 9, reports, 9]));
        requests.extend([
            start(),
            call("digest"),
            grow(59, 0, [1, 0, 0, 0], [1, 0, 0, 0]),
            grow(48, 1, [0, 1, 0, 0], [0, 1, 0, 0]),
        ]);
        requests.extend([
            call("digest"),
            grow(1, 1, [0, 900, 0, 0], [0; 4]),
            call("digest"),
            grow(1, 1, [0, 901, 0, 0], [0; 4]),
        ]);
        requests.extend([
            grow(1, 2, [3, 7, 0, 0], [0; 4]),
            grow(1, 2, [3, 999, 0, 0], [0; 4]),
            grow(1, 3, [0; 4], [0; 4]),
            call("digest"),
        ]);
    }
    requests
}

/// Tables given at the limits: rows past 1,024 and 3,000 are never read, and no count may reach them.
fn given() -> Vec<Request> {
    let mut requests = texts("event,x,y\r\na,1,0\r\nb,0,1\r\n", "ere:(a|b)*@match");
    requests.push(call("fill").numbers(&[0, 0, 5, 0, 10, 9]));
    let rows: Vec<u32> = (1..=1025).flat_map(|x| [x, 0, 0, 0]).collect();
    for (count, length) in [(1025u64, 4100), (1024, 4100), (1024, 4096), (1024, 4095), (1023, 4095), (1023, 4100)] {
        requests.push(call("seen").number(count).list(&rows[..length]));
        requests.push(grow(1, 0, [1000, 0, 0, 0], [0; 4]));
        requests.push(grow(1, 0, [2000, 0, 0, 0], [0; 4]));
    }
    let seen: Vec<u32> = (1..=49).flat_map(|y| [0, y, 0, 0]).chain((1..=60).flat_map(|x| [x, 0, 0, 0])).collect();
    let mut kept: Vec<u32> = (0..60).flat_map(|x| (0..50).flat_map(move |y| [x, y, 0, 0, 1])).collect();
    kept.extend([60, 0, 0, 0, 1]);
    requests.push(call("seen").number(109u64).list(&seen));
    for (count, length) in [(3001u64, 15005), (3000, 15005), (3000, 15000), (3000, 14999), (2999, 14999), (2999, 15005)]
    {
        requests.push(call("kept").number(count).list(&kept[..length]));
        requests.push(grow(1, 0, [60, 0, 0, 0], [0; 4]));
        requests.push(call("digest"));
    }
    requests
}

pub fn cases() -> Vec<Case> {
    vec![
        case("sessions", "rooms", small()),
        case("sessions", "freed", freed()),
        case("sessions", "limit-seen", seen_limit()),
        case("sessions", "limit-kept", kept_limit()),
        case("sessions", "limit-given", given()),
    ]
}
