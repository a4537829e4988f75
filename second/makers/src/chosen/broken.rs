//! Chosen cases: each clause of refusal 12 broken by one number, and its other side.

use crate::chosen::sessions::{event, lookup, texts};
use crate::chosen::{case, Case, EVENTS, PATTERN};
use crate::request::{call, Request};

/// Tables after the first three rows of the example, in a room of five rows and a part of a row.
#[derive(Clone)]
struct Tables {
    seen: Vec<u32>,
    kept: Vec<u32>,
    seen_count: u64,
    kept_count: u64,
}

fn good() -> Tables {
    let mut seen = [[0, 7, 0, 0], [1, 7, 0, 0], [2, 0, 0, 0], [0; 4], [0; 4]].concat();
    let mut kept = [[0; 5], [0, 7, 0, 0, 1], [1, 7, 0, 0, 3], [0; 5], [0; 5]].concat();
    seen.extend([6, 0, 6]);
    kept.extend([6, 6, 0, 6]);
    Tables { seen, kept, seen_count: 3, kept_count: 3 }
}

fn row<const N: usize>(numbers: &mut [u32], index: usize, row: [u32; N]) {
    numbers[index * N..(index + 1) * N].copy_from_slice(&row);
}

/// Each change to the good tables.
fn changes() -> Vec<fn(&mut Tables)> {
    vec![
        // taken
        |_| {},
        |t| t.seen[20..].fill(u32::MAX),
        |t| t.kept[25..].fill(u32::MAX),
        |t| row(&mut t.kept, 2, [2, 7, 0, 0, 3]),
        |t| row(&mut t.kept, 0, [0, 0, 0, 0, 3]),
        |t| row(&mut t.kept, 0, [0, 0, 0, 0, 1]),
        |t| row(&mut t.kept, 2, [2, 0, 0, 0, 0]),
        |t| {
            row(&mut t.kept, 2, [0; 5]);
            t.kept_count = 2;
        },
        |t| {
            t.kept[..25].fill(0);
            t.kept_count = 0;
        },
        |t| {
            t.kept[..25].fill(0);
            t.kept_count = 1;
        },
        |t| row(&mut t.seen, 2, [2, u32::MAX, 0, 0]),
        // a count over the room
        |t| t.seen_count = 6,
        |t| t.seen_count = u64::MAX,
        |t| t.seen_count = 1 << 32,
        |t| t.kept_count = 6,
        |t| t.kept_count = u64::MAX,
        |t| t.kept_count = (1 << 32) + 3,
        |t| t.seen.truncate(11),
        |t| t.kept.truncate(14),
        // counts within the room that fit nothing
        |t| t.seen_count = 4,
        |t| t.seen_count = 5,
        |t| t.kept_count = 4,
        |t| t.kept_count = 5,
        |t| t.seen_count = 2,
        |t| t.seen_count = 0,
        |t| t.kept_count = 2,
        |t| t.kept_count = 0,
        // not strictly ascending
        |t| row(&mut t.seen, 1, [0, 7, 0, 0]),
        |t| row(&mut t.seen, 1, [3, 0, 0, 0]),
        |t| row(&mut t.seen, 0, [1, 8, 0, 0]),
        |t| row(&mut t.kept, 2, [0, 7, 0, 0, 3]),
        |t| row(&mut t.kept, 1, [0, 0, 0, 0, 1]),
        |t| {
            row(&mut t.kept, 1, [1, 7, 0, 0, 3]);
            row(&mut t.kept, 2, [0, 7, 0, 0, 1]);
        },
        // an empty seen row
        |t| row(&mut t.seen, 0, [0; 4]),
        // a number past the parameters
        |t| t.seen[2] = 1,
        |t| t.seen[11] = u32::MAX,
        |t| t.kept[2] = 1,
        |t| t.kept[13] = 1,
        // a kept state out of range or not hopeful
        |t| t.kept[14] = 5,
        |t| t.kept[4] = 64,
        |t| t.kept[4] = u32::MAX,
        |t| t.kept[9] = 2,
        |t| t.kept[9] = 4,
        // a kept row not the join of the seen rows it includes
        |t| row(&mut t.kept, 2, [3, 7, 0, 0, 3]),
        |t| row(&mut t.kept, 2, [2, 8, 0, 0, 3]),
        |t| row(&mut t.kept, 2, [1, 0, 0, 0, 3]),
        |t| row(&mut t.kept, 1, [0, 6, 0, 0, 1]),
        |t| row(&mut t.seen, 0, [0, 6, 0, 0]),
        |t| row(&mut t.seen, 1, [1, 6, 0, 0]),
        // a row past the count
        |t| t.seen[12] = 1,
        |t| t.seen[19] = 1,
        |t| t.kept[15] = 1,
        |t| t.kept[19] = 1,
        |t| t.kept[24] = 1,
    ]
}

/// The changed tables, an event that moves things, a lookup, and events refused for more than one reason.
fn broken() -> Vec<Request> {
    let mut requests = texts(EVENTS, PATTERN);
    requests.push(call("reports").list(&[9; 7]));
    for change in changes() {
        let mut tables = good();
        change(&mut tables);
        let set = |requests: &mut Vec<Request>| {
            requests.push(call("seen").number(tables.seen_count).list(&tables.seen));
            requests.push(call("kept").number(tables.kept_count).list(&tables.kept));
        };
        set(&mut requests);
        requests.push(lookup([1, 7, 0, 0]));
        requests.push(event(2, [1, 0, 0, 0]));
        set(&mut requests);
        requests.push(event(1, [2, 7, 0, 0]));
    }
    // 12 before 13, 14 and 23
    requests.push(call("seen").number(9u64).list(&[0; 8]));
    requests.extend([event(3, [0; 4]), event(0, [1; 4]), lookup([0, 0, 1, 0])]);
    requests
}

/// The same tables before a row and a run.
fn broken_logs() -> Vec<Request> {
    let mut requests = texts(EVENTS, PATTERN);
    requests.push(call("reports").list(&[9; 7]));
    for change in changes() {
        let mut tables = good();
        change(&mut tables);
        let set = |requests: &mut Vec<Request>| {
            requests.push(call("seen").number(tables.seen_count).list(&tables.seen));
            requests.push(call("kept").number(tables.kept_count).list(&tables.kept));
        };
        set(&mut requests);
        requests.push(call("row").bytes("drain,1,"));
        set(&mut requests);
        requests.push(call("run").number(0u64).number(9u64).bytes("drain,1,\r\nfeed,2,7\r\n"));
    }
    requests
}

pub fn cases() -> Vec<Case> {
    vec![case("sessions", "broken", broken()), case("logs", "broken", broken_logs())]
}
