//! Chosen cases: rows, fields, names, classes.

use crate::chosen::declarations::one_for_each;
use crate::chosen::{case, Case, EVENTS, PATTERN};
use crate::request::{call, Request};

/// Texts with every kind of line end.
const LINES: [&[u8]; 22] = [
    b"",
    b"\r\n",
    b"\r",
    b"\n",
    b"a",
    b"a\r\n",
    b"a\r\nb",
    b"a\r\nb\r\n",
    b"a\nb\n",
    b"a\r\r\nb",
    b"a\r",
    b"a\r\n\r",
    b"a\n\r\nb",
    b"\r\n\r\n",
    b"\r\na",
    b"a\r\n\r\nb\r\n",
    b"\r\r\n\n",
    b"\n\r",
    b"a,b\r\n,\r\n\"c\r\n\"",
    b"a\r\nb\r",
    b"\n\r\n",
    b"\x00\r\n\xff",
];

fn rows() -> Vec<Request> {
    let mut requests: Vec<Request> = LINES.iter().map(|text| call("rows").bytes(text)).collect();
    for text in LINES.iter().take(18) {
        for offset in 0..=text.len() as u64 + 1 {
            requests.push(call("rowat").number(offset).bytes(text));
        }
    }
    for offset in [u64::MAX, u64::MAX - 1, 1 << 32, 1 << 63] {
        requests.push(call("rowat").number(offset).bytes("a\r\nb"));
        requests.push(call("rowat").number(offset).bytes(""));
    }
    requests
}

fn fields() -> Vec<Request> {
    let mut requests = Vec::new();
    for row in [
        &b""[..],
        b",",
        b"a",
        b"a,",
        b",a",
        b"mix,,7",
        b"feed,1,7,",
        b"a,b,,,c",
        b"\"a,b\"",
        b"a\r\n,b\r,\nc",
        b",,,,,,,",
        b"\x00,\xff",
    ] {
        for index in [0u64, 1, 2, 3, 4, 5, 8, u64::MAX] {
            requests.push(call("field").number(index).bytes(row));
        }
    }
    requests.push(call("field").number(1u64).bytes([&[b'x'; 500][..], b",", &[b'y'; 500]].concat()));
    requests
}

fn names() -> Vec<Request> {
    let by_number =
        |number: u64, events: &[u8], pattern: &[u8]| call("namebynumber").number(number).bytes(events).bytes(pattern);
    let by_offset =
        |offset: u64, events: &[u8], pattern: &[u8]| call("namebyoffset").number(offset).bytes(events).bytes(pattern);
    let mut requests = Vec::new();
    for number in [0, 1, 2, 3, 15, 16, 1 << 32, u64::MAX] {
        requests.push(by_number(number, EVENTS, PATTERN));
        requests.push(by_number(number, b"event\r\nere\r\nevent", b""));
    }
    for offset in (0..=PATTERN.len() as u64 + 1).chain([1 << 32, u64::MAX]) {
        requests.push(by_offset(offset, EVENTS, PATTERN));
    }
    for text in [&b""[..], b"1a", b"_a", b"a_1 b", b"a1_Z", b"@match", b"\x00a", &[b'n'; 100], &[b'n'; 5000]] {
        requests.push(by_offset(0, EVENTS, text));
        requests.push(by_offset(1, EVENTS, text));
        requests.push(by_number(0, EVENTS, text));
    }
    for bad in one_for_each() {
        requests.push(by_number(0, &bad, PATTERN));
        requests.push(by_offset(0, &bad, PATTERN));
        requests.push(call("numberofname").bytes(&bad).bytes("a"));
    }
    let n33 = "n".repeat(33);
    for name in
        ["mix", "feed", "drain", "", "mi", "mixx", "Mix", "bay", "event", "epsilon", "mix,0,1", "mix ", n33.as_str()]
    {
        requests.push(call("numberofname").bytes(EVENTS).bytes(name));
    }
    requests
}

pub fn cases() -> Vec<Case> {
    vec![
        case("texts", "classes", vec![call("classes")]),
        case("texts", "rows", rows()),
        case("texts", "fields", fields()),
        case("texts", "names", names()),
    ]
}
