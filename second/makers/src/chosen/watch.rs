//! Chosen cases: what the watch program prints for three files.

use crate::chosen::declarations::one_for_each;
use crate::chosen::{case, Case, EVENTS, HEADER, PATTERN, ROWS};
use crate::request::{call, Request};

fn watch(events: impl AsRef<[u8]>, pattern: impl AsRef<[u8]>, log: impl AsRef<[u8]>) -> Request {
    call("watch").bytes(events).bytes(pattern).bytes(log)
}

/// The example with other rows.
fn logged(rows: &str) -> Request {
    watch(EVENTS, PATTERN, [HEADER, rows.as_bytes()].concat())
}

fn files() -> Vec<Request> {
    let log = [HEADER, ROWS].concat();
    let mut requests = vec![
        watch(EVENTS, PATTERN, &log),
        watch("", "", ""),
        watch("", PATTERN, &log),
        watch(EVENTS, "", &log),
        watch(EVENTS, PATTERN, ""),
    ];
    for bad in one_for_each() {
        requests.push(watch(&bad, PATTERN, &log));
        requests.push(watch(&bad, "x".repeat(4097), ""));
    }
    let many = format!("ere:{}@match", "mix ".repeat(32));
    let deep = format!("ere:{}", "(".repeat(17));
    let states = format!("ere:(mix|feed)* mix{}@match", "(mix|feed)".repeat(5));
    for pattern in ["x".repeat(4097), "ere:".into(), "ere:xim@match".into(), many, deep, states] {
        requests.push(watch(EVENTS, &pattern, &log));
        requests.push(watch(EVENTS, &pattern, "nothing"));
    }
    for header in [
        "event,bay,batch",
        "event,bay,batch\n",
        "event,bay",
        "event,bay,batch\r",
        "event,bay,batch\r\r\n",
        " event,bay,batch\r\n",
        "event,bay,batch,\r\n",
        "EVENT,bay,batch\r\n",
        "\r\n",
    ] {
        requests.push(watch(EVENTS, PATTERN, header));
        requests.push(watch(EVENTS, PATTERN, format!("{header}mix,,7\r\n")));
    }
    let long = "event,".to_string() + &"x".repeat(30_000);
    requests.push(watch(EVENTS, PATTERN, long));
    requests
}

fn rows() -> Vec<Request> {
    let n129 = "n".repeat(129);
    let mut requests = vec![
        logged("\r\n"),
        logged("\r\n\r\n"),
        logged("\r"),
        logged("\n"),
        logged("xim,,7"),
        logged("mix,,0\r\nmix,,7\r\nmix,1,7\r\n\"mix\",,7\r\nfeed,1,7\r\ndrain,1,"),
        logged("mix,,7\r\nfeed,1,7\r\ndrain,1,\r"),
        logged("mix,,7\nfeed,1,7\ndrain,1,\n"),
        logged("mix,,7\r\nfeed,1,7\r\nfeed,2,7\r\ndrain,1,\r\ndrain,2,\r\ndrain,1,"),
        logged(&format!("{n129}\r\nmix,,7\r\n{}\r\n", "x".repeat(30_000))),
        logged("mix,,4294967295\r\nfeed,4294967295,4294967295\r\ndrain,4294967295,"),
        logged("mix,,4294967296\r\nmix,,01"),
    ];
    for (events, pattern) in [
        ("event\r\na\r\nb", "ere:a b@match@fail"),
        ("event\r\na\r\nb", "ere:(a|b)*@fail"),
        ("event\r\na\r\nb", "ere:epsilon@match@fail"),
    ] {
        requests.push(watch(events, pattern, "event\r\na\r\nb\r\n\r\nc\r\na,\r\na"));
    }
    for pattern in ["ere:a b@fail", "ere:(a|b|c)*@match", "ere:a*@match@fail", "ere:c@match"] {
        let log = "event,w,x,y,z\r\na,1,,,\r\nb,,2,,\r\nc,,,3,4\r\na,1,,,\r\nb,,1,,\r\nd,,,,\r\na,,,,\r\n";
        requests.push(watch("event,w,x,y,z\r\na,1,0,0,0\r\nb,0,1,0,0\r\nc,0,0,1,1\r\nd,0,0,0,0", pattern, log));
    }
    requests
}

/// Rooms of 1,024 and 3,000 rows that run out.
fn limits() -> Vec<Request> {
    let seen: String = (1..=1030).map(|x| format!("a,{x}\r\n")).collect();
    let kept: String = (1..=59).map(|x| format!("a,{x},\r\n")).chain((1..=51).map(|y| format!("b,,{y}\r\n"))).collect();
    vec![
        watch("event,x\r\na,1", "ere:a a@match", format!("event,x\r\n{seen}a,1\r\na,1024\r\na,2000\r\n")),
        watch("event,x,y\r\na,1,0\r\nb,0,1", "ere:a b b@match", format!("event,x,y\r\n{kept}b,,7\r\nb,,900\r\n")),
        watch("event,x,y\r\na,1,0\r\nb,0,1\r\nc,0,0", "ere:(a|b)*@fail", format!("event,x,y\r\n{kept}a,900,\r\n")),
    ]
}

pub fn cases() -> Vec<Case> {
    vec![
        case("logs", "watch-files", files()),
        case("logs", "watch-rows", rows()),
        case("logs", "watch-limits", limits()),
    ]
}
