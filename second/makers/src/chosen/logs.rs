//! Chosen cases: rows, runs and printed lines.

use crate::chosen::declarations::one_for_each;
use crate::chosen::properties::changed;
use crate::chosen::sessions::{fill, start, texts};
use crate::chosen::{case, Case, EVENTS, HEADER, PATTERN, ROWS};
use crate::request::{call, Request};

fn row(row: impl AsRef<[u8]>) -> Request {
    call("row").bytes(row)
}

fn run(offset: u64, budget: u64, log: impl AsRef<[u8]>) -> Request {
    call("run").number(offset).number(budget).bytes(log)
}

fn lines(number: u64) -> Request {
    call("lines").number(number)
}

/// The example's property with small rooms, started.
fn ready() -> Vec<Request> {
    let mut requests = texts(EVENTS, PATTERN);
    requests.extend([fill(24, 20, 15), start()]);
    requests
}

fn example() -> Vec<Request> {
    let mut requests = ready();
    for (i, text) in implementation::rows::rows(ROWS).enumerate() {
        requests.push(row(text));
        requests.push(lines(i as u64 + 1));
    }
    requests.push(start());
    requests.push(run(HEADER.len() as u64, 100, [HEADER, ROWS].concat()));
    requests
}

/// Rows refused 18 to 21, or taken.
fn rows() -> Vec<Request> {
    let long = |front: &str, fill: &str, length: usize| format!("{front}{}", fill.repeat(length - front.len()));
    let mut texts: Vec<String> = [
        // 18
        "",
        ",",
        ",,,",
        "mix",
        "mix,",
        "mix,,7,",
        "mix,,7\r",
        "mix,,7\n",
        "\rmix,,7",
        "mix,,7\r\n",
        "mi\nx,,7",
        "\"mix\",,7",
        "mix,,\"7\"",
        "mix,\"\",7",
        "mix,,7\"",
        "\"",
        // 19
        ",,",
        "mi,,7",
        "Mix,,7",
        "mixx,,7",
        " mix,,7",
        "mix ,,7",
        "event,,7",
        "bay,1,1",
        "epsilon,,",
        "\0,,",
        // 20
        "mix,,0",
        "mix,,01",
        "mix,,007",
        "mix,,4294967296",
        "mix,,9999999999",
        "mix,,10000000000",
        "mix,,18446744073709551617",
        "mix,,+7",
        "mix,,-7",
        "mix,, 7",
        "mix,,7 ",
        "mix,,7a",
        "mix,,a",
        "mix,,0x7",
        "mix,,7.0",
        "mix,x,7",
        "mix,0,7",
        "mix,,\0",
        // 21
        "mix,,",
        "mix,1,7",
        "mix,1,",
        "feed,1,",
        "feed,,7",
        "feed,,",
        "drain,,",
        "drain,,7",
        "drain,1,7",
        // taken
        "mix,,7",
        "mix,,4294967295",
        "feed,4294967295,4294967295",
        "drain,4294967295,",
        "mix,,1",
        "feed,1,1",
        "drain,1,",
        // 18 before 19, 19 before 20, 20 before 21
        "xim",
        "xim,0",
        "xim,,\"0\"",
        "xim,,0",
        "xim,x,",
        "mix,0,",
        "mix,0",
        "drain,01,7",
        "feed,,01",
    ]
    .map(String::from)
    .to_vec();
    for length in [128, 129] {
        texts.push(long("mix,,", "7", length));
        texts.push(long("", "n", length));
        texts.push(long("", "n", length - 2) + ",,");
        texts.push(long("mix,", "0", length - 2) + ",7");
        texts.push(long("xim,,", "\"", length));
        texts.push(long("", ",", length));
    }
    let n32 = "n".repeat(32);
    let mut requests = ready();
    for (i, text) in texts.iter().enumerate() {
        requests.push(row(text));
        requests.push(lines(i as u64));
    }
    // no parameter: an empty row has the right number of fields
    requests.extend(crate::chosen::sessions::texts("event\r\na", "ere:a@fail"));
    requests.extend([fill(0, 10, 10), start()]);
    for text in ["", "a", "a,", "b", "a\n", "a"] {
        requests.extend([row(text), lines(1)]);
    }
    // the longest row that is taken
    requests
        .extend(crate::chosen::sessions::texts(format!("event,w,x,y,z\r\n{n32},1,1,1,1"), format!("ere:{n32}@match")));
    requests.extend([fill(8, 10, 10), start()]);
    requests.push(row(format!("{n32},4294967295,4294967295,4294967295,4294967295")));
    requests.push(lines(u64::MAX - 1));
    requests
}

/// Room for a row: 21 before 15 before 16 before 17.
fn room() -> Vec<Request> {
    let mut requests = texts("event,x\r\na,1\r\nb,0\r\n", "ere:(a|b)*@match");
    for (seen, kept, reports) in [(0, 1, 0), (1, 1, 0), (1, 2, 0), (1, 2, 1), (0, 2, 1), (1, 2, 2)] {
        requests.extend([fill(seen * 4, kept * 5, reports * 5), start()]);
        for text in ["a,", "a,1", "a,1", "a,2", "b,", "b,1", "b"] {
            requests.extend([row(text), lines(3)]);
        }
        requests.extend([start(), run(0, 9, "a,1\r\na,1\r\nb,\r\na,2")]);
    }
    requests
}

/// What is judged before a row: 1 to 5, 11, 25, 12, and for a run 24.
fn before() -> Vec<Request> {
    let mut requests = Vec::new();
    let both = |requests: &mut Vec<Request>| {
        requests.extend([
            row("mix,,7"),
            lines(1),
            run(0, 1, "mix,,7"),
            run(9, 0, "mix,,7"),
            row("\""),
            run(0, 1, "\""),
        ]);
    };
    both(&mut requests);
    let mut good = ready();
    good.push(row("mix,,6"));
    // 1 to 5, then 11, then 25, then 12, then 24: each with all later faults present
    for bad in one_for_each() {
        requests.append(&mut good.clone());
        requests.push(call("declare").bytes(&bad));
        both(&mut requests);
        requests.push(call("property").property(&changed(|p| p.asked = 0)));
        both(&mut requests);
    }
    for property in [changed(|p| p.states = 0), changed(|p| p.parameters = 5), changed(|p| p.verdicts[1] = 3)] {
        requests.append(&mut good.clone());
        requests.push(call("property").property(&property));
        both(&mut requests);
        requests.push(call("declare").bytes("event,x\r\na,1"));
        both(&mut requests);
    }
    for declared in [
        "event,bay\r\nmix,0\r\nfeed,1\r\ndrain,1",
        "event,bay,batch,x\r\nmix,0,1,0\r\nfeed,1,1,0\r\ndrain,1,0,0",
        "event,bay,batch\r\nmix,0,1\r\nfeed,1,1",
        "event,bay,batch\r\nmix,0,1\r\nfeed,1,1\r\ndrain,1,0\r\nx,0,0",
        "event,bay,batch\r\nmix,0,1\r\nfeed,1,1\r\ndrain,1,1",
        "event,bay,batch\r\nmix,1,0\r\nfeed,1,1\r\ndrain,0,1",
        "event,x,y\r\nmix,0,1\r\na,1,1\r\nb,1,0",
    ] {
        requests.append(&mut good.clone());
        requests.push(call("declare").bytes(declared));
        both(&mut requests);
        requests.push(call("seen").number(9u64).list(&[0; 8]));
        both(&mut requests);
    }
    requests.append(&mut good.clone());
    requests.push(call("kept").number(9u64).list(&[0; 10]));
    both(&mut requests);
    requests
}

/// Offsets, budgets, line ends, refused rows and reports that follow one another.
fn runs() -> Vec<Request> {
    let log = [HEADER, ROWS].concat();
    let mut requests = ready();
    for offset in (0..=22).chain([64, log.len() as u64 - 1, log.len() as u64, log.len() as u64 + 1, 1 << 32, u64::MAX])
    {
        requests.extend([start(), run(offset, 2, &log)]);
    }
    for budget in [0, 1, 2, 3, 4, 5, 6, 7, 1 << 32, u64::MAX] {
        requests.extend([start(), run(17, budget, &log), run(17, budget, &log)]);
    }
    for text in [
        "",
        "\r\n",
        "\r",
        "\n",
        "mix,,7",
        "mix,,7\r\n",
        "mix,,7\r",
        "mix,,7\n",
        "mix,,7\r\n\r\n",
        "\r\nmix,,7",
        "mix,,7\nfeed,1,7\n",
        "mix,,7\r\nfeed,1,7\r\ndrain,1,",
        "mix,,7\r\nfeed,1,7\r\ndrain,1,\r\nxim,,\r\nmix,,8",
        "mix,,7\r\nfeed,1\r\nmix,,8",
        "mix,,7\r\nmix,,0\r\nmix,,8",
        "mix,,7\r\nmix,1,7\r\nmix,,8",
        "mix,,7\r\r\nmix,,8",
    ] {
        for budget in [0, 1, 2, 3, 100] {
            requests.extend([start(), run(0, budget, text)]);
        }
    }
    let long = format!("mix,,7\r\n{}\r\nmix,,8", "n".repeat(129));
    requests.extend([start(), run(0, 9, &long), run(8, 9, &long), run(9, 9, &long)]);
    // reports follow one another; each row has the room that earlier rows left
    requests.extend(texts("event,x\r\na,1\r\nb,0\r\n", "ere:(a|b)*@match"));
    for reports in [0, 4, 5, 10, 14, 15, 20, 25, 30, 50] {
        requests.extend([fill(20, 20, reports), start(), run(0, 9, "b,\r\na,1\r\na,1\r\nb,\r\na,2\r\nb,\r\n")]);
    }
    requests.extend([
        fill(12, 15, 100),
        start(),
        run(0, 99, "a,1\r\na,2\r\nb,\r\na,3\r\nb,"),
        run(15, 99, "a,1\r\na,2\r\nb,\r\na,3\r\nb,"),
    ]);
    requests
}

/// Logs that fill the rooms of the program.
fn limits() -> Vec<Request> {
    let mut requests = texts("event,x\r\na,1\r\n", "ere:a a@match");
    let log: String = (1..=1100).map(|x| format!("a,{x}\r\n")).collect();
    requests.push(call("fill").numbers(&[1030 * 4 + 1, 9, 3010 * 5 + 1, 9, 12, 9]));
    requests.extend([start(), run(0, u64::MAX, &log), run(0, 3, "a,1024\r\na,1025"), start(), run(0, 1024, &log)]);
    requests
}

pub fn cases() -> Vec<Case> {
    vec![
        case("logs", "example", example()),
        case("logs", "rows", rows()),
        case("logs", "room", room()),
        case("logs", "before-a-row", before()),
        case("logs", "runs", runs()),
        case("logs", "limits", limits()),
    ]
}
