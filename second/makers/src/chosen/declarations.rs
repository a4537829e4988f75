//! Chosen cases: declarations, and the calls that judge them before anything else.

use crate::chosen::{case, Case};
use crate::request::{call, Request};

/// Sixteen events of no parameter and what follows them.
fn sixteen(behind: &str) -> String {
    let rows: String = (0..16).map(|i| format!("\r\ne{i}")).collect();
    format!("event{rows}{behind}")
}

/// One text for each of 1 to 5.
pub fn one_for_each() -> Vec<Vec<u8>> {
    vec![vec![b'x'; 4097], b"".to_vec(), b"event\r\n9".to_vec(), b"event\r\na\r\na".to_vec(), b"event".to_vec()]
}

/// Texts that are taken.
fn taken() -> Vec<String> {
    let n32 = format!("n{}", "9".repeat(31));
    let mut texts = vec![
        "event\r\na".to_string(),
        "event\r\na\r\n".to_string(),
        "event,x\r\na,1".to_string(),
        "event,x\r\na,0\r\n".to_string(),
        "event,bay,batch\r\nmix,0,1\r\nfeed,1,1\r\ndrain,1,0\r\n".to_string(),
        "event,w,x,y,z\r\na,1,0,0,1\r\nb,1,1,1,1\r\nc,0,0,0,0".to_string(),
        "event,event,epsilon,row\r\nere,1,0,0\r\nmatch,0,1,0\r\nevent,0,0,1\r\nsuffix,0,0,0".to_string(),
        "event,a,A\r\na,1,0\r\nA,0,1".to_string(),
        "event,Zz_9\r\nz__,1\r\nEpsilon,0\r\nepsilon_,1".to_string(),
    ];
    texts.push(format!("event,{n32}\r\n{n32},1"));
    texts.push(sixteen(""));
    texts.push(sixteen("\r\n"));
    texts
}

/// Refused 2: line ends, numbers of fields, the first field, marks.
fn shapes() -> Vec<String> {
    let mut texts: Vec<String> = ["", "\r\n", "\r", "\n", "\r\n\r\n", ",", "x"].map(String::from).to_vec();
    for header in
        ["Event", "event ", " event", "events", "even", "\"event\"", "", "event\r", "event\n", "\nevent", "ev\rent"]
    {
        texts.push(format!("{header},x\r\na,1"));
    }
    texts.push("event,x\na,1".into());
    texts.push("event,x\r\r\na,1".into());
    texts.push("event,x\n\r\na,1".into());
    for row in [
        "", "a", "a,1,1", "a,", "a,2", "a,01", "a, 1", "a,1 ", "a,\"1\"", "a,x", "a,1\r", "a,1\n", "a\n,1", "a,-1",
        "a,00", "\r", "\n", ",,", "a,1,",
    ] {
        texts.push(format!("event,x\r\n{row}"));
        texts.push(format!("event,x\r\n{row}\r\n"));
        texts.push(format!("event,x\r\nb,1\r\n{row}\r\nc,1"));
    }
    texts
}

/// Refused 3 and 4: names.
fn names() -> Vec<String> {
    let n33 = format!("n{}", "x".repeat(32));
    let mut texts = Vec::new();
    let bad = ["", "1", "_", "1a", "_a", "a-b", "a b", " a", "a ", "\"a\"", "a.", "é", "a\0", "a@", n33.as_str()];
    for name in bad {
        texts.push(format!("event,{name}\r\na,1"));
        texts.push(format!("event,y,{name}\r\na,1,1"));
        texts.push(format!("event,y\r\n{name},1"));
        texts.push(format!("event\r\n{name}\r\n"));
    }
    for text in [
        "event,x\r\nepsilon,1",
        "event\r\na\r\nepsilon",
        "event,x,x\r\na,1,1",
        "event,x,y,x\r\na,1,1,1",
        "event,w,x,y,y\r\na,1,1,1,1",
        "event,x\r\na,1\r\na,0",
        "event\r\na\r\nb\r\na",
        "event\r\n\r\n",
        "event\r\na\r\n\r\n",
        "event\r\n\r\na",
    ] {
        texts.push(text.into());
    }
    texts.push(sixteen("").replace("e15", "e0"));
    texts
}

/// Refused 5, and each order that the document fixes.
fn counts_and_orders() -> Vec<String> {
    let mut texts: Vec<String> = [
        "event",
        "event\r\n",
        "event,x",
        "event,w,x,y,z\r\n",
        "event,v,w,x,y,z\r\na,1,1,1,1,1",
        "event,v,w,x,y,z",
        // 5 before 2, before 3, before 4, in one header
        "even,v,w,x,y,z",
        ",,,,,",
        "event,v,w\r,x,y,z",
        "event,v,w,x\n,y,z\r\na",
        "event,1,w,x,y,z",
        "event,v,v,x,y,z",
        // 2 before 3, 2 before 4, 3 before 4, in one header
        "even,1\r\na,1",
        "even,x,x\r\na,1,1",
        "event,x\r,1\r\na,1,1",
        "event,1,1\r\na,1,1",
        "event,x,x,1\r\na,1,1,1",
        // the same in one row
        "event,x\r\n1,2",
        "event,x\r\nepsilon,1,1",
        "event,x\r\na,1\r\na,2",
        "event,x\r\na,1\r\na",
        "event\r\nepsilon\r\nepsilon",
        // the first faulty row, whatever follows
        "event,x,x\r\na,2",
        "event,1\r\na,2",
        "event,x\r\n1,1\r\na,2",
        "event,x\r\na,1\r\na,1\r\nb,2",
        "event,x\r\na,2\r\n1,1",
        "event,x\r\na,1\r\na,1\r\n1,1",
        // "no event" comes last
        "even",
        "event,1",
        "event,x,x",
        "event\r",
    ]
    .map(String::from)
    .to_vec();
    for behind in
        ["\r\ne16", "\r\ne16\r\n", "\r\n\r\n", "\r\ne0", "\r\n9", "\r\ne16,1", "\r\ne\r16", "\r\nepsilon", "\r\n,"]
    {
        texts.push(sixteen(behind));
    }
    texts.push(sixteen("\r\ne16").replace("e3", "9"));
    texts.push(sixteen("\r\ne16").replace("e3\r", "e2\r"));
    texts.push(sixteen("\r\ne16").replace("e3\r", "e3,1\r"));
    texts
}

/// 4,096 and 4,097 bytes; no text as long as that is free of other faults.
fn lengths() -> Vec<String> {
    let mut texts = Vec::new();
    for length in [4096, 4097, 5000] {
        for front in ["event\r\n", "event,", "", "event\r\na\r\na\r\n", "event,v,w,x,y,z\r\n"] {
            texts.push(format!("{front}{}", "n".repeat(length - front.len())));
        }
        texts.push("\r\n".repeat(length / 2) + if length % 2 == 1 { "\r" } else { "" });
    }
    texts
}

fn headers() -> Vec<Request> {
    let text = "event,bay,batch\r\nmix,0,1";
    let mut requests = Vec::new();
    for header in [
        "event,bay,batch",
        "event,bay,batch\r\n",
        "event,bay,batch\r",
        "event,bay,batch ",
        "event,bay",
        "event,batch,bay",
        "",
        "Event,bay,batch",
        "event,bay,batch,",
        "event;bay;batch",
        "event,bay,batch\r\nmix,0,1",
        "\"event\",bay,batch",
    ] {
        requests.push(call("header").bytes(text).bytes(header));
    }
    let wide: Vec<String> = ["w", "x", "y", "z"].iter().map(|name| name.repeat(32)).collect();
    let header = format!("event,{}", wide.join(","));
    let text = format!("{header}\r\na,1,1,1,1");
    requests.push(call("header").bytes(&text).bytes(&header));
    requests.push(call("header").bytes(&text).bytes(&header[..128]));
    requests.push(call("header").bytes(&text).bytes(format!("{header}x")));
    requests.push(call("header").bytes("event\r\na").bytes("event"));
    for bad in one_for_each() {
        requests.push(call("header").bytes(&bad).bytes(implementation::rows::first_row(&bad)));
        requests.push(call("header").bytes(&bad).bytes("event,bay"));
    }
    requests
}

pub fn cases() -> Vec<Case> {
    let declare = |texts: Vec<String>| texts.into_iter().map(|text| call("declarations").bytes(text)).collect();
    vec![
        case("texts", "declarations-taken", declare(taken())),
        case("texts", "declarations-shape", declare(shapes())),
        case("texts", "declarations-names", declare(names())),
        case("texts", "declarations-counts-and-orders", declare(counts_and_orders())),
        case("texts", "declarations-length", declare(lengths())),
        case("texts", "header", headers()),
    ]
}
