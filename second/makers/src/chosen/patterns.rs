//! Chosen cases: pattern texts, verdicts, property tables.

use crate::chosen::declarations::one_for_each;
use crate::chosen::{case, Case, EVENTS, PATTERN};
use crate::request::{call, Request};

const A: &str = "event\r\na\r\n";
const AB: &str = "event\r\na\r\nb\r\n";
const ABC: &str = "event\r\na\r\nb\r\nc\r\n";

fn translate(events: impl AsRef<[u8]>, text: impl AsRef<[u8]>) -> Request {
    call("translate").bytes(events).bytes(text)
}

/// Refused 6 somewhere, or nearly.
const GRAMMAR: [&str; 86] = [
    "",
    " ",
    " \t\r\n",
    "e",
    "er",
    "ere",
    "ere ",
    "eres",
    "ERE",
    "ere:",
    "ere :",
    "ere : ",
    "ere:a",
    "ere:a ",
    "ere a",
    "ere::a@match",
    ":",
    "a",
    "(ere:a@match)",
    "@match",
    "@match ere:a",
    "ere:@match",
    "ere:@fail",
    "ere:@",
    "ere:a@",
    "ere:a@ match",
    "ere:a@mat",
    "ere:a@matc",
    "ere:a@fai",
    "ere:a@Match",
    "ere:a@MATCH",
    "ere:a@@match",
    "ere:a@match",
    "ere:a@fail",
    "ere:a@match@fail",
    "ere:a@fail@match",
    "ere:a @match @fail ",
    "ere:a@matchx",
    "ere:a@failx",
    "ere:a@match1",
    "ere:a@match_",
    "ere:a@match a",
    "ere:a@match(",
    "ere:a@match*",
    "ere:a@match@match",
    "ere:a@fail@fail",
    "ere:a@match@fail@match",
    "ere:a@match@fail@fail",
    "ere:a@match@",
    "ere:a@match@fail@",
    "ere:a@match:",
    "ere:a@match\x00",
    "ere:()@match",
    "ere:(a@match",
    "ere:(a",
    "ere:(a)",
    "ere:a)@match",
    "ere:)@match",
    "ere:(a))@match",
    "ere:((a)@match",
    "ere:(",
    "ere:(|a)@match",
    "ere:(a|)@match",
    "ere:|a@match",
    "ere:a|@match",
    "ere:a||a@match",
    "ere:a|",
    "ere:*@match",
    "ere:*a@match",
    "ere:a|*@match",
    "ere:(*)@match",
    "ere:+a@match",
    "ere:a:@match",
    "ere:a,a@match",
    "ere:a 1@match",
    "ere:1@match",
    "ere:a1@match",
    "ere:_@match",
    "ere:a _a@match",
    "ere:\"a\"@match",
    "ere:a?@match",
    "ere:a\x0b@match",
    "ere:a\u{e9}@match",
    "ere:epsilon",
    "ere:a.a@match",
    "suffix ere:a@match",
];

/// Taken, over a and b.
const GOOD: [&str; 30] = [
    "ere:a@match",
    "ere:epsilon@match",
    "ere:epsilon@fail",
    "ere:epsilon@match@fail",
    "ere:a*@match",
    "ere:a**@match",
    "ere:a+@match",
    "ere:a++@match",
    "ere:a*+@match",
    "ere:a+*@match",
    "ere:(a*)*@match",
    "ere:(a+)+@match",
    "ere:epsilon*@match",
    "ere:epsilon+ a@match",
    "ere:(epsilon|a) b@match",
    "ere:a b@match",
    "ere:a|b@match",
    "ere:a|b a@match",
    "ere:(a|b)*@fail",
    "ere:(a|b)*@match",
    "ere:(a|b)+@fail",
    "ere:a a*@fail",
    "ere:(a b)*@match@fail",
    "ere:(a b|b a)+@fail@match",
    "ere:a epsilon b@match",
    "ere:(((a)))@match",
    "ere:(a|a) (a|a)@match",
    "ere:(a|epsilon)*@match",
    "ere:((a*b*)*)*@match",
    "ere:(a*|b)(b|a a)+@match",
];

fn good() -> Vec<Request> {
    let mut requests: Vec<Request> = GOOD.iter().map(|text| translate(AB, text)).collect();
    for text in [
        "\tere\r\n: a\t\tb\r\r@match\n",
        " ere : ( a | b ) * @match @fail ",
        "ere\n:\na\n*\n+\n@fail\n",
        "ere:(a)(b)@match",
    ] {
        requests.push(translate(AB, text));
    }
    requests.push(translate(EVENTS, PATTERN));
    // an event the pattern never names
    requests.push(translate(ABC, "ere:(a|b)*@match"));
    requests.push(translate(ABC, "ere:(a|b)*@fail"));
    // names that look like other words
    let words = "event\r\nere\r\nmatch\r\nfail\r\nevent\r\nepsilon_\r\nerea\r\n";
    requests.push(translate(words, "ere:ere match fail event epsilon_ erea@match"));
    requests.push(translate(words, "ere:ere:@match"));
    requests.push(translate(words, "ere:epsilon ere@match@fail"));
    requests
}

fn grammar() -> Vec<Request> {
    GRAMMAR.iter().map(|text| translate(A, text)).collect()
}

fn nested(depth: usize, inside: &str) -> String {
    format!("{}{inside}{}", "(".repeat(depth), ")".repeat(depth))
}

/// 7, 8, 9, and which of 6 to 9 comes first.
fn limits() -> Vec<Request> {
    let many = |count: usize, behind: &str| format!("ere:{}{behind}", "a ".repeat(count));
    let n33 = "n".repeat(33);
    let texts = vec![
        "ere:b@match".to_string(),
        "ere:a b".into(),
        "ere:b".into(),
        "ere:b)".into(),
        "ere:a)b".into(),
        "ere:(b".into(),
        "ere:bay@match".into(),
        "ere:A@match".into(),
        "ere:a@match b".into(),
        "ere b:a".into(),
        "b:a".into(),
        "ere:b@match@".into(),
        format!("ere:{n33}@match"),
        "ere:ere@match".into(),
        "ere:event@match".into(),
        "ere:match@match".into(),
        "ere:a|b|c@match".into(),
        // names
        many(31, "@match"),
        many(32, "@match"),
        many(33, "@match"),
        many(31, "b@match"),
        many(31, "a"),
        many(31, "epsilon@match"),
        many(31, ")a@match"),
        many(32, ")"),
        many(31, "@match a"),
        many(30, "b a a"),
        many(31, "| @match"),
        many(31, "(a)@match"),
        format!("ere:{}@match", vec!["a"; 31].join("|")),
        format!("ere:{}@match", vec!["a"; 32].join("|")),
        format!("ere:{}@match", "(a)".repeat(31)),
        format!("ere:{}@match", "epsilon ".repeat(40)),
        // as many parts side by side, and between bars, as 4,096 bytes hold: a reader that calls itself for each is deepest here
        format!("ere:{}@match", "epsilon ".repeat(510)),
        format!("ere:{}@match", ["epsilon"; 510].join("|")),
        // nesting
        format!("ere:{}@match", nested(16, "a")),
        format!("ere:{}@match", nested(17, "a")),
        format!("ere:{}@match", nested(16, "(")),
        format!("ere:{}", "(".repeat(16)),
        format!("ere:{}", "(".repeat(17)),
        format!("ere:{}@match", nested(16, ")")),
        format!("ere:{}{}@match", nested(16, "a"), nested(16, "a")),
        format!("ere:{}b", "(".repeat(17)),
        format!("ere:{}b(", "(".repeat(16)),
        format!("ere:{}", "(".repeat(40)),
        format!("ere:{}((a@match", "(a)".repeat(20)),
        format!("ere:{}(", nested(16, "a|")),
        // the 32nd name within 16 parentheses, a 17th parenthesis behind 31 names
        format!("ere:{}{}a", "a ".repeat(31), "(".repeat(16)),
        format!("ere:{}{}a", "a ".repeat(31), "(".repeat(17)),
        format!("ere:{}{}", nested(15, "a"), "(".repeat(17)),
    ];
    texts.into_iter().map(|text| translate(A, text)).collect()
}

/// 64 states and one more, and 10 behind every other refusal.
fn states() -> Vec<Request> {
    let chain = |times: usize, behind: &str| format!("ere : (a|b)* a {}{behind}", "(a|b)".repeat(times));
    let (s63, s64) = (
        "ere : (a|b)* b (a|b) (a|b) (a|b b) (a|b) a b+ @match",
        "ere : (a|b)* b (a|b b) (a|b) (a|b) (a|b) b+ a* @match",
    );
    let mut requests = Vec::new();
    for text in [
        chain(4, "@match"),
        chain(5, "@match"),
        chain(6, "@fail"),
        chain(5, "c@match"),
        chain(5, ""),
        chain(5, "@match)"),
        chain(5, "((((((((((((((((( "),
    ] {
        requests.push(translate(AB, text));
    }
    for text in [s63, s64] {
        requests.push(translate(AB, text));
        requests.push(translate(ABC, text));
    }
    let sixteen: String = (0..16).map(|i| format!("\r\ne{i}")).collect();
    let names: Vec<String> = (0..31).map(|i| format!("e{}", i % 16)).collect();
    requests.push(translate(format!("event{sixteen}"), format!("ere:{}@match", names.join(" "))));
    requests
}

/// 4,096 and 4,097 bytes, and declarations before patterns.
fn lengths_and_orders() -> Vec<Request> {
    let padded = |front: &str, fill: &str, behind: &str, length: usize| {
        format!("{front}{}{behind}", fill.repeat(length - front.len() - behind.len()))
    };
    let mut requests = Vec::new();
    for length in [4096, 4097] {
        for (fill, behind) in [
            (" ", "@match"),
            ("*", "@match"),
            ("+", "@fail"),
            ("(", "@match"),
            (" ", ""),
            ("x", "@match"),
            ("\n", "@match@match"),
        ] {
            requests.push(translate(A, padded("ere:a", fill, behind, length)));
        }
        requests.push(translate(A, " ".repeat(length)));
    }
    for bad in one_for_each() {
        for text in ["ere:a@match".to_string(), "".into(), "x".repeat(4097)] {
            requests.push(translate(&bad, &text));
            requests.push(call("verdicts").bytes(&bad).bytes(&text).list(&[9]));
        }
    }
    requests
}

fn verdicts() -> Vec<Request> {
    let of = |events: &str, text: &str, sequence: &[u32]| call("verdicts").bytes(events).bytes(text).list(sequence);
    let mut requests = vec![
        of(A, "ere:epsilon@match", &[]),
        of(A, "ere:epsilon@match", &[0]),
        of(AB, "ere:a**@match", &[0, 0, 0, 1, 0]),
        of(ABC, "ere:(a|b)*@match", &[0, 1, 2, 0]),
        of(AB, "ere:a b@match", &[0, 1, 0]),
        of(AB, "ere:a b@match", &[1, 0]),
        of(AB, "ere:a@match", &[0, 2]),
        of(AB, "ere:a@match", &[u32::MAX]),
        of(AB, "ere:@match", &[2]),
        of(AB, "ere:c@match", &[0]),
    ];
    let long: Vec<u32> = (0..200).map(|i| u32::from(i % 7 == 0)).collect();
    for text in GOOD {
        requests.push(of(AB, text, &[0, 0, 1, 0, 1, 1]));
        requests.push(of(AB, text, &[1, 0]));
    }
    requests.push(of(AB, "ere:(a|b)* a (a|b)(a|b)(a|b)(a|b)@match", &long));
    requests.push(of(AB, "ere:(a|b)* a (a|b)(a|b)(a|b)(a|b)(a|b)@match", &long));
    requests.push(call("verdicts").bytes(EVENTS).bytes(PATTERN).list(&[0, 1, 1, 1, 2, 0]));
    requests
}

pub fn cases() -> Vec<Case> {
    vec![
        case("patterns", "taken", good()),
        case("patterns", "grammar", grammar()),
        case("patterns", "names-and-nesting", limits()),
        case("patterns", "states", states()),
        case("patterns", "lengths-and-orders", lengths_and_orders()),
        case("patterns", "verdicts", verdicts()),
        case("patterns", "check", crate::chosen::properties::checks()),
    ]
}
