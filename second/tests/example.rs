//! The document's example, byte for byte, and the cases it lists.

mod common;

use common::{plain, EVENTS, LOG, PATTERN};
use implementation::combination::Combination;
use implementation::history::{History, Rooms};
use implementation::log::run;
use implementation::property::Property;
use implementation::refusal::Refusal;
use implementation::rows::first_row;
use implementation::session::{event, lookup, start, Found, Lent};
use implementation::table::translate;
use implementation::tree::Slices;
use implementation::watch::{watch, Way};

fn lent(seen: usize, kept: usize, reports: usize) -> Lent {
    Lent { seen: vec![0; seen * 4], kept: vec![0; kept * 5], reports: vec![0; reports * 5], ..Lent::default() }
}

fn watched(way: Way, events: &[u8], pattern: &[u8], log: &[u8]) -> String {
    let mut out = Vec::new();
    watch(way, events, pattern, log, &mut out).unwrap();
    String::from_utf8(out).unwrap()
}

fn example() -> Property {
    translate(EVENTS, PATTERN).unwrap()
}

#[test]
fn the_whole_output() {
    for way in [Way::ByTables, Way::ByHistory] {
        assert_eq!(watched(way, EVENTS, PATTERN, LOG), "row,verdict,bay,batch\r\n5,match,1,7\r\n");
    }
}

#[test]
fn the_tables_afterwards() {
    let property = example();
    let mut lent = lent(6, 4, 3);
    start(&property, &mut lent).unwrap();
    let offset = first_row(LOG).len() as u64 + 2;
    let answer = run(EVENTS, &property, &mut lent, LOG, offset, 100);
    assert_eq!((answer.rows, answer.next, answer.reports, answer.refusal), (6, LOG.len() as u64, 1, None));
    let seen = [[0, 7, 0, 0], [1, 0, 0, 0], [1, 7, 0, 0], [2, 0, 0, 0], [2, 7, 0, 0], [0; 4]].concat();
    let kept = [[0; 5], [0, 7, 0, 0, 1], [0; 5], [0; 5]].concat();
    assert_eq!((lent.seen, lent.seen_count), (seen, 5));
    assert_eq!((lent.kept, lent.kept_count), (kept, 2));
    assert_eq!(lent.reports[..5], [1, 7, 0, 0, 1]);
    assert_eq!(lent.reports[5..], [0; 10]);
}

#[test]
fn p1_to_p5() {
    let property = example();
    assert_eq!(property.states, 5);
    for (state, row) in [(0, [1, 2, 2]), (1, [2, 3, 2]), (3, [2, 3, 4]), (2, [2; 3]), (4, [2; 3])] {
        assert_eq!([0, 1, 2].map(|event| property.step(state, event)), row);
    }
    assert_eq!(property.verdicts[..5], [0, 0, 2, 0, 1]);
    assert_eq!(property.check().unwrap()[..5], [true, true, false, true, false]);
}

/// The rows of the log one by one: event, values, reports after it.
#[test]
fn p6_to_p8() {
    let property = example();
    type Row = (u32, [u32; 4], &'static [[u32; 4]], usize);
    let rows: [Row; 6] = [
        (0, [0, 7, 0, 0], &[], 2),
        (1, [1, 7, 0, 0], &[], 3),
        (2, [2, 0, 0, 0], &[], 3),
        (1, [2, 7, 0, 0], &[], 3),
        (2, [1, 0, 0, 0], &[[1, 7, 0, 0]], 2),
        (2, [2, 0, 0, 0], &[], 2),
    ];
    let mut lent = lent(6, 4, 3);
    start(&property, &mut lent).unwrap();
    for (number, values, reported, kept) in rows {
        let count = event(&property, &mut lent, number, &Combination(values)).unwrap();
        let found: Vec<[u32; 4]> = lent.reports.chunks(5).take(count).map(|row| Combination::of_row(row).0).collect();
        assert_eq!(found, reported);
        assert_eq!(lent.kept_count as usize, kept);
    }
    assert_eq!(lookup(&property, &lent, &Combination([9, 7, 0, 0])), Ok(Found::Kept { state: 1, verdict: 0 }));
    assert_eq!(lookup(&property, &lent, &Combination([2, 7, 0, 0])), Ok(Found::Hopeless));
    assert_eq!(lookup(&property, &lent, &Combination([2, 7, 1, 0])), Err(Refusal::LookupPastParameters));
}

#[test]
fn p9_and_p10() {
    let epsilon = translate(&plain(&["a"]), b"ere : epsilon @match").unwrap();
    assert_eq!(epsilon.verdicts[0], 1);
    assert_eq!(epsilon.verdicts[epsilon.step(0, 0) as usize], 2);
    let (once, twice) =
        (translate(&plain(&["a", "b"]), b"ere:a*@match"), translate(&plain(&["a", "b"]), b"ere:a**@match"));
    assert_eq!(once, twice);
}

fn refused(events: &[u8], pattern: &str) -> (u32, usize) {
    translate(events, pattern.as_bytes()).map_or_else(|r| (r.refusal.number(), r.offset), |_| (0, 0))
}

#[test]
fn names_and_nesting() {
    let a = plain(&["a"]);
    assert_eq!(refused(&a, &format!("ere:{}@match", "a ".repeat(31))), (0, 0));
    assert_eq!(refused(&a, &format!("ere:{}@match", "a ".repeat(32))), (8, 4 + 62));
    let nested = |depth: usize| format!("ere:{}a{}@match", "(".repeat(depth), ")".repeat(depth));
    assert_eq!(refused(&a, &nested(16)), (0, 0));
    assert_eq!(refused(&a, &nested(17)), (9, 4 + 16));
    assert_eq!(refused(&a, &format!("ere:{}@match", "(a)".repeat(31))), (0, 0));
}

#[test]
fn states() {
    let ab = plain(&["a", "b"]);
    let text = |times| format!("ere : (a|b)* a {}@match", "(a|b)".repeat(times));
    assert_eq!(translate(&ab, text(4).as_bytes()).unwrap().states, 33);
    assert_eq!(refused(&ab, &text(5)), (10, 0));
}

#[test]
fn offsets_of_the_readings() {
    let a = plain(&["a"]);
    for (text, wanted) in [
        ("er", (6, 0)),
        ("", (6, 0)),
        (" \t\r\n", (6, 4)),
        ("ere", (6, 3)),
        ("ere ", (6, 4)),
        ("ere:@match", (6, 4)),
        ("ere:a@matchx", (6, 11)),
        ("ere:a@match@fail", (0, 0)),
        ("ere:a@fail@match ", (0, 0)),
        ("ere:a@match@match", (6, 11)),
        ("ere:()@match", (6, 5)),
        ("ere:(a@match", (6, 6)),
        ("ere:a)@match", (6, 5)),
        ("ere:a@mat", (6, 5)),
        ("ere:a 1 @match", (6, 6)),
        ("ere:a_ @match", (7, 4)),
        ("ere:_a @match", (6, 4)),
        ("ere:b ) @match", (7, 4)),
        ("ere:|a @match", (6, 4)),
        ("ere:a| @match", (6, 7)),
        ("ere:*a @match", (6, 4)),
        ("ere:a", (6, 5)),
        ("ere:(a", (6, 6)),
        ("ERE:a@match", (6, 0)),
        ("ere a@match", (6, 4)),
    ] {
        assert_eq!(refused(&a, text), wanted, "{text:?}");
    }
}

#[test]
fn values_of_a_field() {
    let property = example();
    for (field, refusal) in [
        ("4294967295", None),
        ("1", None),
        ("4294967296", Some(Refusal::FieldNotAValue)),
        ("99999999999999999999999", Some(Refusal::FieldNotAValue)),
        ("0", Some(Refusal::FieldNotAValue)),
        ("01", Some(Refusal::FieldNotAValue)),
        ("+1", Some(Refusal::FieldNotAValue)),
        ("", Some(Refusal::FieldsNotTheSet)),
    ] {
        let mut lent = lent(2, 2, 2);
        start(&property, &mut lent).unwrap();
        let answer = implementation::log::row(EVENTS, &property, &mut lent, format!("mix,,{field}").as_bytes());
        assert_eq!(answer.err(), refusal, "{field}");
    }
}

#[test]
fn seen_room_of_nothing() {
    let property = translate(b"event,x\r\na,0\r\nb,1", b"ere : (a|b)* @match").unwrap();
    let mut lent = lent(0, 2, 2);
    start(&property, &mut lent).unwrap();
    assert_eq!(event(&property, &mut lent, 0, &Combination::EMPTY), Ok(1));
    assert_eq!(event(&property, &mut lent, 1, &Combination([3, 0, 0, 0])), Err(Refusal::NoRoomForSeen));
}

/// Starting (2,7) at row 4 from (0,7) would report row 6: the history does not.
#[test]
fn the_history_says_the_same() {
    let property = example();
    let declared = implementation::declarations::Declarations::read(EVENTS).unwrap();
    let pattern = implementation::pattern::Pattern::read(&declared, PATTERN).unwrap();
    let rooms = Rooms { seen: 5, kept: 3, reports: 1 };
    let mut history = History::start(&property, Slices::new(&pattern, 3), rooms).unwrap();
    let rows = [(0, [0, 7]), (1, [1, 7]), (2, [2, 0]), (1, [2, 7]), (2, [1, 0]), (2, [2, 0])];
    let counts =
        rows.map(|(event, [bay, batch])| history.offer(event, &Combination([bay, batch, 0, 0])).unwrap().len());
    assert_eq!(counts, [0, 0, 0, 0, 1, 0]);
    assert_eq!(history.kept(), [Combination::EMPTY, Combination([0, 7, 0, 0])]);
}

#[test]
fn refused_files_and_rows() {
    for (events, pattern, log, wanted) in [
        (&b""[..], PATTERN, LOG, "refused 2\r\n"),
        (EVENTS, &b""[..], LOG, "refused 6\r\n"),
        (EVENTS, PATTERN, &b""[..], "refused 22\r\n"),
        (EVENTS, PATTERN, b"event,bay,batch", "row,verdict,bay,batch\r\n"),
        (
            EVENTS,
            PATTERN,
            b"event,bay,batch\r\n\r\nmix,,1\r\nx,,\r\n",
            "row,verdict,bay,batch\r\n1,refused 18,,\r\n3,refused 19,,\r\n",
        ),
        (
            b"event\r\na",
            b"ere:a@fail",
            b"event\r\n\r\na\r\na\n\r\na",
            "row,verdict\r\n1,refused 19\r\n3,refused 18\r\n4,fail\r\n",
        ),
    ] {
        assert_eq!(watched(Way::ByTables, events, pattern, log), wanted);
        assert_eq!(watched(Way::ByHistory, events, pattern, log), wanted);
    }
}

/// The class table, by ranges, over all entries.
#[test]
fn classes_by_ranges() {
    use implementation::class::{class, Class};
    for byte in 0..=255u8 {
        let wanted = match byte {
            65..=90 | 97..=122 => Class::Letter,
            48..=57 => Class::Digit,
            95 => Class::Underscore,
            9 | 10 | 13 | 32 => Class::Blank,
            40 => Class::Open,
            41 => Class::Close,
            58 => Class::Colon,
            124 => Class::Bar,
            42 => Class::Star,
            43 => Class::Plus,
            64 => Class::At,
            _ => Class::Other,
        };
        assert_eq!(class(byte), wanted);
    }
}
