//! The chosen cases: each refusal appears at every call that can give it, and no request is too long.

mod common;

use std::collections::{BTreeMap, BTreeSet};

use batches::answer::{answer_batch, answer_request};
use batches::read::Items;
use batches::state::State;
use implementation::watch::{watch, Way};
use makers::chosen::{all, Case};

/// The refusals that document 01 lets each call give.
const WANTED: [(&str, &[u32]); 16] = [
    ("declarations", &[0, 1, 2, 3, 4, 5]),
    ("header", &[0, 1, 2, 3, 4, 5, 22]),
    ("rowat", &[0, 24]),
    ("translate", &[0, 1, 2, 3, 4, 5, 6, 7, 8, 9, 10]),
    ("verdicts", &[0, 1, 2, 3, 4, 5, 6, 7, 10, 13]),
    ("check", &[0, 11]),
    ("start", &[0, 11, 16]),
    ("event", &[0, 11, 12, 13, 14, 15, 16, 17]),
    ("lookup", &[0, 11, 12, 23]),
    ("grow", &[0, 12, 15, 16, 17]),
    ("row", &[0, 1, 2, 3, 4, 5, 11, 12, 15, 16, 17, 18, 19, 20, 21, 25]),
    ("run", &[0, 1, 2, 3, 4, 5, 11, 12, 15, 16, 17, 18, 19, 20, 21, 24, 25]),
    ("classes", &[0]),
    ("field", &[0]),
    ("rows", &[0]),
    ("lines", &[0]),
];

/// The refusal that an answer names, 0 if none.
fn refusal(word: &str, line: &[u8]) -> u32 {
    let text = String::from_utf8_lossy(line);
    let item = |index: usize| text.split_whitespace().nth(index).and_then(|item| item.parse().ok());
    match word {
        "run" => item(4).unwrap(),
        "grow" => item(3).unwrap(),
        _ if text.starts_with("refused ") => item(1).unwrap(),
        _ => 0,
    }
}

/// Goes through the requests of a case: the word, the request's length and the answer.
fn each_request(case: &Case, mut seen: impl FnMut(&str, usize, &[u8])) {
    let (mut items, mut state) = (Items::new(&case.batch), State::default());
    while !items.at_end() {
        let before = items.left();
        let start = case.batch.len() - before;
        let word: String =
            case.batch[start..].iter().take_while(|b| b.is_ascii_lowercase()).map(|&b| b as char).collect();
        let answer =
            answer_request(&mut state, &mut items).unwrap_or_else(|| panic!("{}: malformed", case.name)).line();
        seen(&word, before - items.left(), &answer);
    }
}

#[test]
fn every_refusal_at_every_call() {
    let mut given: BTreeMap<String, BTreeSet<u32>> = BTreeMap::new();
    for case in all().iter().filter(|case| case.name != "random") {
        each_request(case, |word, length, answer| {
            assert!(length <= 65_536, "{}: a request of {length} bytes", case.name);
            given.entry(word.to_string()).or_default().insert(refusal(word, answer));
        });
    }
    for (word, wanted) in WANTED {
        let wanted: BTreeSet<u32> = wanted.iter().copied().collect();
        let given = given.get(word).unwrap_or_else(|| panic!("no {word}"));
        assert!(wanted.is_subset(given), "{word}: {:?} missing", wanted.difference(given));
        assert!(given.is_subset(&wanted), "{word}: {:?} not known", given.difference(&wanted));
    }
}

/// The printed refusals of the program: 1 to 10 and 22 alone, 15, 16 and 18 to 21 for a row.
#[test]
fn every_refusal_that_is_printed() {
    let (mut alone, mut rows) = (BTreeSet::new(), BTreeSet::new());
    for case in all() {
        each_request(&case, |word, _, answer| {
            if word != "watch" {
                return;
            }
            let text = String::from_utf8_lossy(answer);
            let (_, printed) = text.split_once(':').unwrap();
            for line in printed.split("\r\n") {
                let number = |part: &str| part.split(',').next().unwrap().parse::<u32>().unwrap();
                if let Some(part) = line.strip_prefix("refused ") {
                    alone.insert(number(part));
                } else if let Some((_, part)) = line.split_once(",refused ") {
                    rows.insert(number(part));
                }
            }
        });
    }
    assert_eq!(alone, (1..=10).chain([22]).collect());
    assert_eq!(rows, BTreeSet::from([15, 16, 18, 19, 20, 21]));
}

/// What the program prints in the chosen cases is what the history says.
#[test]
fn chosen_files_by_history() {
    for case in all().iter().filter(|case| case.name.starts_with("watch")) {
        let mut items = Items::new(&case.batch);
        while !items.at_end() {
            assert_eq!(items.word(), Some(&b"watch"[..]));
            let files = [items.bytes().unwrap(), items.bytes().unwrap(), items.bytes().unwrap()];
            items.end().unwrap();
            let print = |way| {
                let mut out = Vec::new();
                watch(way, files[0], files[1], files[2], &mut out).unwrap();
                out
            };
            assert_eq!(print(Way::ByTables), print(Way::ByHistory));
        }
    }
}

/// The case folder beside this one holds what the program writes today.
#[test]
fn the_case_folder_is_as_written() {
    let dir = std::path::Path::new(env!("CARGO_MANIFEST_DIR")).join("../cases");
    for case in all() {
        let file = dir.join(case.kind).join(case.name);
        let read = |extension: &str| std::fs::read(file.with_extension(extension)).unwrap_or_default();
        assert!(read("batch") == case.batch, "{}/{}.batch is not as written", case.kind, case.name);
        assert!(read("answers") == answer_batch(&case.batch), "{}/{}.answers is not as answered", case.kind, case.name);
    }
}
