//! The program by tables and by history on random folders, runs held to rows, batches held to the form.

mod common;

use std::collections::BTreeSet;

use batches::answer::{answer_batch, answer_request};
use batches::read::Items;
use batches::state::State;
use common::accepted;
use implementation::log::{row, run};
use implementation::rows::{rows, Reader};
use implementation::session::{start, Lent};
use implementation::watch::{watch, Way};
use makers::random::batch::make;
use makers::random::folders::folder;
use makers::random::rng::Rng;
use makers::random::texts;

fn watched(way: Way, files: [&[u8]; 3]) -> Vec<u8> {
    let mut out = Vec::new();
    watch(way, files[0], files[1], files[2], &mut out).unwrap();
    out
}

#[test]
fn both_ways_print_the_same() {
    let mut rng = Rng::new(31);
    let mut printed = 0;
    for _ in 0..6_000 {
        let made = folder(&mut rng, false);
        let files = [made.events, made.pattern, made.log].map(Option::unwrap_or_default);
        let files = [&files[0][..], &files[1], &files[2]];
        let out = watched(Way::ByTables, files);
        assert_eq!(out, watched(Way::ByHistory, files));
        printed += rows(&out).count();
    }
    assert!(printed > 10_000, "the folders print too little: {printed}");
}

/// Kept combinations that do not fit: 57 times 57 of two parameters, most rows refused in the end.
#[test]
fn both_ways_at_full_room() {
    let events = b"event,x,y\r\na,1,0\r\nb,0,1\r\nc,1,1";
    let mut log = b"event,x,y\r\n".to_vec();
    for value in 1..=57 {
        log.extend(format!("a,{value},\r\nb,,{value}\r\nc,{value},{value}\r\n").bytes());
    }
    for pattern in [&b"ere : (a|b)* c @match"[..], b"ere : (a|b|c)* @fail"] {
        let files = [&events[..], pattern, &log];
        assert_eq!(watched(Way::ByTables, files), watched(Way::ByHistory, files));
    }
}

fn lent(rng: &mut Rng) -> Lent {
    let mut length = |width: usize| rng.below(13) * width + rng.below(width);
    Lent { seen: vec![0; length(4)], kept: vec![0; length(5)], reports: vec![5; length(5)], ..Lent::default() }
}

/// The run does what its rows do one after another, each with the report room that is left.
#[test]
fn a_run_is_its_rows() {
    let mut rng = Rng::new(32);
    for _ in 0..3_000 {
        let made = accepted(&mut rng);
        let (count, values) = (rng.below(8), rng.between(1, 2));
        let log = texts::log(&mut rng, &made.declared, count, values);
        let (offset, budget) = (rng.below(log.len() + 1), rng.below(9) as u64);
        let mut once = lent(&mut rng);
        if start(&made.property, &mut once).is_err() {
            continue;
        }
        let mut each = once.clone();
        let answer = run(&made.text, &made.property, &mut once, &log, offset as u64, budget);
        let (mut reader, mut rows, mut reports, mut refusal) = (Reader::new(&log, offset), 0, 0, None);
        while let (true, Some(next)) = (rows < budget, reader.peek()) {
            let mut left = Lent { reports: each.reports[reports * 5..].to_vec(), ..each.clone() };
            match row(&made.text, &made.property, &mut left, next) {
                Err(refused) => {
                    refusal = Some(refused);
                    break;
                }
                Ok(more) => {
                    let all = [&each.reports[..reports * 5], &left.reports].concat();
                    each = Lent { reports: all, ..left };
                    reports += more;
                    rows += 1;
                    reader.next();
                }
            }
        }
        assert_eq!(
            (answer.rows, answer.next, answer.reports, answer.refusal),
            (rows, reader.offset() as u64, reports, refusal)
        );
        assert_eq!(once, each);
        assert_eq!(rows, Reader::new(&log[..answer.next as usize], offset).count() as u64);
    }
}

#[test]
fn random_batches_are_answered() {
    for kind in ["texts", "patterns", "sessions", "logs"] {
        for seed in 0..4 {
            let batch = make(kind, seed, 500).unwrap();
            let answers = answer_batch(&batch);
            assert!(!answers.ends_with(b"malformed\n"));
            assert_eq!(batch, make(kind, seed, 500).unwrap());
        }
    }
}

/// Random logs have runs of every budget and of every refusal, first rows and later ones, and one log cut at every length.
#[test]
fn random_logs_have_every_kind_of_run() {
    let batch = make("logs", 1, 8000).unwrap();
    let (mut items, mut state) = (Items::new(&batch), State::default());
    let (mut budgets, mut refusals, mut later, mut cuts) =
        (BTreeSet::new(), BTreeSet::new(), BTreeSet::new(), BTreeSet::new());
    while !items.at_end() {
        let request = &batch[batch.len() - items.left()..];
        let answer = answer_request(&mut state, &mut items).unwrap().line();
        let mut asked = Items::new(request);
        if asked.word() != Some(b"run") {
            continue;
        }
        let (_, budget, log) = (asked.long().unwrap(), asked.long().unwrap(), asked.bytes().unwrap());
        let told = String::from_utf8(answer).unwrap();
        let number = |index: usize| told.split(' ').nth(index).and_then(|item| item.parse::<u64>().ok()).unwrap();
        budgets.insert(budget.min(2));
        refusals.insert(number(4));
        if number(1) > 0 {
            later.insert(number(4));
        }
        cuts.insert(log.len());
    }
    assert_eq!(budgets, BTreeSet::from([0, 1, 2]));
    for refusal in [0, 12, 15, 16, 17, 18, 19, 20, 21, 24, 25] {
        assert!(refusals.contains(&refusal), "no run is refused {refusal}");
    }
    assert_eq!(later, BTreeSet::from([0, 15, 16, 17, 18, 19, 20, 21]));
    assert!((0..=40).all(|length| cuts.contains(&length)));
}
