//! The table held to the tree, the tree to the plain meaning of patterns, refusals to the grammar.

mod common;

use common::grammar::{can_be_completed, completed_by_any, is_name, is_text};
use common::span::Span;
use common::{accepted, plain};
use implementation::declarations::Declarations;
use implementation::limits::{NESTING_LIMIT, POSITION_LIMIT};
use implementation::pattern::Pattern;
use implementation::property::asks;
use implementation::table::translate;
use implementation::tokens::tokens;
use makers::random::patterns::spaced;
use makers::random::rng::Rng;

fn sequence(rng: &mut Rng, events: usize, limit: usize) -> Vec<usize> {
    (0..rng.below(limit)).map(|_| rng.below(events)).collect()
}

#[test]
fn table_tree_and_meaning_agree() {
    let mut rng = Rng::new(11);
    for _ in 0..6_000 {
        let made = accepted(&mut rng);
        let events = made.property.events as usize;
        let hopeful = made.property.check().unwrap();
        for _ in 0..12 {
            let sequence = sequence(&mut rng, events, 9);
            let rests = made.pattern.after_all(&sequence);
            let verdict = made.pattern.verdict_of_rests(&rests);
            assert_eq!(verdict, Span { pattern: &made.pattern, sequence: &sequence }.verdict());
            let state = sequence.iter().fold(0, |state, &event| made.property.step(state, event));
            assert_eq!(verdict, made.property.verdicts[state as usize]);
            assert_eq!(made.pattern.hopeful(&rests, events), hopeful[state as usize]);
        }
    }
}

/// Sequences that lead somewhere: each event is drawn among those that do not fail.
#[test]
fn table_and_tree_agree_along_words() {
    let mut rng = Rng::new(12);
    for _ in 0..1_500 {
        let made = accepted(&mut rng);
        let events = made.property.events as usize;
        let (mut rests, mut state) = (made.pattern.whole(), 0);
        for _ in 0..20 {
            let alive: Vec<usize> =
                (0..events).filter(|&event| !made.pattern.after(&rests, event).is_empty()).collect();
            let event = if alive.is_empty() || rng.chance(4) { rng.below(events) } else { *rng.pick(&alive) };
            rests = made.pattern.after(&rests, event);
            state = made.property.step(state, event);
            assert_eq!(made.pattern.verdict_of_rests(&rests), made.property.verdicts[state as usize]);
        }
    }
}

/// Hopeful by trying every continuation that could be needed: fewer than there are states.
#[test]
fn hopeful_by_trying() {
    let mut rng = Rng::new(13);
    let mut tried = 0;
    while tried < 400 {
        let made = accepted(&mut rng);
        let (events, states) = (made.property.events as usize, made.property.states as usize);
        if events.saturating_pow(states as u32) > 300 {
            continue;
        }
        tried += 1;
        let sequence = sequence(&mut rng, events, 5);
        let state = sequence.iter().fold(0, |state, &event| made.property.step(state, event));
        let found = some_continuation(&made.pattern, &sequence, events, states);
        assert_eq!(found, made.property.check().unwrap()[state as usize]);
    }
}

fn some_continuation(pattern: &Pattern, sequence: &[usize], events: usize, length: usize) -> bool {
    length > 0
        && (0..events).any(|event| {
            let longer = [sequence, &[event]].concat();
            asks(pattern.asked, Span { pattern, sequence: &longer }.verdict())
                || some_continuation(pattern, &longer, events, length - 1)
        })
}

/// States are numbered as found: each first appears, in reading order, as the next number.
#[test]
fn states_are_numbered_as_found() {
    let mut rng = Rng::new(14);
    for _ in 0..2_000 {
        let property = accepted(&mut rng).property;
        let mut known = 1;
        for state in 0..property.states {
            assert!(state < known);
            for event in 0..property.events as usize {
                let next = property.step(state, event);
                assert!(next <= known);
                known = known.max(next + 1);
            }
        }
        assert_eq!(known, property.states);
        let unused = property
            .next
            .iter()
            .enumerate()
            .filter(|(i, _)| i / 16 >= property.states as usize || i % 16 >= property.events as usize);
        assert!(unused.into_iter().all(|(_, &next)| next == 0));
    }
}

const WORDS: [&str; 14] = ["ere", ":", "a", "b", "(", ")", "|", "*", "+", "@match", "@fail", "epsilon", "@", "zz"];

/// Tokens that follow the grammar for a while and then need not.
fn some_tokens(rng: &mut Rng) -> Vec<String> {
    let names = ["a".to_string(), "b".to_string(), "ere".to_string()];
    let mut tokens = makers::random::patterns::tokens(rng, &names, 1);
    for _ in 0..rng.below(3) {
        let place = rng.below(tokens.len() + 1);
        match rng.below(3) {
            0 => tokens.truncate(place),
            1 => tokens.insert(place, rng.pick(&WORDS).to_string()),
            _ if place < tokens.len() => tokens[place] = rng.pick(&WORDS).to_string(),
            _ => {}
        }
    }
    tokens.truncate(14);
    tokens
}

/// The refusal by its definition: the lowest offset, at one offset 6 before 7 before 8 before 9.
fn by_definition(text: &[u8], declared: &[&[u8]]) -> Option<(usize, u32)> {
    let placed = tokens(text);
    let ends = placed.iter().map(|token| token.offset).skip(1).chain([text.len()]);
    let words: Vec<&str> = placed
        .iter()
        .zip(ends)
        .map(|(token, end)| std::str::from_utf8(&text[token.offset..end]).unwrap().trim_end())
        .collect();
    let mut faults = Vec::new();
    let stuck = (1..=words.len()).find(|&count| !can_be_completed(&words[..count]));
    match stuck {
        Some(count) => faults.push((placed[count - 1].offset, 6)),
        None if !is_text(&words) => faults.push((text.len(), 6)),
        None => {}
    }
    let (mut named, mut open) = (0, 0);
    for (i, word) in words.iter().enumerate() {
        let offset = placed[i].offset;
        if i > 0 && is_name(word) && *word != "epsilon" {
            named += 1;
            if !declared.contains(&word.as_bytes()) {
                faults.push((offset, 7));
            }
            if named == POSITION_LIMIT + 1 {
                faults.push((offset, 8));
            }
        }
        match *word {
            "(" if open == NESTING_LIMIT => faults.push((offset, 9)),
            "(" => open += 1,
            ")" => open = open.max(1) - 1,
            _ => {}
        }
    }
    faults.into_iter().min()
}

#[test]
fn refusals_are_those_of_the_definition() {
    let mut rng = Rng::new(15);
    let events = plain(&["a", "b"]);
    let declared = Declarations::read(&events).unwrap();
    for _ in 0..20_000 {
        let tokens = some_tokens(&mut rng);
        let text = spaced(&mut rng, &tokens);
        let answer = Pattern::read(&declared, &text).err().map(|r| (r.offset, r.refusal.number()));
        assert_eq!(answer, by_definition(&text, &[b"a", b"b"]), "{:?}", String::from_utf8_lossy(&text));
    }
}

/// Completing by the chosen ends finds as much as trying every short end.
#[test]
fn completing_by_trying() {
    let mut rng = Rng::new(16);
    for _ in 0..150 {
        let tokens = some_tokens(&mut rng);
        let words: Vec<&str> = tokens.iter().take(7).map(String::as_str).collect();
        if completed_by_any(&words, 3) {
            assert!(can_be_completed(&words), "{words:?}");
        }
    }
}

/// The limits of names and nesting, and operators behind one another, at their largest.
#[test]
fn the_longest_texts() {
    let events = plain(&["a"]);
    for fill in ["*", "+", "(", "a ", "a|", "(a)", " ", "@", "((a)*)+"] {
        let mut text = b"ere:a".to_vec();
        while text.len() + fill.len() <= 4096 - 6 {
            text.extend(fill.bytes());
        }
        text.extend(b"@match");
        let _ = translate(&events, &text);
    }
    let stars = [&b"ere:a"[..], &[b'*'; 4085], b"@match"].concat();
    assert_eq!(stars.len(), 4096);
    assert_eq!(translate(&events, &stars), translate(&events, b"ere:a*@match"));
    let longer = [&stars[..], b" "].concat();
    assert_eq!(translate(&events, &longer).unwrap_err().refusal.number(), 1);
}
