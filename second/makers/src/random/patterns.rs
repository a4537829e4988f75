//! Random pattern texts and property tables.

use crate::random::rng::Rng;
use crate::random::texts::{damaged, noise, Declared};
use implementation::limits::EVENT_LIMIT;
use implementation::property::{Property, NEXT_LENGTH};

const HANDLERS: [&[&str]; 6] =
    [&["@match"], &["@match"], &["@fail"], &["@fail"], &["@match", "@fail"], &["@fail", "@match"]];
const OPERATORS: [&[&str]; 8] = [&["*"], &["*"], &["+"], &["+"], &["*", "*"], &["+", "*"], &["+", "+"], &["*", "+"]];

/// The tokens of an alternative.
fn alternative(rng: &mut Rng, names: &[String], depth: usize, out: &mut Vec<String>) {
    let sequences = *rng.pick(&[1, 1, 1, 2, 2, 3]);
    for i in 0..sequences {
        if i > 0 {
            out.push("|".into());
        }
        for _ in 0..*rng.pick(&[1, 1, 2, 2, 3]) {
            repetition(rng, names, depth, out);
        }
    }
}

fn repetition(rng: &mut Rng, names: &[String], depth: usize, out: &mut Vec<String>) {
    if depth > 0 && rng.chance(35) {
        out.push("(".into());
        alternative(rng, names, depth - 1, out);
        out.push(")".into());
    } else if rng.chance(5) {
        out.push("epsilon".into());
    } else {
        out.push(rng.pick(names).clone());
    }
    if rng.chance(35) {
        out.extend(rng.pick(&OPERATORS).iter().map(|operator| operator.to_string()));
    }
}

/// The tokens of a grammatical pattern text over some event names.
pub fn tokens(rng: &mut Rng, names: &[String], depth: usize) -> Vec<String> {
    let mut out = vec!["ere".to_string(), ":".to_string()];
    alternative(rng, names, depth, &mut out);
    out.extend(rng.pick(&HANDLERS).iter().map(|handler| handler.to_string()));
    out
}

/// Tokens as a text: blanks of all kinds, at least one where two names would run together.
pub fn spaced(rng: &mut Rng, tokens: &[String]) -> Vec<u8> {
    let mut text = Vec::new();
    for token in tokens {
        let name_byte = |b: &u8| b.is_ascii_alphanumeric() || *b == b'_';
        let meet = text.last().is_some_and(name_byte) && token.as_bytes().first().is_some_and(name_byte);
        let least = usize::from(meet);
        for _ in 0..least + usize::from(rng.chance(25)) {
            text.push(*rng.pick(b"    \t\r\n"));
        }
        text.extend(token.bytes());
    }
    if rng.chance(20) {
        text.extend(b"\r\n");
    }
    text
}

/// A valid pattern text, small for the most part.
pub fn pattern(rng: &mut Rng, declared: &Declared) -> Vec<u8> {
    let names: Vec<String> = declared.events.iter().map(|(name, _)| name.clone()).collect();
    let depth = *rng.pick(&[0, 1, 1, 2, 2, 3]);
    let tokens = tokens(rng, &names, depth);
    spaced(rng, &tokens)
}

/// A pattern text that is valid for the most part.
pub fn any_pattern(rng: &mut Rng, declared: &Declared) -> Vec<u8> {
    match rng.below(20) {
        0..=11 => pattern(rng, declared),
        12..=15 => token_change(rng, declared),
        16..=18 => {
            let text = pattern(rng, declared);
            damaged(rng, text)
        }
        _ => noise(rng, 40),
    }
}

/// A valid text in which some tokens were put in, taken out or changed.
fn token_change(rng: &mut Rng, declared: &Declared) -> Vec<u8> {
    const OTHERS: [&str; 15] =
        ["(", ")", "|", "*", "+", ":", "ere", "epsilon", "@match", "@fail", "@", "nobody", "_", "7", "a"];
    let names: Vec<String> = declared.events.iter().map(|(name, _)| name.clone()).collect();
    let mut tokens = tokens(rng, &names, 2);
    for _ in 0..rng.between(1, 2) {
        let place = rng.below(tokens.len());
        let other = rng.pick(&OTHERS).to_string();
        match rng.below(3) {
            0 => tokens[place] = other,
            1 => tokens.insert(place, other),
            _ => {
                tokens.remove(place);
            }
        }
        if tokens.is_empty() {
            break;
        }
    }
    spaced(rng, &tokens)
}

/// A property table that no pattern need have: within its ranges, small.
pub fn bare_property(rng: &mut Rng) -> Property {
    let mut property = Property::EMPTY;
    property.parameters = *rng.pick(&[0, 1, 2, 2, 2, 3, 4]);
    property.events = if rng.chance(3) { EVENT_LIMIT as u32 } else { rng.between(1, 4) as u32 };
    property.states = if rng.chance(3) { rng.between(60, 64) as u32 } else { rng.between(1, 6) as u32 };
    property.asked = rng.between(1, 3) as u32;
    for event in 0..property.events as usize {
        property.sets[event] = rng.below(1 << property.parameters) as u32;
    }
    for state in 0..property.states as usize {
        property.verdicts[state] = *rng.pick(&[0, 0, 0, 1, 2]);
        for event in 0..property.events as usize {
            property.next[state * EVENT_LIMIT + event] = rng.below(property.states as usize) as u32;
        }
    }
    property
}

/// One number of a property table changed, or the table as it was.
pub fn damaged_property(rng: &mut Rng, mut property: Property) -> Property {
    let number = rng.odd_number();
    match rng.below(8) {
        0 => property.parameters = number,
        1 => property.events = number,
        2 => property.states = number,
        3 => property.asked = number,
        4 => property.sets[rng.below(6)] = number,
        5 => property.next[rng.below(6) * EVENT_LIMIT + rng.below(6)] = number,
        6 => property.next[rng.below(NEXT_LENGTH)] = number,
        _ => property.verdicts[rng.below(8)] = number,
    }
    property
}
