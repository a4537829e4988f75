//! Answering a batch, and the calls that remember nothing.

use crate::print::Answer;
use crate::read::Items;
use crate::state::State;
use implementation::class::CLASSES;
use implementation::declarations::Declarations;
use implementation::limits::STATE_LIMIT;
use implementation::log::judge_header;
use implementation::names::{name_by_number, name_by_offset, number_of_name};
use implementation::pattern::Pattern;
use implementation::property::Hopeful;
use implementation::refusal::{Refusal, Refused};
use implementation::rows::{field, rows, Reader};
use implementation::table::table;
use implementation::watch::{watch, Way};

/// The answers to a batch, a line for each request. At the first request that is not of the form
/// the answer is `malformed`, and the batch ends there.
pub fn answer_batch(batch: &[u8]) -> Vec<u8> {
    let mut items = Items::new(batch);
    let mut state = State::default();
    let mut answers = Vec::new();
    while !items.at_end() {
        match answer_request(&mut state, &mut items) {
            Some(answer) => answers.extend(answer.line()),
            None => {
                answers.extend(b"malformed\n");
                break;
            }
        }
    }
    answers
}

/// The answer to the next request.
pub fn answer_request(state: &mut State, items: &mut Items) -> Option<Answer> {
    let word = items.word()?;
    let answer = match word {
        b"classes" | b"declarations" | b"header" | b"field" | b"rowat" | b"rows" => text_call(word, items),
        b"namebynumber" | b"namebyoffset" | b"numberofname" => name_call(word, items),
        b"translate" | b"verdicts" | b"check" => pattern_call(word, items),
        b"watch" => watch_call(items),
        _ => state.answer(word, items),
    }?;
    items.end()?;
    Some(answer)
}

fn text_call(word: &[u8], items: &mut Items) -> Option<Answer> {
    let answer = Answer::default();
    Some(match word {
        b"classes" => answer.word("classes").list(&CLASSES.map(|class| class as u32)),
        b"declarations" => match Declarations::read(items.bytes()?) {
            Ok(declared) => {
                let sets: Vec<u32> = declared.events.iter().map(|event| event.set).collect();
                answer.word("declared").number(declared.parameters.len() as u64).list(&sets)
            }
            Err(refusal) => answer.refused(refusal.plain()),
        },
        b"header" => match judge_header(items.bytes()?, items.bytes()?) {
            Ok(()) => answer.word("taken"),
            Err(refusal) => answer.refused(refusal.plain()),
        },
        b"field" => {
            let index = items.long()?;
            answer.bytes(field(items.bytes()?, index))
        }
        b"rowat" => row_at(items.long()?, items.bytes()?),
        _ => {
            let text = items.bytes()?;
            let count = answer.word("rows").number(rows(text).count() as u64);
            rows(text).fold(count, Answer::bytes)
        }
    })
}

fn row_at(offset: u64, text: &[u8]) -> Answer {
    if offset > text.len() as u64 {
        return Answer::default().refused(Refusal::OffsetPastLog.plain());
    }
    let mut reader = Reader::new(text, offset as usize);
    match reader.next() {
        Some(row) => Answer::default().word("row").bytes(row).number(reader.offset() as u64),
        None => Answer::default().word("end"),
    }
}

fn name_call(word: &[u8], items: &mut Items) -> Option<Answer> {
    if word == b"numberofname" {
        return Some(match number_of_name(items.bytes()?, items.bytes()?) {
            Some(event) => Answer::default().word("event").number(event as u64),
            None => Answer::default().word("none"),
        });
    }
    let (number, declarations, pattern) = (items.long()?, items.bytes()?, items.bytes()?);
    let name = if word == b"namebynumber" {
        name_by_number(declarations, pattern, number)
    } else {
        name_by_offset(declarations, pattern, number)
    };
    Some(Answer::default().bytes(name))
}

fn pattern_call(word: &[u8], items: &mut Items) -> Option<Answer> {
    if word == b"check" {
        return Some(match items.property()?.check() {
            Ok(hopeful) => Answer::default().word("taken").list(&hopeful_states(&hopeful)),
            Err(refusal) => Answer::default().refused(refusal.plain()),
        });
    }
    let (declarations, text) = (items.bytes()?, items.bytes()?);
    let answer =
        if word == b"translate" { translate(declarations, text) } else { verdicts(declarations, text, &items.list()?) };
    Some(answer.unwrap_or_else(|refused| Answer::default().refused(refused)))
}

fn translate(declarations: &[u8], text: &[u8]) -> Result<Answer, Refused> {
    let property = implementation::table::translate(declarations, text)?;
    let hopeful = property.check()?;
    let answer = Answer::default().word("table").property(&property);
    Ok(answer.word("hopeful").list(&hopeful_states(&hopeful)))
}

/// The verdict of each beginning of a sequence, the empty one first, decided on the tree.
fn verdicts(declarations: &[u8], text: &[u8], sequence: &[u32]) -> Result<Answer, Refused> {
    let declared = Declarations::read(declarations)?;
    let pattern = Pattern::read(&declared, text)?;
    table(&declared, &pattern)?;
    if sequence.iter().any(|&event| event as usize >= declared.events.len()) {
        return Err(Refusal::EventNotDeclared.plain());
    }
    let mut rests = pattern.whole();
    let mut found = vec![pattern.verdict_of_rests(&rests)];
    for &event in sequence {
        rests = pattern.after(&rests, event as usize);
        found.push(pattern.verdict_of_rests(&rests));
    }
    Ok(Answer::default().word("verdicts").list(&found))
}

/// The hopeful states, ascending.
fn hopeful_states(hopeful: &Hopeful) -> Vec<u32> {
    (0..STATE_LIMIT).filter(|&state| hopeful[state]).map(|state| state as u32).collect()
}

fn watch_call(items: &mut Items) -> Option<Answer> {
    let (events, pattern, log) = (items.bytes()?, items.bytes()?, items.bytes()?);
    let mut printed = Vec::new();
    watch(Way::ByTables, events, pattern, log, &mut printed).ok()?;
    Some(Answer::default().bytes(&printed))
}
