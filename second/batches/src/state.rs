//! What a batch remembers from one request to the next, and the calls that use it.

use crate::print::Answer;
use crate::read::Items;
use implementation::combination::Combination;
use implementation::limits::REPORT_WIDTH;
use implementation::log;
use implementation::property::Property;
use implementation::refusal::Refusal;
use implementation::session::{self, Found, Lent, Marked};
use implementation::table::translate;
use implementation::watch::print_row;

/// The remembered property, declarations and lent numbers. All is 0 or empty at first.
pub struct State {
    pub property: Property,
    pub declarations: Vec<u8>,
    pub lent: Lent,
    /// What the last row led to, if the program could print it, and the parameters it prints.
    last_row: Option<(usize, Result<Vec<Marked>, Refusal>)>,
}

/// The modulus of the digest: the largest prime below 2 to the 32nd.
const DIGEST_MODULUS: u64 = 4_294_967_291;

impl Default for State {
    fn default() -> State {
        State { property: Property::EMPTY, declarations: Vec::new(), lent: Lent::default(), last_row: None }
    }
}

impl State {
    /// The answer to a call that remembers, or nothing if its items are not of the form.
    pub fn answer(&mut self, word: &[u8], items: &mut Items) -> Option<Answer> {
        match word {
            b"property" | b"declare" | b"pattern" => self.set_property(word, items),
            b"seen" | b"kept" | b"reports" | b"fill" => self.lend(word, items),
            b"start" => Some(self.start()),
            b"event" => self.event(items),
            b"lookup" => self.lookup(items),
            b"grow" => self.grow(items),
            b"tables" => Some(Answer::default().word("tables").tables(&self.lent)),
            b"digest" => Some(self.digest()),
            b"row" => self.row(items),
            b"run" => self.run(items),
            b"lines" => self.lines(items),
            _ => None,
        }
    }

    fn set_property(&mut self, word: &[u8], items: &mut Items) -> Option<Answer> {
        match word {
            b"property" => self.property = items.property()?,
            b"declare" => self.declarations = items.bytes()?.to_vec(),
            _ => match translate(&self.declarations, items.bytes()?) {
                Ok(property) => self.property = property,
                Err(refused) => return Some(Answer::default().refused(refused)),
            },
        }
        Some(Answer::default().word("ok"))
    }

    fn lend(&mut self, word: &[u8], items: &mut Items) -> Option<Answer> {
        match word {
            b"seen" => (self.lent.seen_count, self.lent.seen) = (items.long()?, items.list()?),
            b"kept" => (self.lent.kept_count, self.lent.kept) = (items.long()?, items.list()?),
            b"reports" => self.lent.reports = items.list()?,
            _ => {
                let (seen, kept, reports) = (filled(items)?, filled(items)?, filled(items)?);
                self.lent = Lent { seen, kept, reports, seen_count: 0, kept_count: 0 };
            }
        }
        Some(Answer::default().word("ok"))
    }

    fn start(&mut self) -> Answer {
        match session::start(&self.property, &mut self.lent) {
            Ok(()) => Answer::default().word("taken").tables(&self.lent),
            // Start is given no counts, so its refusal's are 0.
            Err(refusal) => Answer::default().refused(refusal.plain()).tables_with_counts(&self.lent, 0, 0),
        }
    }

    fn event(&mut self, items: &mut Items) -> Option<Answer> {
        let (event, values) = (items.number()?, Combination(items.combination()?));
        let answer = session::event(&self.property, &mut self.lent, event, &values);
        Some(self.taken(answer))
    }

    /// `taken` and the number of reports, or the refusal; then the tables.
    fn taken(&self, answer: Result<usize, Refusal>) -> Answer {
        let front = match answer {
            Ok(reports) => Answer::default().word("taken").number(reports as u64),
            Err(refusal) => Answer::default().refused(refusal.plain()),
        };
        front.tables(&self.lent)
    }

    fn lookup(&mut self, items: &mut Items) -> Option<Answer> {
        let c = Combination(items.combination()?);
        let front = match session::lookup(&self.property, &self.lent, &c) {
            Ok(Found::Kept { state, verdict }) => Answer::default().word("found").number(state).number(verdict),
            Ok(Found::Hopeless) => Answer::default().word("hopeless"),
            Err(refusal) => Answer::default().refused(refusal.plain()),
        };
        Some(front.tables(&self.lent))
    }

    /// The same event again and again with values that go up, until one is refused.
    fn grow(&mut self, items: &mut Items) -> Option<Answer> {
        let (times, event) = (items.long()?, items.number()?);
        let (mut values, steps) = (items.combination()?, items.combination()?);
        let (mut taken, mut reports, mut refused) = (0u64, 0u64, 0);
        while taken < times {
            match session::event(&self.property, &mut self.lent, event, &Combination(values)) {
                Ok(count) => reports += count as u64,
                Err(refusal) => {
                    refused = refusal.number();
                    break;
                }
            }
            taken += 1;
            for (value, step) in values.iter_mut().zip(steps) {
                *value = value.wrapping_add(step);
            }
        }
        let answer = Answer::default().word("grown").number(taken).number(reports).number(refused);
        Some(answer.number(self.lent.seen_count).number(self.lent.kept_count))
    }

    fn digest(&self) -> Answer {
        let numbers = self.lent.seen.iter().chain(&self.lent.kept).chain(&self.lent.reports);
        let digest = numbers.fold(0, |sum, &number| (sum * 31 + u64::from(number) + 1) % DIGEST_MODULUS);
        let answer = Answer::default().word("digest").number(self.lent.seen_count).number(self.lent.kept_count);
        answer.number(digest)
    }

    fn row(&mut self, items: &mut Items) -> Option<Answer> {
        let row = items.bytes()?;
        let answer = log::row(&self.declarations, &self.property, &mut self.lent, row);
        self.remember_row(answer);
        Some(self.taken(answer))
    }

    /// The program prints rows that are taken or refused 15 to 21, all others it never meets.
    fn remember_row(&mut self, answer: Result<usize, Refusal>) {
        let of_a_row = Refusal::NoRoomForSeen..=Refusal::FieldsNotTheSet;
        let printed = match answer {
            Ok(count) => {
                let rows = self.lent.reports.chunks_exact(REPORT_WIDTH).take(count);
                Some(Ok(rows.map(|row| (Combination::of_row(row), row[REPORT_WIDTH - 1])).collect()))
            }
            Err(refusal) if of_a_row.contains(&refusal) => Some(Err(refusal)),
            Err(_) => None,
        };
        self.last_row = printed.map(|answer| (self.property.parameters as usize, answer));
    }

    fn lines(&mut self, items: &mut Items) -> Option<Answer> {
        let number = items.long()?;
        let mut lines = Vec::new();
        if let Some((parameters, answer)) = &self.last_row {
            print_row(*parameters, number, answer, &mut lines).ok()?;
        }
        Some(Answer::default().bytes(&lines))
    }

    fn run(&mut self, items: &mut Items) -> Option<Answer> {
        let (offset, budget, text) = (items.long()?, items.long()?, items.bytes()?);
        let run = log::run(&self.declarations, &self.property, &mut self.lent, text, offset, budget);
        let answer = Answer::default().word("run").number(run.rows).number(run.next).number(run.reports as u64);
        Some(answer.number(run.refusal.map_or(0, Refusal::number)).tables(&self.lent))
    }
}

/// A length and a value: that many numbers, all of that value.
fn filled(items: &mut Items) -> Option<Vec<u32>> {
    let (length, value) = (items.number()?, items.number()?);
    // No lent table of a batch is larger than the requests that could give it.
    if length > 65_536 {
        return None;
    }
    Some(vec![value; length as usize])
}
