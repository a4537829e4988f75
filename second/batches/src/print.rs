//! Printing answers.

use implementation::property::Property;
use implementation::refusal::Refused;
use implementation::session::Lent;

/// Runs of this many equal numbers or more are printed as one item.
const RUN: usize = 4;

/// One answer, printed item by item.
#[derive(Default)]
pub struct Answer {
    bytes: Vec<u8>,
}

impl Answer {
    fn item(mut self, item: &[u8]) -> Answer {
        if !self.bytes.is_empty() {
            self.bytes.push(b' ');
        }
        self.bytes.extend(item);
        self
    }

    pub fn word(self, word: &str) -> Answer {
        self.item(word.as_bytes())
    }

    pub fn number(self, number: impl Into<u64>) -> Answer {
        self.item(number.into().to_string().as_bytes())
    }

    pub fn bytes(self, bytes: &[u8]) -> Answer {
        let mut answer = self.number(bytes.len() as u64);
        answer.bytes.push(b':');
        answer.bytes.extend(bytes);
        answer
    }

    /// The length of a list and its numbers, runs of equal ones as `v*n`.
    pub fn list(self, numbers: &[u32]) -> Answer {
        let mut answer = self.number(numbers.len() as u64);
        for run in numbers.chunk_by(|a, b| a == b) {
            if run.len() >= RUN {
                answer = answer.item(format!("{}*{}", run[0], run.len()).as_bytes());
            } else {
                answer = run.iter().fold(answer, |answer, &number| answer.number(number));
            }
        }
        answer
    }

    pub fn refused(self, refused: Refused) -> Answer {
        self.word("refused").number(refused.refusal.number()).number(refused.offset as u64)
    }

    /// Every lent number, and the counts.
    pub fn tables(self, lent: &Lent) -> Answer {
        self.tables_with_counts(lent, lent.seen_count, lent.kept_count)
    }

    pub fn tables_with_counts(self, lent: &Lent, seen_count: u64, kept_count: u64) -> Answer {
        self.word("seen")
            .number(seen_count)
            .list(&lent.seen)
            .word("kept")
            .number(kept_count)
            .list(&lent.kept)
            .word("reports")
            .list(&lent.reports)
    }

    /// Every number of a property table.
    pub fn property(self, property: &Property) -> Answer {
        self.number(property.parameters)
            .number(property.events)
            .number(property.states)
            .number(property.asked)
            .word("sets")
            .list(&property.sets)
            .word("next")
            .list(&property.next)
            .word("verdicts")
            .list(&property.verdicts)
    }

    /// The answer as a line.
    pub fn line(mut self) -> Vec<u8> {
        self.bytes.push(b'\n');
        self.bytes
    }
}
