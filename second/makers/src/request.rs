//! Writing requests.

use implementation::limits::EVENT_LIMIT;
use implementation::property::Property;

/// One request, written item by item.
#[derive(Clone, Debug, Default)]
pub struct Request {
    bytes: Vec<u8>,
}

/// A request that begins with this word.
pub fn call(word: &str) -> Request {
    Request { bytes: word.as_bytes().to_vec() }
}

impl Request {
    pub fn number(mut self, number: impl Into<u64>) -> Request {
        self.bytes.extend(format!(" {}", number.into()).bytes());
        self
    }

    pub fn numbers(self, numbers: &[u32]) -> Request {
        numbers.iter().fold(self, |request, &number| request.number(number))
    }

    pub fn list(self, numbers: &[u32]) -> Request {
        self.number(numbers.len() as u64).numbers(numbers)
    }

    pub fn bytes(mut self, bytes: impl AsRef<[u8]>) -> Request {
        self = self.number(bytes.as_ref().len() as u64);
        self.bytes.push(b':');
        self.bytes.extend(bytes.as_ref());
        self
    }

    /// A property table; numbers past its counts are written only where they are not 0.
    pub fn property(self, property: &Property) -> Request {
        let counts = [property.parameters, property.events, property.states, property.asked];
        let events = (property.events as usize).min(EVENT_LIMIT);
        let states = (property.states as usize).min(property.verdicts.len());
        self.numbers(&counts)
            .list(used(&property.sets, events))
            .list(used(&property.next, states * EVENT_LIMIT))
            .list(used(&property.verdicts, states))
    }

    /// The request as a line.
    pub fn line(mut self) -> Vec<u8> {
        self.bytes.push(b'\n');
        self.bytes
    }
}

/// The first numbers up to the last one that is not 0, but at least `least` of them.
fn used(numbers: &[u32], least: usize) -> &[u32] {
    let last = numbers.iter().rposition(|&number| number != 0).map_or(0, |place| place + 1);
    &numbers[..last.max(least)]
}
