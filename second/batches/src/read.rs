//! Reading a batch: one request a line, items one space apart.

use implementation::limits::{EVENT_LIMIT, STATE_LIMIT, WIDTH};
use implementation::property::{Property, NEXT_LENGTH};

/// The part of a batch not yet read. Each reader answers nothing if the bytes are not of the form.
pub struct Items<'b> {
    rest: &'b [u8],
}

impl<'b> Items<'b> {
    pub fn new(batch: &'b [u8]) -> Items<'b> {
        Items { rest: batch }
    }

    pub fn at_end(&self) -> bool {
        self.rest.is_empty()
    }

    /// Bytes not yet read.
    pub fn left(&self) -> usize {
        self.rest.len()
    }

    fn skip(&mut self, byte: u8) -> Option<()> {
        self.rest = self.rest.strip_prefix(&[byte])?;
        Some(())
    }

    /// The longest run of such bytes, at least one.
    fn run(&mut self, wanted: impl Fn(u8) -> bool) -> Option<&'b [u8]> {
        let length = self.rest.iter().position(|&b| !wanted(b)).unwrap_or(self.rest.len());
        let (run, rest) = self.rest.split_at(length);
        self.rest = rest;
        if run.is_empty() {
            None
        } else {
            Some(run)
        }
    }

    /// The word that begins a request.
    pub fn word(&mut self) -> Option<&'b [u8]> {
        self.run(|b| b.is_ascii_lowercase())
    }

    /// Decimal digits without a leading zero.
    fn digits(&mut self) -> Option<u64> {
        let digits = self.run(|b| b.is_ascii_digit())?;
        if digits.len() > 1 && digits[0] == b'0' {
            return None;
        }
        std::str::from_utf8(digits).ok()?.parse().ok()
    }

    /// A number up to 18,446,744,073,709,551,615.
    pub fn long(&mut self) -> Option<u64> {
        self.skip(b' ')?;
        self.digits()
    }

    /// A number up to 4,294,967,295.
    pub fn number(&mut self) -> Option<u32> {
        u32::try_from(self.long()?).ok()
    }

    /// A byte string: its length, a colon, and the bytes as they are.
    pub fn bytes(&mut self) -> Option<&'b [u8]> {
        let length = usize::try_from(self.long()?).ok()?;
        self.skip(b':')?;
        if length > self.rest.len() {
            return None;
        }
        let (bytes, rest) = self.rest.split_at(length);
        self.rest = rest;
        Some(bytes)
    }

    /// A list: its length and its numbers.
    pub fn list(&mut self) -> Option<Vec<u32>> {
        let length = self.long()?;
        (0..length).map(|_| self.number()).collect()
    }

    /// A combination: four numbers.
    pub fn combination(&mut self) -> Option<[u32; WIDTH]> {
        let mut numbers = [0; WIDTH];
        for number in &mut numbers {
            *number = self.number()?;
        }
        Some(numbers)
    }

    /// A list of at most N numbers, the others being 0.
    fn array<const N: usize>(&mut self) -> Option<[u32; N]> {
        let list = self.list()?;
        let mut numbers = [0; N];
        numbers.get_mut(..list.len())?.copy_from_slice(&list);
        Some(numbers)
    }

    /// A property table: four counts and three lists.
    pub fn property(&mut self) -> Option<Property> {
        Some(Property {
            parameters: self.number()?,
            events: self.number()?,
            states: self.number()?,
            asked: self.number()?,
            sets: self.array::<EVENT_LIMIT>()?,
            next: self.array::<NEXT_LENGTH>()?,
            verdicts: self.array::<STATE_LIMIT>()?,
        })
    }

    /// The LF that ends a request.
    pub fn end(&mut self) -> Option<()> {
        self.skip(b'\n')
    }
}
