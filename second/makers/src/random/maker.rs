//! A batch in the making: each request is also answered, so that the next one can build on it.

use crate::random::rng::Rng;
use crate::request::Request;
use batches::answer::answer_request;
use batches::read::Items;
use batches::state::State;

pub struct Maker {
    pub rng: Rng,
    pub state: State,
    batch: Vec<u8>,
    /// Where each request ends.
    ends: Vec<usize>,
}

impl Maker {
    /// Nothing made yet.
    pub fn new(seed: u64) -> Maker {
        Maker { rng: Rng::new(seed), state: State::default(), batch: Vec::new(), ends: Vec::new() }
    }

    /// How many requests are made.
    pub fn count(&self) -> usize {
        self.ends.len()
    }

    /// Appends a request and answers it.
    pub fn send(&mut self, request: Request) {
        let line = request.line();
        let answered = answer_request(&mut self.state, &mut Items::new(&line));
        assert!(answered.is_some(), "a request in the making is of the form");
        self.batch.extend(line);
        self.ends.push(self.batch.len());
    }

    /// The first so many requests.
    pub fn first(mut self, count: usize) -> Vec<u8> {
        let length = if count == 0 { 0 } else { self.ends[count - 1] };
        self.batch.truncate(length);
        self.batch
    }
}
