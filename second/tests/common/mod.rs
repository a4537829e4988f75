//! What several tests share.
#![allow(dead_code)]

pub mod grammar;
pub mod span;

use implementation::declarations::Declarations;
use implementation::pattern::Pattern;
use implementation::property::Property;
use implementation::table::table;
use makers::random::patterns;
use makers::random::rng::Rng;
use makers::random::texts;

/// The document's example.
pub const EVENTS: &[u8] = b"event,bay,batch\r\nmix,0,1\r\nfeed,1,1\r\ndrain,1,0\r\n";
pub const PATTERN: &[u8] = b"ere : mix feed+ drain @match";
pub const LOG: &[u8] = b"event,bay,batch\r\nmix,,7\r\nfeed,1,7\r\ndrain,2,\r\nfeed,2,7\r\ndrain,1,\r\ndrain,2,\r\n";

/// Declarations without parameters for some event names.
pub fn plain(names: &[&str]) -> Vec<u8> {
    names.iter().fold(b"event\r\n".to_vec(), |mut text, name| {
        text.extend(name.as_bytes());
        text.extend(b"\r\n");
        text
    })
}

/// A random accepted pattern with its declarations and its table.
pub struct Accepted {
    pub declared: texts::Declared,
    pub text: Vec<u8>,
    pub pattern_text: Vec<u8>,
    pub pattern: Pattern,
    pub property: Property,
}

/// Random texts until a pattern is accepted.
pub fn accepted(rng: &mut Rng) -> Accepted {
    loop {
        let (declared, text) = texts::declarations(rng);
        let pattern_text = patterns::pattern(rng, &declared);
        let read = Declarations::read(&text).expect("made to be valid");
        let Ok(pattern) = Pattern::read(&read, &pattern_text) else { continue };
        let Ok(property) = table(&read, &pattern) else { continue };
        return Accepted { declared, text, pattern_text, pattern, property };
    }
}
