//! Document 01, "The pattern text": the tokens of a text, by the class of each byte.

use crate::class::{class, name_at_start, Class};

/// A token of the pattern text.
#[derive(Clone, Copy, Debug, PartialEq, Eq)]
pub enum Token<'t> {
    /// A longest run of name bytes that begins with a letter (`ere` and `epsilon` too).
    Name(&'t [u8]),
    Colon,
    Open,
    Close,
    Bar,
    Star,
    Plus,
    /// `@match`, whatever byte follows.
    Match,
    /// `@fail`, whatever byte follows.
    Fail,
    /// Any other `@`, or a byte that begins no token.
    Bad,
}

/// A token and where it begins.
#[derive(Clone, Copy, Debug, PartialEq, Eq)]
pub struct Placed<'t> {
    pub token: Token<'t>,
    pub offset: usize,
}

/// The tokens of a text in order. What follows a bad byte is read on, but nobody asks for it.
pub fn tokens(text: &[u8]) -> Vec<Placed<'_>> {
    let mut found = Vec::new();
    let mut offset = 0;
    while offset < text.len() {
        if class(text[offset]) == Class::Blank {
            offset += 1;
            continue;
        }
        let (token, length) = token_at_start(&text[offset..]);
        found.push(Placed { token, offset });
        offset += length;
    }
    found
}

/// The token that non-blank bytes begin with, and its length.
fn token_at_start(bytes: &[u8]) -> (Token<'_>, usize) {
    match class(bytes[0]) {
        Class::Letter => {
            let name = name_at_start(bytes);
            (Token::Name(name), name.len())
        }
        Class::At if bytes.starts_with(b"@match") => (Token::Match, 6),
        Class::At if bytes.starts_with(b"@fail") => (Token::Fail, 5),
        Class::Colon => (Token::Colon, 1),
        Class::Open => (Token::Open, 1),
        Class::Close => (Token::Close, 1),
        Class::Bar => (Token::Bar, 1),
        Class::Star => (Token::Star, 1),
        Class::Plus => (Token::Plus, 1),
        _ => (Token::Bad, 1),
    }
}
