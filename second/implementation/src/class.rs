//! Document 01, "The declarations": the class of a byte, read from one table of 256 classes.

/// What a byte can be part of.
#[derive(Clone, Copy, Debug, PartialEq, Eq)]
pub enum Class {
    Letter = 0,
    Digit = 1,
    Underscore = 2,
    /// Space, tab, CR, LF.
    Blank = 3,
    Open = 4,
    Close = 5,
    Colon = 6,
    Bar = 7,
    Star = 8,
    Plus = 9,
    At = 10,
    Other = 11,
}

/// The class of every byte.
pub const CLASSES: [Class; 256] = classes();

const fn classes() -> [Class; 256] {
    let mut table = [Class::Other; 256];
    let mut byte = 0;
    while byte < 256 {
        table[byte] = match byte as u8 {
            b'A'..=b'Z' | b'a'..=b'z' => Class::Letter,
            b'0'..=b'9' => Class::Digit,
            b'_' => Class::Underscore,
            b' ' | b'\t' | b'\r' | b'\n' => Class::Blank,
            b'(' => Class::Open,
            b')' => Class::Close,
            b':' => Class::Colon,
            b'|' => Class::Bar,
            b'*' => Class::Star,
            b'+' => Class::Plus,
            b'@' => Class::At,
            _ => Class::Other,
        };
        byte += 1;
    }
    table
}

pub fn class(byte: u8) -> Class {
    CLASSES[byte as usize]
}

/// A letter, digit or underscore.
pub fn is_name_byte(byte: u8) -> bool {
    matches!(class(byte), Class::Letter | Class::Digit | Class::Underscore)
}

/// The longest run of name bytes at the start, if a letter is first; else nothing.
pub fn name_at_start(bytes: &[u8]) -> &[u8] {
    match bytes.first() {
        Some(&first) if class(first) == Class::Letter => {
            let end = bytes.iter().position(|&b| !is_name_byte(b)).unwrap_or(bytes.len());
            &bytes[..end]
        }
        _ => &bytes[..0],
    }
}
