//! Random folders for the watch program.

use std::fs;
use std::io;
use std::path::Path;

use crate::random::patterns::{any_pattern, pattern};
use crate::random::rng::Rng;
use crate::random::texts::{any_declarations, any_row, declarations, log, Declared};

/// The program reads a log through one buffer of some size. Places around multiples of this many bytes are where it may cut.
const BUFFER: usize = 65_536;
/// The most bytes of a text that is taken.
const TEXT_LIMIT: usize = 4_096;
/// The most bytes of a row that is taken.
const ROW_LIMIT: usize = 128;

/// The three files of a folder; a missing one is not written.
pub struct Folder {
    pub events: Option<Vec<u8>>,
    pub pattern: Option<Vec<u8>>,
    pub log: Option<Vec<u8>>,
}

/// What a log of a folder is like.
#[derive(Clone, Copy, PartialEq, Eq)]
enum Size {
    /// A few rows.
    Small,
    /// So many distinct values that the rooms run out.
    Wide,
    /// Thousands of rows.
    Long,
    /// As many rows as a whole season has.
    Season,
    /// Rows that end, or hold a CR or LF, where a buffer may end, and rows longer than a buffer.
    Edges,
}

/// Writes folders DIR/0001, DIR/0002, ...
pub fn write_folders(seed: u64, count: usize, dir: &Path) -> io::Result<()> {
    let mut rng = Rng::new(seed);
    for number in 1..=count {
        let folder = folder(&mut rng, true);
        let path = dir.join(format!("{number:04}"));
        fs::create_dir_all(&path)?;
        for (name, bytes) in
            [("events.csv", &folder.events), ("pattern.txt", &folder.pattern), ("log.csv", &folder.log)]
        {
            match bytes {
                Some(bytes) => fs::write(path.join(name), bytes)?,
                None => {
                    let _ = fs::remove_file(path.join(name));
                }
            }
        }
    }
    Ok(())
}

/// A random folder; large logs only if so wished.
pub fn folder(rng: &mut Rng, large: bool) -> Folder {
    let (declared, text) = declarations(rng);
    let size = match rng.below(100) {
        0..=3 if large => Size::Wide,
        4..=5 if large => Size::Long,
        6 if large && rng.chance(30) => Size::Season,
        7..=11 if large => Size::Edges,
        _ => Size::Small,
    };
    let damage = size == Size::Small;
    let events = if damage && rng.chance(6) { any_declarations(rng) } else { text };
    let pattern = if damage && rng.chance(15) { any_pattern(rng, &declared) } else { pattern(rng, &declared) };
    let events = if damage && rng.chance(1) { padded(rng, events, b'x') } else { events };
    let pattern = if rng.chance(2) { padded(rng, pattern, b' ') } else { pattern };
    let log = if size == Size::Edges { edges(rng, &declared) } else { whole_log(rng, &declared, size) };
    let missing = |rng: &mut Rng, bytes| if damage && rng.chance(1) { None } else { Some(bytes) };
    Folder { events: missing(rng, events), pattern: missing(rng, pattern), log: missing(rng, log) }
}

fn whole_log(rng: &mut Rng, declared: &Declared, size: Size) -> Vec<u8> {
    let mut text = declared.header().into_bytes();
    if rng.chance(3) {
        text.push(b',');
    }
    if rng.chance(98) {
        text.extend(b"\r\n");
    } else if rng.chance(50) {
        return text;
    }
    let (rows, values) = match size {
        Size::Small => (rng.below(30), rng.between(1, 3)),
        Size::Wide => (rng.between(500, 4000), *rng.pick(&[8, 60, 400, 5000])),
        Size::Long => (rng.between(5_000, 30_000), rng.between(2, 40)),
        Size::Season | Size::Edges => (100_000, rng.between(2, 12)),
    };
    if rng.chance(1) {
        // A row longer than any buffer.
        text.extend(vec![b'x'; 70_000]);
        text.extend(b"\r\n");
    }
    if size == Size::Small {
        text.extend(log(rng, declared, rows, values));
    } else {
        for _ in 0..rows {
            text.extend(any_row(rng, declared, values));
            text.extend(b"\r\n");
        }
    }
    text
}

/// A text filled up to about the limit, or far past it.
fn padded(rng: &mut Rng, mut text: Vec<u8>, with: u8) -> Vec<u8> {
    let length = *rng.pick(&[TEXT_LIMIT - 1, TEXT_LIMIT, TEXT_LIMIT, TEXT_LIMIT + 1, TEXT_LIMIT + 2, 10_000, 70_000]);
    text.resize(length, with);
    text
}

/// A log whose rows end just before, at or after places where a buffer may end. A row may be longer than a buffer, and hold CR and LF
/// there; the header too, now and then. A row of about the longest size may end where the first buffer does, and an empty row stand
/// between two that are longer than a buffer.
fn edges(rng: &mut Rng, declared: &Declared) -> Vec<u8> {
    let mut text = declared.header().into_bytes();
    if rng.chance(5) {
        let end = near_a_buffer(rng, text.len());
        fill(rng, &mut text, end);
    }
    text.extend(b"\r\n");
    if rng.chance(20) {
        row_at_the_first_buffers_end(rng, declared, &mut text);
    }
    let values = rng.between(1, 4);
    for _ in 0..rng.between(1, 4) {
        if rng.chance(10) {
            for _ in 0..2 {
                text.extend(vec![b'x'; rng.between(BUFFER, 2 * BUFFER)]);
                text.extend(b"\r\n\r\n");
            }
        }
        for _ in 0..*rng.pick(&[0, 1, 20, 3_000, 6_000]) {
            text.extend(any_row(rng, declared, values));
            text.extend(b"\r\n");
        }
        if rng.chance(80) {
            let end = near_a_buffer(rng, text.len());
            if rng.chance(70) && end > text.len() + 300 {
                rows_up_to(rng, declared, end - 200, &mut text);
            }
            fill(rng, &mut text, end);
        } else {
            let row = *rng.pick(&[127, 128, 129, 130, 131]);
            text.extend(vec![b'x'; row]);
        }
        text.extend(*rng.pick(&[&b"\r\n"[..], b"\r\n", b"\r\n", b"\r\r\n", b"\n", b"\r", b""]));
    }
    if rng.chance(70) {
        text.extend(log(rng, declared, 5, values));
    }
    text
}

/// Rows up to one of about the longest size, with the CR of its line end about where the first buffer ends. It has as many fields as
/// a row must, so that its size decides what it is refused for.
fn row_at_the_first_buffers_end(rng: &mut Rng, declared: &Declared, text: &mut Vec<u8>) {
    let row = *rng.pick(&[ROW_LIMIT - 1, ROW_LIMIT, ROW_LIMIT, ROW_LIMIT + 1]);
    let start = BUFFER - row - *rng.pick(&[0, 1, 1, 2]);
    rows_up_to(rng, declared, start - 2 * ROW_LIMIT, text);
    text.resize(start - 2, b'x');
    text.extend(b"\r\n");
    let commas = declared.header().matches(',').count();
    text.extend(vec![b'x'; row - commas]);
    text.extend(vec![b','; commas]);
    text.extend(b"\r\n");
}

/// A place a few bytes before or after a multiple of a buffer's size, past `from`.
fn near_a_buffer(rng: &mut Rng, from: usize) -> usize {
    let place = (from / BUFFER + rng.between(1, 3)) * BUFFER + 4 - rng.below(9);
    place.max(from)
}

/// Rows up to about a place.
fn rows_up_to(rng: &mut Rng, declared: &Declared, end: usize, text: &mut Vec<u8>) {
    while text.len() < end {
        text.extend(any_row(rng, declared, 3));
        text.extend(b"\r\n");
    }
}

/// One row's bytes up to a place; a CR or LF may stand at its last bytes.
fn fill(rng: &mut Rng, text: &mut Vec<u8>, end: usize) {
    let from = text.len();
    text.resize(end.max(from), b'x');
    for place in (from.max(end.saturating_sub(3))..end).rev() {
        if rng.chance(20) {
            text[place] = *rng.pick(b"\r\r\n,");
        }
    }
}
