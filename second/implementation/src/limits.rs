//! The limits of document 01, each named once.

/// Numbers in a combination: one for each parameter that can be declared ("Words").
pub const WIDTH: usize = 4;
/// Numbers in a row of seen bindings ("One event").
pub const SEEN_WIDTH: usize = WIDTH;
/// Numbers in a row of kept combinations: the combination and its state.
pub const KEPT_WIDTH: usize = WIDTH + 1;
/// Numbers in a row of reports: the combination and its verdict.
pub const REPORT_WIDTH: usize = WIDTH + 1;
/// Rows of seen bindings that are used at most, however many are lent.
pub const SEEN_LIMIT: usize = 1024;
/// Rows of kept combinations that are used at most, however many are lent.
pub const KEPT_LIMIT: usize = 3000;
/// The watch program's room for the reports of one row.
pub const WATCH_REPORTS: usize = 3000;
/// Bytes of declarations and of a pattern text (refusal 1).
pub const TEXT_LIMIT: usize = 4096;
/// Bytes of a name (refusal 3).
pub const NAME_LIMIT: usize = 32;
/// Declared events (refusal 5).
pub const EVENT_LIMIT: usize = 16;
/// Event names in a pattern (refusal 8).
pub const POSITION_LIMIT: usize = 31;
/// Parentheses open at once (refusal 9).
pub const NESTING_LIMIT: usize = 16;
/// States of a table (refusal 10).
pub const STATE_LIMIT: usize = 64;
/// Bytes of a log row without its line end (refusal 18).
pub const ROW_LIMIT: usize = 128;

/// Verdict of a sequence that is no word yet but begins one.
pub const UNDECIDED: u32 = 0;
/// Verdict of a word.
pub const MATCH: u32 = 1;
/// Verdict of a sequence that begins no word.
pub const FAIL: u32 = 2;
/// The largest verdict that a property table may hold (refusal 11).
pub const VERDICT_LIMIT: u32 = 2;
/// `asked` for match alone, for fail alone, for both.
pub const ASKED_MATCH: u32 = 1;
pub const ASKED_FAIL: u32 = 2;
pub const ASKED_BOTH: u32 = 3;
