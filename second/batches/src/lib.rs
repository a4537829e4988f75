//! Batches: files of requests, read and answered by the implementation, in the form of docs/CASES.md.
#![forbid(unsafe_code)]

pub mod answer;
pub mod print;
pub mod read;
pub mod recheck;
pub mod state;
