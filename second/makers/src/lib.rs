//! The makers of cases: chosen batches, random batches, and random folders for the watch program. They know what the
//! implementation answers; it knows nothing of them.
#![forbid(unsafe_code)]

pub mod chosen;
pub mod random;
pub mod request;
