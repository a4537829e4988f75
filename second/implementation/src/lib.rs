//! Document 01 as a library, decided by its definitions. See ../README.md for what is decided how.
#![forbid(unsafe_code)]

pub mod class;
pub mod combination;
pub mod declarations;
pub mod history;
pub mod limits;
pub mod log;
pub mod names;
pub mod pattern;
pub mod property;
pub mod quick;
pub mod refusal;
pub mod rows;
pub mod session;
pub mod table;
pub mod tokens;
pub mod tree;
pub mod watch;
