//! Random batches and folders. Everything here depends on the seed alone.

pub mod batch;
pub mod damage;
pub mod folders;
pub mod logs;
pub mod maker;
pub mod patterns;
pub mod rng;
pub mod sessions;
pub mod texts;
