//! The script: many requests to one dump, a line each, and an answer line for
//! each.
//!
//! - `request`: the requests, and reading them.
//! - `runner`: the lent memory, and the library's answers.
//! - `line`: answers as lines.

pub mod line;
pub mod request;
pub mod runner;
