//! Document 01 a second time, by enumeration of settings: plain and slow, for comparison.
//!
//! Each public call is a function on slices that answers a result or a refusal; lent runs hold afterwards what document 01 says.

pub mod calls;
pub mod dimacs;
pub mod host;
pub mod method;
pub mod pla;
pub mod program;
pub mod random;
pub mod random_sheets;
pub mod random_texts;
pub mod refusal;
pub mod sheets;
pub mod words;
