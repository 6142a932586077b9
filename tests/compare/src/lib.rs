//! Rattle's static library against the second program, and lists of many inputs against the plain C program of bench/: every answer,
//! and every cell of the lent runs.
//!
//! A call's cases are document 01's worked ones and seeded random ones. Where an outcome differs, the smallest case found is shown.

#[cfg(all(feature = "self", any(feature = "query", feature = "lists", feature = "texts", feature = "host", feature = "records")))]
compile_error!("feature `self` compares the second program with itself; it goes with no group of the static library");

pub mod answers;
pub mod both;
pub mod calls;
pub mod catalogue;
pub mod driver;
pub mod families;
pub mod host;
pub mod itself;
pub mod lent;
pub mod linked;
pub mod lists;
pub mod output;
pub mod pairs;
pub mod plain;
pub mod query;
pub mod reading;
pub mod records;
pub mod rows;
pub mod shrink;
pub mod tokens;
pub mod value;
pub mod worked;
pub mod writing;
