//! The calls that are compared, as tables of functions: a library has some of the tables.

/// The query for the smallest setting.
#[derive(Clone, Copy)]
pub struct Query {
    /// n, order, sheet, start.
    pub query: fn(u32, &[u32], &[i32], u32) -> u64,
}

/// Lists of rows.
#[derive(Clone, Copy)]
pub struct Lists {
    /// n, order, on, off; lent care and value.
    pub whole: fn(u32, &[u32], &[i32], &[i32], &mut [u32], &mut [u32]) -> u64,
    /// n, order, on, off, k; lent care and value.
    pub partial: fn(u32, &[u32], &[i32], &[i32], usize, &mut [u32], &mut [u32]) -> u64,
    /// n, count, care, value, setting.
    pub value: fn(u32, usize, &[u32], &[u32], u32) -> u64,
}

/// Texts read and written.
#[derive(Clone, Copy)]
pub struct Texts {
    /// A text; lent numbers.
    pub read: fn(&[u8], &mut [i32]) -> u64,
    /// V, a text, a place in it.
    pub token: fn(u32, &[u8], usize) -> u64,
    /// n, count, care, value; lent text.
    pub write: fn(u32, usize, &[u32], &[u32], &mut [u8]) -> u64,
    /// The texts of on.cnf and off.cnf; lent room for what the program prints. 0 without room for the longest output.
    pub output: fn(&[u8], &[u8], &mut [u8]) -> u64,
}

/// The C host's calls, on byte runs.
#[derive(Clone, Copy)]
pub struct Host {
    /// n, order, on, off; lent care and value.
    pub list: fn(u32, &[u8], &[u8], &[u8], &mut [u8], &mut [u8]) -> u64,
    /// n, count, care, value; lent text.
    pub pla: fn(u32, u32, &[u8], &[u8], &mut [u8]) -> u64,
}

/// Pruning where the records stand.
#[derive(Clone, Copy)]
pub struct Records {
    /// n, count; lent care, value and dropped words of 256 records.
    pub prune: fn(u32, usize, &mut [u32], &mut [u32], &mut [u32]) -> u64,
}

/// The groups of calls that a library has.
#[derive(Clone, Copy)]
pub struct Library {
    pub query: Option<Query>,
    pub lists: Option<Lists>,
    pub texts: Option<Texts>,
    pub host: Option<Host>,
    pub records: Option<Records>,
    /// The lists again, where they are quick on up to 24 inputs.
    pub quick_lists: Option<Lists>,
}

/// The library that this program was built for.
#[cfg(feature = "self")]
pub use crate::itself::LIBRARY;
#[cfg(not(feature = "self"))]
pub use crate::linked::LIBRARY;
