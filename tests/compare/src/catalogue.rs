//! Every call that is compared: its group, its amount for the gate, and how to run it.

use crate::both::compare_both;
use crate::calls::Library;
use crate::driver::{Call, Case, Tally};
use crate::host::{HOST_LIST, HOST_PLA};
use crate::lists::{PARTIAL, PARTIAL_TO_16, PARTIAL_TO_24, WHOLE, WHOLE_TO_16, WHOLE_TO_24};
use crate::output::OUTPUT;
use crate::query::QUERY;
use crate::reading::READ;
use crate::records::PRUNE;
use crate::tokens::TOKEN;
use crate::value::VALUE;
use crate::writing::WRITE;

/// Compares so many cases by a seed.
type Run = Box<dyn Fn(usize, u64) -> Result<Tally, String>>;

/// A call that a library has.
pub struct Entry {
    pub group: &'static str,
    pub name: &'static str,
    pub amount: usize,
    pub run: Run,
}

/// An entry, if the library has the table that the call is in.
fn entry<C: Case + 'static>(group: &'static str, amount: usize, call: Call<C>, table: Option<C::Calls>) -> Option<Entry> {
    let table = table?;
    Some(Entry { group, name: call.name, amount, run: Box::new(move |count, seed| call.compare(&table, count, seed)) })
}

/// The list on words beside the list on bytes, if the library has both.
fn both(library: Library) -> Option<Entry> {
    let (lists, host) = (library.lists?, library.host?);
    let run: Run = Box::new(move |count, seed| compare_both(&lists, &host, count, seed));
    Some(Entry { group: "host", name: "words-and-bytes", amount: 10_000, run })
}

/// Every call that the library has.
pub fn entries(library: Library) -> Vec<Entry> {
    let all = [
        entry("query", 10_000, QUERY, library.query),
        entry("lists", 20_000, WHOLE, library.lists),
        entry("lists", 20_000, PARTIAL, library.lists),
        entry("lists", 5_000, VALUE, library.lists),
        entry("texts", 20_000, READ, library.texts),
        entry("texts", 20_000, TOKEN, library.texts),
        entry("texts", 10_000, WRITE, library.texts),
        entry("texts", 10_000, OUTPUT, library.texts),
        entry("host", 20_000, HOST_LIST, library.host),
        entry("host", 20_000, HOST_PLA, library.host),
        both(library),
        entry("records", 5_000, PRUNE, library.records),
        entry("many", 150, WHOLE_TO_16, library.lists),
        entry("many", 150, PARTIAL_TO_16, library.lists),
        entry("many", 300, WHOLE_TO_24, library.quick_lists),
        entry("many", 500, PARTIAL_TO_24, library.quick_lists),
    ];
    all.into_iter().flatten().collect()
}
