//! The static library's calls.

use crate::calls::Library;

/// The groups that this program was built with.
pub const LIBRARY: Library = Library {
    #[cfg(feature = "query")]
    query: Some(crate::calls::Query { query: query::query }),
    #[cfg(not(feature = "query"))]
    query: None,
    #[cfg(feature = "lists")]
    lists: Some(crate::calls::Lists { whole: lists::whole, partial: lists::partial, value: lists::value }),
    #[cfg(not(feature = "lists"))]
    lists: None,
    #[cfg(feature = "lists")]
    quick_lists: Some(crate::calls::Lists { whole: lists::whole, partial: lists::partial, value: lists::value }),
    #[cfg(not(feature = "lists"))]
    quick_lists: None,
    #[cfg(feature = "texts")]
    texts: Some(crate::calls::Texts { read: texts::read, token: texts::token, write: texts::write, output: texts::output }),
    #[cfg(not(feature = "texts"))]
    texts: None,
    #[cfg(feature = "host")]
    host: Some(crate::calls::Host { list: host::list, pla: host::pla }),
    #[cfg(not(feature = "host"))]
    host: None,
    #[cfg(feature = "records")]
    records: Some(crate::calls::Records { prune: records::prune }),
    #[cfg(not(feature = "records"))]
    records: None,
};

/// Functions over C functions: a number passes as it is, a slice as a pointer and then its length.
macro_rules! linked {
    ($(fn $name:ident = $symbol:ident($($arguments:tt)*) -> $answer:ty;)*) => {
        $(linked! { $name $symbol $answer [] [] $($arguments)*, })*
    };
    ($name:ident $symbol:ident $answer:ty [$($given:tt)*] [$($passed:tt)*] $run:ident: &mut [$cell:ty], $($more:tt)*) => {
        linked! { $name $symbol $answer [$($given)* $run: &mut [$cell],] [$($passed)* *mut $cell = $run.as_mut_ptr(), usize = $run.len(),] $($more)* }
    };
    ($name:ident $symbol:ident $answer:ty [$($given:tt)*] [$($passed:tt)*] $run:ident: &[$cell:ty], $($more:tt)*) => {
        linked! { $name $symbol $answer [$($given)* $run: &[$cell],] [$($passed)* *const $cell = $run.as_ptr(), usize = $run.len(),] $($more)* }
    };
    ($name:ident $symbol:ident $answer:ty [$($given:tt)*] [$($passed:tt)*] $number:ident: $kind:ty, $($more:tt)*) => {
        linked! { $name $symbol $answer [$($given)* $number: $kind,] [$($passed)* $kind = $number,] $($more)* }
    };
    ($name:ident $symbol:ident $answer:ty [$($given:tt)*] [$($kind:ty = $passed:expr,)*]) => {
        pub fn $name($($given)*) -> $answer {
            extern "C" {
                fn $symbol($(_: $kind),*) -> $answer;
            }
            // Every pointer and length are those of one live slice, and no two lent slices overlap.
            unsafe { $symbol($($passed),*) }
        }
    };
}
pub(crate) use linked;

#[cfg(feature = "query")]
mod query {
    linked! {
        fn query = probe_query(n: u32, order: &[u32], sheet: &[i32], start: u32) -> u64;
    }
}

#[cfg(feature = "lists")]
mod lists {
    linked! {
        fn whole = probe_whole(n: u32, order: &[u32], on: &[i32], off: &[i32], care: &mut [u32], value: &mut [u32]) -> u64;
        fn partial = probe_partial(n: u32, order: &[u32], on: &[i32], off: &[i32], k: usize, care: &mut [u32], value: &mut [u32]) -> u64;
        fn value = probe_value(n: u32, count: usize, care: &[u32], value: &[u32], setting: u32) -> u64;
    }
}

#[cfg(feature = "texts")]
mod texts {
    linked! {
        fn read = probe_read(text: &[u8], numbers: &mut [i32]) -> u64;
        fn token = probe_token(v: u32, text: &[u8], at: usize) -> u64;
        fn write = probe_write(n: u32, count: usize, care: &[u32], value: &[u32], text: &mut [u8]) -> u64;
        fn output = probe_output(on: &[u8], off: &[u8], out: &mut [u8]) -> u64;
    }
}

#[cfg(feature = "host")]
mod host {
    linked! {
        fn list = glimmeldoek_list(n: u32, order: &[u8], on: &[u8], off: &[u8], care: &mut [u8], value: &mut [u8]) -> u64;
        fn pla = glimmeldoek_pla(n: u32, count: u32, care: &[u8], value: &[u8], text: &mut [u8]) -> u64;
    }
}

#[cfg(feature = "records")]
mod records {
    /// A word of each record.
    type Words = [u32; 256];

    extern "C" {
        fn probe_prune(n: u32, count: usize, care: &mut Words, value: &mut Words, dropped: &mut Words) -> u64;
    }

    pub fn prune(n: u32, count: usize, care: &mut [u32], value: &mut [u32], dropped: &mut [u32]) -> u64 {
        unsafe { probe_prune(n, count, words(care), words(value), words(dropped)) }
    }

    fn words(run: &mut [u32]) -> &mut Words {
        run.try_into().expect("256 records are lent")
    }
}
