//! The plain C program of bench/ behind the lists' table: for more inputs than the second program can enumerate.

use crate::answers::pack;
use crate::calls::Lists;
use crate::itself;
use crate::linked::linked;

/// As bench/plain.h has them.
#[repr(C)]
pub struct Whole {
    refusal: u32,
    setting: u32,
    generated: usize,
    count: usize,
}

#[repr(C)]
pub struct Partial {
    refusal: u32,
    setting: u32,
    count: usize,
    complete: bool,
}

linked! {
    fn whole = plain_whole(n: u32, order: &[u32], on: &[i32], off: &[i32], care: &mut [u32], value: &mut [u32]) -> Whole;
    fn partial = plain_partial(n: u32, order: &[u32], on: &[i32], off: &[i32], k: usize, care: &mut [u32], value: &mut [u32]) -> Partial;
}

/// The packed answer: the values of a result, or a refusal, a collision with its setting.
fn answer(refusal: u32, setting: u32, values: &[u64]) -> u64 {
    match refusal {
        0 => pack(0, values),
        6 => pack(6, &[u64::from(setting)]),
        _ => pack(refusal, &[]),
    }
}

pub const LISTS: Lists = Lists {
    whole: |n, order, on, off, care, value| {
        let Whole { refusal, setting, count, .. } = whole(n, order, on, off, care, value);
        answer(refusal, setting, &[count as u64])
    },
    partial: |n, order, on, off, k, care, value| {
        let Partial { refusal, setting, count, complete } = partial(n, order, on, off, k, care, value);
        answer(refusal, setting, &[count as u64, u64::from(complete)])
    },
    ..itself::LISTS
};
