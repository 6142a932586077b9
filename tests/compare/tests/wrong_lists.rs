//! Wrong queries and lists are caught.

mod common;

use common::caught;
use compare::answers::{first, pack, second_value};
use compare::calls::{Lists, Query};
use compare::itself::{LISTS, QUERY as SECOND};
use compare::lists::{PARTIAL, PARTIAL_TO_16, PARTIAL_TO_24, WHOLE, WHOLE_TO_16, WHOLE_TO_24};
use compare::plain::LISTS as PLAIN;
use compare::query::QUERY;
use compare::value::VALUE;

/// The whole list with one thing wrong.
fn whole(wrong: fn(u32, &[u32], &[i32], &[i32], &mut [u32], &mut [u32]) -> u64) -> String {
    caught(WHOLE, Lists { whole: wrong, ..LISTS })
}

/// The partial list with one thing wrong.
fn partial(wrong: fn(u32, &[u32], &[i32], &[i32], usize, &mut [u32], &mut [u32]) -> u64) -> String {
    caught(PARTIAL, Lists { partial: wrong, ..LISTS })
}

/// The answers of room's refusal.
const NO_ROOM: u64 = 15 << 56;

#[test]
fn a_query_that_refuses_everything() {
    caught(QUERY, Query { query: |_, _, _, _| pack(1, &[]) });
}

#[test]
fn a_query_that_leaves_out_its_start() {
    let above = |n: u32, order: &[u32], sheet: &[i32], start: u32| {
        let answer = (SECOND.query)(n, order, sheet, start);
        if answer == pack(0, &[u64::from(start)]) {
            0
        } else {
            answer
        }
    };
    let words = caught(QUERY, Query { query: above });
    assert!(words.contains("n 1\norder 1\nsheet \nstart 0b0"), "the smallest such case is found");
}

#[test]
fn a_query_that_judges_the_start_first() {
    let early = |n: u32, order: &[u32], sheet: &[i32], start: u32| {
        if (1..=24).contains(&n) && start >> n != 0 {
            pack(9, &[])
        } else {
            (SECOND.query)(n, order, sheet, start)
        }
    };
    caught(QUERY, Query { query: early });
}

#[test]
fn a_list_that_is_not_written() {
    whole(|n, order, on, off, care, value| (LISTS.whole)(n, order, on, off, &mut care.to_vec(), &mut value.to_vec()));
}

#[test]
fn one_list_for_all() {
    whole(|_, _, _, _, _, _| pack(0, &[0]));
}

#[test]
fn a_list_that_writes_past_its_count() {
    whole(|n, order, on, off, care, value| {
        let answer = (LISTS.whole)(n, order, on, off, care, value);
        if let Some(cell) = value.get_mut(first(answer) as usize).filter(|_| answer >> 56 == 0) {
            *cell = 0;
        }
        answer
    });
}

#[test]
fn a_list_that_writes_past_its_run() {
    whole(|n, order, on, off, care, value| {
        let past = care.as_mut_ptr_range().end;
        unsafe { *past ^= 1 };
        (LISTS.whole)(n, order, on, off, care, value)
    });
}

#[test]
fn a_list_that_writes_before_its_run() {
    let words = whole(|n, order, on, off, care, value| {
        let before = value.as_mut_ptr().wrapping_sub(1);
        unsafe { *before ^= 1 };
        (LISTS.whole)(n, order, on, off, care, value)
    });
    assert!(words.contains("value[-1]"));
}

#[test]
fn a_list_that_writes_though_it_refuses() {
    whole(|n, order, on, off, care, value| {
        let answer = (LISTS.whole)(n, order, on, off, care, value);
        if answer == NO_ROOM && !care.is_empty() {
            care[0] = 0;
        }
        answer
    });
}

#[test]
fn a_list_that_asks_for_more_room_than_it_needs() {
    whole(|n, order, on, off, care, value| {
        let room = care.len().min(value.len());
        let answer = (LISTS.whole)(n, order, on, off, &mut care.to_vec(), &mut value.to_vec());
        if answer >> 56 == 0 && first(answer) as usize == room && room > 8 {
            NO_ROOM
        } else {
            (LISTS.whole)(n, order, on, off, care, value)
        }
    });
}

#[test]
fn a_collision_without_its_setting() {
    whole(|n, order, on, off, care, value| match (LISTS.whole)(n, order, on, off, care, value) {
        answer if answer >> 56 == 6 => pack(6, &[]),
        answer => answer,
    });
}

#[test]
fn a_list_refused_7_too_late() {
    whole(|n, order, on, off, care, value| match (LISTS.whole)(n, order, on, off, care, value) {
        answer if answer >> 56 == 7 => NO_ROOM,
        answer => answer,
    });
}

#[test]
fn a_partial_list_that_is_always_complete() {
    partial(|n, order, on, off, k, care, value| match (LISTS.partial)(n, order, on, off, k, care, value) {
        answer if answer >> 56 == 0 && second_value(answer) == 0 => pack(0, &[first(answer), 1]),
        answer => answer,
    });
}

#[test]
fn a_partial_list_that_is_pruned() {
    partial(|n, order, on, off, k, care, value| match (LISTS.whole)(n, order, on, off, &mut care.to_vec(), &mut value.to_vec()) {
        answer if answer >> 56 == 0 && first(answer) as usize <= k => {
            (LISTS.whole)(n, order, on, off, care, value);
            pack(0, &[first(answer), 1])
        }
        _ => (LISTS.partial)(n, order, on, off, k, care, value),
    });
}

#[test]
fn a_partial_list_of_any_k() {
    partial(|n, order, on, off, k, care, value| (LISTS.partial)(n, order, on, off, k.min(256), care, value));
}

/// The answer, with a run of its rows cut to so many bits.
fn cut(answer: u64, run: &mut [u32], bits: u32) -> u64 {
    if answer >> 56 == 0 {
        run[..first(answer) as usize].iter_mut().for_each(|word| *word &= (1 << bits) - 1);
    }
    answer
}

fn whole_cut<const BITS: u32>(n: u32, order: &[u32], on: &[i32], off: &[i32], care: &mut [u32], value: &mut [u32]) -> u64 {
    cut((PLAIN.whole)(n, order, on, off, care, value), care, BITS)
}

fn partial_cut<const BITS: u32>(n: u32, order: &[u32], on: &[i32], off: &[i32], k: usize, care: &mut [u32], value: &mut [u32]) -> u64 {
    cut((PLAIN.partial)(n, order, on, off, k, care, value), value, BITS)
}

#[test]
fn lists_of_words_of_12_bits() {
    caught(WHOLE_TO_16, Lists { whole: whole_cut::<12>, ..PLAIN });
    caught(PARTIAL_TO_16, Lists { partial: partial_cut::<12>, ..PLAIN });
}

#[test]
fn lists_of_words_of_16_bits() {
    let words = caught(WHOLE_TO_24, Lists { whole: whole_cut::<16>, ..PLAIN });
    assert!(words.contains("the plain C program leaves"));
    caught(PARTIAL_TO_24, Lists { partial: partial_cut::<16>, ..PLAIN });
}

#[test]
fn a_value_that_counts_rows() {
    let wrong = |n: u32, count: usize, care: &[u32], value: &[u32], setting: u32| {
        let answer = (LISTS.value)(n, count, care, value, setting);
        if answer >> 56 == 0 {
            pack(0, &[(0..count).filter(|&i| setting & care[i] == value[i]).count() as u64])
        } else {
            answer
        }
    };
    let words = caught(VALUE, Lists { value: wrong, ..LISTS });
    assert!(words.contains("n 1, count 2"), "two rows and one input are enough");
}

#[test]
fn a_value_past_the_count() {
    let wrong = |n: u32, count: usize, care: &[u32], value: &[u32], setting: u32| {
        let room = care.len().min(value.len());
        let within_next = count < room && care[count] >> n.min(24) == 0 && value[count] & !care[count] == 0;
        (LISTS.value)(n, count + usize::from(within_next), care, value, setting)
    };
    caught(VALUE, Lists { value: wrong, ..LISTS });
}
