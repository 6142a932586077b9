//! Wrong host calls and wrong pruning of records are caught.

mod common;

use common::caught;
use compare::both::compare_both;
use compare::calls::{Host, Records};
use compare::host::{HOST_LIST, HOST_PLA};
use compare::itself::{HOST, LISTS, RECORDS};
use compare::records::PRUNE;

/// The host's list with one thing wrong.
fn list(wrong: fn(u32, &[u8], &[u8], &[u8], &mut [u8], &mut [u8]) -> u64) -> String {
    caught(HOST_LIST, Host { list: wrong, ..HOST })
}

/// The host's text with one thing wrong.
fn pla(wrong: fn(u32, u32, &[u8], &[u8], &mut [u8]) -> u64) -> String {
    caught(HOST_PLA, Host { pla: wrong, ..HOST })
}

/// Pruning with one thing wrong.
fn prune(wrong: fn(u32, usize, &mut [u32], &mut [u32], &mut [u32]) -> u64) -> String {
    caught(PRUNE, Records { prune: wrong })
}

/// The whole words' bytes.
fn whole(bytes: &[u8]) -> &[u8] {
    &bytes[..bytes.len() / 4 * 4]
}

#[test]
fn an_order_whose_bytes_left_over_are_passed_over() {
    list(|n, order, on, off, care, value| (HOST.list)(n, whole(order), on, off, care, value));
}

#[test]
fn sheets_whose_bytes_left_over_are_passed_over() {
    list(|n, order, on, off, care, value| (HOST.list)(n, order, whole(on), whole(off), care, value));
}

#[test]
fn words_with_the_highest_byte_first() {
    list(|n, order, on, off, care, value| {
        let answer = (HOST.list)(n, order, on, off, care, value);
        if answer >> 32 == 0 {
            care.chunks_exact_mut(4).take(answer as usize).for_each(|word| word.reverse());
        }
        answer
    });
}

#[test]
fn a_word_begun_in_the_bytes_left_over() {
    list(|n, order, on, off, care, value| {
        let answer = (HOST.list)(n, order, on, off, care, value);
        if answer >> 32 == 0 && answer as usize * 4 < care.len() && care.len() % 4 != 0 {
            *care.last_mut().unwrap() = 0;
        }
        answer
    });
}

#[test]
fn a_host_refusal_without_its_setting() {
    list(|n, order, on, off, care, value| match (HOST.list)(n, order, on, off, care, value) {
        answer if answer >> 32 == 6 => 6 << 32,
        answer => answer,
    });
}

#[test]
fn other_rows_on_bytes_than_on_words() {
    let wrong = Host {
        list: |n, order, on, off, care, value| {
            let answer = (HOST.list)(n, order, on, off, care, value);
            if (1..256).contains(&answer) {
                value[0] ^= care[0];
            }
            answer
        },
        ..HOST
    };
    let words = compare_both(&LISTS, &wrong, 3000, 5).expect_err("other rows must differ");
    assert!(words.contains("on words") && words.contains("on bytes"));
}

#[test]
fn a_text_whose_count_goes_by_bytes() {
    pla(|n, count, care, value, text| match (HOST.pla)(n, count, care, value, text) {
        answer if answer >> 32 == 8 && count as usize <= care.len().min(value.len()) && count < 200 => 15 << 32,
        answer => answer,
    });
}

#[test]
fn a_host_text_that_is_cut_off() {
    pla(|n, count, care, value, text| match (HOST.pla)(n, count, care, value, text) {
        answer if answer >> 32 == 15 => {
            text.fill(b'-');
            answer
        }
        answer => answer,
    });
}

#[test]
fn marks_that_stay() {
    prune(|n, count, care, value, dropped| {
        let before = dropped.to_vec();
        let answer = (RECORDS.prune)(n, count, care, value, dropped);
        dropped.iter_mut().zip(before).for_each(|(mark, was)| *mark |= u32::from(was != 0));
        answer
    });
}

#[test]
fn marks_past_the_count() {
    prune(|n, count, care, value, dropped| {
        let answer = (RECORDS.prune)(n, count, care, value, dropped);
        if answer >> 56 == 0 {
            dropped[count..].fill(0);
        }
        answer
    });
}

#[test]
fn marks_of_a_refused_list() {
    prune(|n, count, care, value, dropped| {
        let answer = (RECORDS.prune)(n, count, care, value, dropped);
        if answer >> 56 == 8 {
            dropped.fill(0);
        }
        answer
    });
}

#[test]
fn rows_cleared_where_they_are_dropped() {
    prune(|n, count, care, value, dropped| {
        let answer = (RECORDS.prune)(n, count, care, value, dropped);
        if answer >> 56 == 0 {
            (0..count).filter(|&i| dropped[i] == 1).for_each(|i| value[i] = 0);
        }
        answer
    });
}

#[test]
fn marks_by_their_lowest_bit() {
    prune(|n, count, care, value, dropped| {
        dropped.iter_mut().for_each(|mark| *mark &= 1);
        (RECORDS.prune)(n, count, care, value, dropped)
    });
}

#[test]
fn counts_by_their_low_half() {
    prune(|n, count, care, value, dropped| (RECORDS.prune)(n, count as u32 as usize, care, value, dropped));
}

#[test]
fn counts_past_256() {
    prune(|n, count, care, value, dropped| (RECORDS.prune)(n, if count == 257 { 256 } else { count }, care, value, dropped));
}
