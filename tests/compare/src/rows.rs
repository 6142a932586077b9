//! Given lists of rows, for the calls that take one.

use second::method::MAX_ROWS;
use second::random::{damaged_inputs, damaged_row_list, inputs, row, row_list, Random, RowList};

use crate::shrink::{count_without, inputs_to_drop, listed, parts, word_without};

/// A list on up to this many inputs: mostly short, at times of up to 256 rows or of exactly 256, with
/// rows past its count too, now and then not in form.
pub fn drawn_rows(random: &mut Random, most_inputs: u32) -> RowList {
    let n = inputs(random, most_inputs);
    let mut list = match random.below(20) {
        0 => row_list(random, n, MAX_ROWS),
        1 => {
            let cared = random.between(40, 100);
            let rows: Vec<_> = (0..MAX_ROWS).map(|_| row(random, n, cared)).collect();
            let (care, value) = rows.iter().map(|row| (row.care, row.value)).unzip();
            RowList { n, care, value, count: MAX_ROWS }
        }
        2..=4 => damaged_row_list(random, n, 12),
        _ => row_list(random, n, 12),
    };
    if random.chance(20) {
        list.count = random.below(list.count + 1);
    }
    if random.chance(1) {
        list.count = random.pick(&[usize::MAX, u32::MAX as usize, list.care.len() + 1]);
    }
    if random.chance(5) {
        list.n = damaged_inputs(random);
    }
    list
}

/// The list with fewer rows.
pub fn fewer_rows(list: &RowList) -> impl Iterator<Item = RowList> + '_ {
    let room = list.care.len().min(list.value.len());
    parts(room).map(|(first, last)| {
        let mut fewer = list.clone();
        drop(fewer.care.drain(first..last));
        drop(fewer.value.drain(first..last));
        fewer.count = count_without(list.count, first, last);
        fewer
    })
}

/// The list without one variable.
pub fn rows_without(list: &RowList, variable: u32) -> RowList {
    let words = |run: &[u32]| run.iter().map(|&word| word_without(word, variable)).collect();
    RowList { n: list.n - 1, care: words(&list.care), value: words(&list.value), count: list.count }
}

/// The list with fewer rows, or on fewer inputs.
pub fn smaller_rows(list: &RowList) -> impl Iterator<Item = RowList> + '_ {
    fewer_rows(list).chain(inputs_to_drop(list.n).map(|variable| rows_without(list, variable)))
}

/// The list's parts, a line for each.
pub fn rows_shown(list: &RowList) -> String {
    let RowList { n, care, value, count } = list;
    format!("n {n}, count {count}\ncare {}\nvalue {}", listed(care), listed(value))
}
