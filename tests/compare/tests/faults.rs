//! The faults that tempt, by document 01, are caught.

mod common;

use common::caught;
use compare::answers::pack;
use compare::calls::{Lists, Query, Records};
use compare::itself::{LISTS, QUERY as SECOND, RECORDS};
use compare::lists::{PARTIAL, WHOLE};
use compare::query::QUERY;
use compare::records::PRUNE;
use second::calls::given_list;
use second::method::{drops, Asked, MAX_ROWS};
use second::sheets::table;
use second::words::{held, settings, Row};

/// Writes the rows of a list that is not refused, as many as there is room for.
fn lent(rows: &[Row], care: &mut [u32], value: &mut [u32]) -> u64 {
    for (i, row) in rows.iter().take(care.len().min(value.len())).enumerate() {
        (care[i], value[i]) = (row.care, row.value);
    }
    pack(0, &[rows.len() as u64])
}

/// Whether the second program refuses this whole list.
fn refused(n: u32, order: &[u32], on: &[i32], off: &[i32], care: &[u32], value: &[u32]) -> Option<u64> {
    let answer = (LISTS.whole)(n, order, on, off, &mut care.to_vec(), &mut value.to_vec());
    (answer >> 56 != 0).then_some(answer)
}

/// What a well-formed pair asks for.
fn asked(n: u32, order: &[u32], on: &[i32], off: &[i32]) -> Asked {
    Asked { n, order: order.to_vec(), on: table(n, on), off: table(n, off) }
}

/// The rows whose settings do not all lie in other rows of the full list.
fn pruned_at_once(n: u32, rows: &[Row]) -> Vec<Row> {
    let needed = |i: usize| rows[i].settings(n).any(|s| (0..rows.len()).all(|j| j == i || !rows[j].holds(s)));
    (0..rows.len()).filter(|&i| needed(i)).map(|i| rows[i]).collect()
}

/// The rows left when the last is looked at first.
fn pruned_last_first(n: u32, rows: &[Row]) -> Vec<Row> {
    let turned: Vec<Row> = rows.iter().rev().copied().collect();
    let dropped = drops(n, &turned);
    (0..rows.len()).filter(|&i| !dropped[rows.len() - 1 - i]).map(|i| rows[i]).collect()
}

/// A row widened by tests of the flipped setting alone.
fn widened_by_flips(asked: &Asked, setting: u32) -> Row {
    let flips = |row: Row, v: &u32| if asked.off[(setting ^ 1 << (v - 1)) as usize] { row } else { row.without(*v) };
    asked.order.iter().fold(Row::full(asked.n, setting), flips)
}

#[test]
fn widening_by_the_flipped_setting_alone() {
    let words = caught(
        WHOLE,
        Lists {
            whole: |n, order, on, off, care, value| {
                if let Some(refusal) = refused(n, order, on, off, care, value) {
                    return refusal;
                }
                let asked = asked(n, order, on, off);
                let mut rows: Vec<Row> = Vec::new();
                while let Some(next) = settings(order).into_iter().find(|&s| asked.on[s as usize] && !held(&rows, s)) {
                    rows.push(widened_by_flips(&asked, next));
                }
                lent(&second::method::pruned(n, &rows), care, value)
            },
            ..LISTS
        },
    );
    assert!(words.contains("n 2") || words.contains("n 3"), "few inputs are enough");
}

#[test]
fn pruning_all_rows_at_once() {
    caught(
        WHOLE,
        Lists {
            whole: |n, order, on, off, care, value| match refused(n, order, on, off, care, value) {
                Some(refusal) => refusal,
                None => lent(&pruned_at_once(n, &asked(n, order, on, off).generate(MAX_ROWS)), care, value),
            },
            ..LISTS
        },
    );
}

#[test]
fn pruning_last_to_first() {
    caught(
        WHOLE,
        Lists {
            whole: |n, order, on, off, care, value| match refused(n, order, on, off, care, value) {
                Some(refusal) => refusal,
                None => lent(&pruned_last_first(n, &asked(n, order, on, off).generate(MAX_ROWS)), care, value),
            },
            ..LISTS
        },
    );
}

#[test]
fn pruning_records_last_to_first() {
    caught(
        PRUNE,
        Records {
            prune: |n, count, care, value, dropped| {
                let given = given_list(n, care, value, count);
                let answer = (RECORDS.prune)(n, count, care, value, dropped);
                let Ok(mut rows) = given else { return answer };
                rows.reverse();
                let gone = drops(n, &rows);
                (0..count).for_each(|i| dropped[i] = u32::from(gone[count - 1 - i]));
                pack(0, &[gone.iter().filter(|&&gone| !gone).count() as u64])
            },
        },
    );
}

#[test]
fn comparing_settings_by_their_words() {
    let by_words = |n: u32, order: &[u32], sheet: &[i32], start: u32| match (SECOND.query)(n, order, sheet, start) {
        answer if answer >> 56 == 0 => {
            let by_word: Vec<u32> = (1..=n).rev().collect();
            (SECOND.query)(n, &by_word, sheet, start)
        }
        answer => answer,
    };
    caught(QUERY, Query { query: by_words });
}

#[test]
fn a_place_taken_for_a_variable() {
    caught(
        PARTIAL,
        Lists {
            partial: |n, order, on, off, k, care, value| match (LISTS.partial)(
                n,
                order,
                on,
                off,
                k,
                &mut care.to_vec(),
                &mut value.to_vec(),
            ) {
                answer if answer >> 56 == 0 => {
                    let mut places = vec![0; n as usize];
                    (0..n).for_each(|place| places[order[place as usize] as usize - 1] = place + 1);
                    (LISTS.partial)(n, &places, on, off, k, care, value)
                }
                answer => answer,
            },
            ..LISTS
        },
    );
}
