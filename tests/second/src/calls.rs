//! The public calls on lists and sheets.

use std::cmp::Ordering;

use crate::method::{drops, pruned, Asked, MAX_ROWS};
use crate::refusal::{require, Answer, Refusal};
use crate::sheets::{satisfies, table, well_formed};
use crate::words::{compare, held, inputs_in_form, order_in_form, settings, within, Row};

/// What a partial list answers: its count, and whether generation has no more rows than asked for.
#[derive(Clone, Copy, PartialEq, Eq, Debug)]
pub struct Partial {
    pub count: usize,
    pub complete: bool,
}

/// A cube record, marked kept or dropped where it stands.
#[derive(Clone, Copy, PartialEq, Eq, Debug)]
pub struct Cube {
    pub care: u32,
    pub value: u32,
    pub dropped: bool,
}

/// Refusals 1 and 2.
fn check_order(n: u32, order: &[u32]) -> Answer<()> {
    require(1, inputs_in_form(n))?;
    require(2, order_in_form(n, order))
}

/// Refusals 1 to 4.
fn check_pair(n: u32, order: &[u32], on: &[i32], off: &[i32]) -> Answer<()> {
    check_order(n, order)?;
    require(3, well_formed(n, on))?;
    require(4, well_formed(n, off))
}

/// What two well-formed sheets ask for, unless they collide (refusal 6).
fn asked(n: u32, order: &[u32], on: &[i32], off: &[i32]) -> Answer<Asked> {
    let asked = Asked { n, order: order.to_vec(), on: table(n, on), off: table(n, off) };
    match asked.collision() {
        Some(setting) => Err(Refusal::Collision(setting)),
        None => Ok(asked),
    }
}

/// Writes the rows to the first cells, unless the shorter run has no room for all (refusal 15).
fn lend(rows: &[Row], care: &mut [u32], value: &mut [u32]) -> Answer<usize> {
    require(15, rows.len() <= care.len().min(value.len()))?;
    for (i, row) in rows.iter().enumerate() {
        care[i] = row.care;
        value[i] = row.value;
    }
    Ok(rows.len())
}

/// The whole list: its count, and its rows in the lent runs.
pub fn whole_list(n: u32, order: &[u32], on: &[i32], off: &[i32], care: &mut [u32], value: &mut [u32]) -> Answer<usize> {
    check_pair(n, order, on, off)?;
    let rows = asked(n, order, on, off)?.generate(MAX_ROWS + 1);
    require(7, rows.len() <= MAX_ROWS)?;
    lend(&pruned(n, &rows), care, value)
}

/// The first k generated rows, unpruned, in the lent runs.
pub fn partial_list(n: u32, order: &[u32], on: &[i32], off: &[i32], k: usize, care: &mut [u32], value: &mut [u32]) -> Answer<Partial> {
    check_pair(n, order, on, off)?;
    require(5, k <= MAX_ROWS)?;
    let rows = asked(n, order, on, off)?.generate(k + 1);
    let complete = rows.len() <= k;
    let count = lend(&rows[..rows.len().min(k)], care, value)?;
    Ok(Partial { count, complete })
}

/// The smallest setting that satisfies the sheet and is not below the start, if there is one.
pub fn query(n: u32, order: &[u32], sheet: &[i32], start: u32) -> Answer<Option<u32>> {
    check_order(n, order)?;
    require(3, well_formed(n, sheet))?;
    require(9, within(n, start))?;
    let not_below = |s: u32| compare(order, s, start) != Ordering::Less;
    Ok(settings(order).into_iter().find(|&s| not_below(s) && satisfies(sheet, s)))
}

/// Whether rows within the count have no care bits from n up and no value bits outside care.
fn rows_in_form(n: u32, rows: &[Row]) -> bool {
    rows.iter().all(|row| within(n, row.care) && row.value & !row.care == 0)
}

/// The rows of a given list on n inputs (refusals 1 and 8).
pub fn given_list(n: u32, care: &[u32], value: &[u32], count: usize) -> Answer<Vec<Row>> {
    require(1, inputs_in_form(n))?;
    require(8, count <= care.len().min(value.len()) && count <= MAX_ROWS)?;
    let rows: Vec<Row> = (0..count).map(|i| Row { care: care[i], value: value[i] }).collect();
    require(8, rows_in_form(n, &rows))?;
    Ok(rows)
}

/// Marks each of the first records kept or dropped, and answers the number kept.
pub fn prune(n: u32, cubes: &mut [Cube], count: usize) -> Answer<usize> {
    let care: Vec<u32> = cubes.iter().map(|cube| cube.care).collect();
    let value: Vec<u32> = cubes.iter().map(|cube| cube.value).collect();
    let rows = given_list(n, &care, &value, count)?;
    let dropped = drops(n, &rows);
    for i in 0..count {
        cubes[i].dropped = dropped[i];
    }
    Ok(dropped.iter().filter(|&&gone| !gone).count())
}

/// The list's value at a setting: 1 if some row holds it, else 0.
pub fn value_at(n: u32, care: &[u32], value: &[u32], count: usize, setting: u32) -> Answer<u32> {
    let rows = given_list(n, care, value, count)?;
    require(9, within(n, setting))?;
    Ok(if held(&rows, setting) { 1 } else { 0 })
}
