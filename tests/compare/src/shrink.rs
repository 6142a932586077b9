//! Smaller runs, sheets and words, for the search of a smallest case; and how runs are shown.

use std::fmt::Display;

use second::random_sheets::Pair;
use second::sheets::well_formed;
use second::words::order_in_form;

/// The most inputs for which the second program goes through all settings while a case is made smaller.
const MOST_INPUTS: u32 = 12;

/// The parts of a run that may be left out: halves, quarters and so on down to single items.
pub fn parts(length: usize) -> impl Iterator<Item = (usize, usize)> {
    let sizes = (0..usize::BITS).map(move |halvings| length >> (halvings + 1)).take_while(|&size| size > 0);
    let single = if length == 1 { Some(1) } else { None };
    sizes.chain(single).flat_map(move |size| (0..length).step_by(size).map(move |first| (first, (first + size).min(length))))
}

/// The run with one of its parts left out.
pub fn fewer<T: Clone>(run: &[T]) -> impl Iterator<Item = Vec<T>> + '_ {
    parts(run.len()).map(|(first, last)| [&run[..first], &run[last..]].concat())
}

/// A count of items, less those of them that are left out.
pub fn count_without(count: usize, first: usize, last: usize) -> usize {
    count - (count.min(last) - count.min(first))
}

/// The sheet with clauses left out, then with numbers left out.
pub fn smaller_sheet(sheet: &[i32]) -> impl Iterator<Item = Vec<i32>> + '_ {
    let clauses: Vec<&[i32]> = sheet.split_inclusive(|&number| number == 0).collect();
    let fewer_clauses = parts(clauses.len()).map(move |(first, last)| [&clauses[..first], &clauses[last..]].concat().concat());
    fewer_clauses.chain(fewer(sheet))
}

/// The order without one variable; those above it are called one less.
pub fn order_without(order: &[u32], variable: u32) -> Vec<u32> {
    order.iter().filter(|&&v| v != variable).map(|&v| if v > variable { v - 1 } else { v }).collect()
}

/// The sheet without one variable's literals; those above it are called one less.
pub fn sheet_without(sheet: &[i32], variable: u32) -> Vec<i32> {
    let lowered = |&number: &i32| if number.unsigned_abs() > variable { number - number.signum() } else { number };
    sheet.iter().filter(|number| number.unsigned_abs() != variable).map(lowered).collect()
}

/// The word without one variable's bit; those above it move down.
pub fn word_without(word: u32, variable: u32) -> u32 {
    let below = (1 << (variable - 1)) - 1;
    (word & below) | (word >> 1 & !below)
}

/// The variables that may be left out: any of 2 to 24 inputs.
pub fn inputs_to_drop(n: u32) -> std::ops::RangeInclusive<u32> {
    1..=if (2..=24).contains(&n) { n } else { 0 }
}

/// The pair with fewer inputs, clauses or numbers; a pair that is answered soon stays so.
pub fn smaller_pair(pair: &Pair) -> impl Iterator<Item = Pair> + '_ {
    let without = |v: u32| Pair {
        n: pair.n - 1,
        order: order_without(&pair.order, v),
        on: sheet_without(&pair.on, v),
        off: sheet_without(&pair.off, v),
    };
    let fewer_inputs = inputs_to_drop(pair.n).map(without);
    let on = smaller_sheet(&pair.on).map(|on| Pair { on, ..pair.clone() });
    let off = smaller_sheet(&pair.off).map(|off| Pair { off, ..pair.clone() });
    let slow = !pair_is_quick(pair);
    fewer_inputs.chain(on).chain(off).filter(move |pair| slow || pair_is_quick(pair))
}

/// Whether the second program answers soon: few inputs, or a refusal before it goes through the settings.
pub fn pair_is_quick(pair: &Pair) -> bool {
    sheet_is_quick(pair.n, &pair.order, &pair.on) || !well_formed(pair.n, &pair.off)
}

/// The same of a single sheet.
pub fn sheet_is_quick(n: u32, order: &[u32], sheet: &[i32]) -> bool {
    quick(n) || !order_in_form(n, order) || !well_formed(n, sheet)
}

/// Whether n has few settings, or is refused.
pub fn quick(n: u32) -> bool {
    !(MOST_INPUTS + 1..=24).contains(&n)
}

/// A run's items, parted by spaces.
pub fn listed<T: Display>(run: &[T]) -> String {
    let items: Vec<String> = run.iter().map(|item| item.to_string()).collect();
    items.join(" ")
}

/// A pair's parts, a line for each.
pub fn pair_shown(pair: &Pair) -> String {
    let Pair { n, order, on, off } = pair;
    format!("n {n}\norder {}\non {}\noff {}", listed(order), listed(on), listed(off))
}
