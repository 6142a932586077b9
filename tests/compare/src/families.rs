//! Pairs on 17 to 24 inputs: the families of bench/families.c, which a search is quick on.

use second::random::Random;
use second::random_sheets::{clause, sheet_of_clauses, Pair};
use second::sheets::{clauses, MAX_NUMBERS};
use second::words::MAX_INPUTS;

use crate::pairs::spread;

/// As bench/families.h has them.
#[repr(C)]
struct Sheet {
    count: usize,
    numbers: [i32; MAX_NUMBERS],
}

#[repr(C)]
struct Made {
    n: u32,
    order: [u32; MAX_INPUTS as usize],
    on: Sheet,
    off: Sheet,
}

type Make = unsafe extern "C" fn(&mut Made, u32);

extern "C" {
    fn parity(made: &mut Made, inputs: u32);
    fn threshold(made: &mut Made, inputs: u32);
    fn multiplexer(made: &mut Made, selects: u32);
    fn comparator(made: &mut Made, bits: u32);
    fn carry(made: &mut Made, bits: u32);
    fn level_codes(made: &mut Made, inputs: u32);
    fn level_switches(made: &mut Made, inputs: u32);
    fn random_guarded(made: &mut Made, inputs: u32);
}

/// Each family with its smallest and its largest size; parity of 10 has too many rows.
const FAMILIES: [(Make, usize, usize); 9] = [
    (parity, 2, 9),
    (parity, 10, 10),
    (threshold, 3, 9),
    (multiplexer, 2, 4),
    (comparator, 2, 7),
    (carry, 2, 7),
    (level_codes, 5, 24),
    (level_switches, 4, 24),
    (random_guarded, 12, 20),
];

/// The sheet's numbers.
fn numbers(sheet: &Sheet) -> Vec<i32> {
    sheet.numbers[..sheet.count].to_vec()
}

/// A pair of some family.
fn made(random: &mut Random) -> Pair {
    let (make, smallest, largest) = random.pick(&FAMILIES);
    let empty = || Sheet { count: 0, numbers: [0; MAX_NUMBERS] };
    let mut made = Made { n: 0, order: [0; MAX_INPUTS as usize], on: empty(), off: empty() };
    unsafe { make(&mut made, random.between(smallest, largest) as u32) };
    Pair { n: made.n, order: made.order[..made.n as usize].to_vec(), on: numbers(&made.on), off: numbers(&made.off) }
}

/// The sheet with a few short clauses more.
fn with_more(random: &mut Random, n: u32, sheet: &[i32]) -> Vec<i32> {
    let mut more = Vec::new();
    for _ in 0..random.between(1, 4) {
        let length = random.between(1, 3);
        more.push(clause(random, n, length));
    }
    [sheet, &sheet_of_clauses(&more)].concat()
}

/// The sheet without one of its clauses.
fn without_one(random: &mut Random, sheet: &[i32]) -> Vec<i32> {
    let mut left: Vec<Vec<i32>> = clauses(sheet).iter().map(|clause| clause.to_vec()).collect();
    left.remove(random.below(left.len()));
    sheet_of_clauses(&left)
}

/// A family's pair among 17 to 24 variables, as it is, with clauses more, or with one left out, so that its sheets may collide.
pub fn pair_to_24(random: &mut Random) -> Pair {
    let made = made(random);
    let n = random.between(made.n.max(17) as usize, 24) as u32;
    let Pair { n, order, on, off } = spread(random, &made, n);
    match random.below(6) {
        0 | 1 => Pair { n, order, on: with_more(random, n, &on), off: with_more(random, n, &off) },
        2 => Pair { n, order, on: without_one(random, &on), off },
        3 => Pair { n, order, off: without_one(random, &off), on },
        _ => Pair { n, order, on, off },
    }
}
