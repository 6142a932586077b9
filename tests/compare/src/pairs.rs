//! Pairs of sheets for the list calls.

use second::method::MAX_ROWS;
use second::random::{order, room, Random};
use second::random_sheets::{chosen, damaged_pair, pair, pair_on, parted_by_choices, renamed, sheet_of_settings, Pair};

use crate::answers::first;
use crate::calls::Lists;

/// Ten inputs parted by parity but for a few settings that are neither: more rows than a list has.
pub fn with_many_rows(random: &mut Random) -> Pair {
    let neither: Vec<usize> = (0..random.below(20)).map(|_| random.below(1024)).collect();
    let of_parity = |odd: bool| {
        let wanted: Vec<bool> = (0..1024usize).map(|s| (s.count_ones() % 2 == 1) == odd && !neither.contains(&s)).collect();
        sheet_of_settings(10, &wanted)
    };
    Pair { n: 10, order: order(random, 10), on: of_parity(true), off: of_parity(false) }
}

/// A well-formed pair: mostly on few inputs, now and then on up to ten, or with too many rows.
pub fn formed_pair(random: &mut Random) -> Pair {
    match random.below(100) {
        0 => with_many_rows(random),
        1..=19 => pair(random, 10),
        _ => pair(random, 7),
    }
}

/// A well-formed pair, or now and then one that is not.
pub fn drawn_pair(random: &mut Random) -> Pair {
    if random.chance(15) {
        damaged_pair(random, 24)
    } else {
        formed_pair(random)
    }
}

/// The pair with its variables among n, by any order.
pub fn spread(random: &mut Random, pair: &Pair, n: u32) -> Pair {
    let names = chosen(random, n, pair.n as usize);
    Pair { n, order: order(random, n), on: renamed(&pair.on, &names), off: renamed(&pair.off, &names) }
}

/// A well-formed pair on 11 to 16 inputs: with too many rows, of any kind, or one that decides every setting.
pub fn pair_to_16(random: &mut Random) -> Pair {
    let n = random.between(11, 16) as u32;
    match random.below(8) {
        0 => {
            let pair = with_many_rows(random);
            spread(random, &pair, n)
        }
        1..=5 => pair_on(random, n),
        _ => {
            let (on, off) = parted_by_choices(random, n);
            Pair { n, order: order(random, n), on, off }
        }
    }
}

/// How many rows the call gives where there is room, or a few where it refuses.
fn rows_given(lists: &Lists, pair: &Pair, k: Option<usize>) -> usize {
    let Pair { n, order, on, off } = pair;
    let (mut care, mut value) = ([0; MAX_ROWS], [0; MAX_ROWS]);
    let answer = match k {
        None => (lists.whole)(*n, order, on, off, &mut care, &mut value),
        Some(k) => (lists.partial)(*n, order, on, off, k, &mut care, &mut value),
    };
    match answer >> 56 {
        0 => first(answer) as usize,
        _ => 3,
    }
}

/// Lengths for the care and the value run, the shorter near what these calls need: none, one short, exact or ample.
pub fn drawn_rooms(random: &mut Random, lists: &Lists, pair: &Pair, k: Option<usize>) -> (usize, usize) {
    let shorter = room(random, rows_given(lists, pair, k));
    let longer = shorter + random.below(4);
    random.pick(&[(shorter, longer), (longer, shorter)])
}
