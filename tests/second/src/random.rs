//! A seeded source of inputs: numbers, orders, rooms, settings and row lists.

use crate::method::MAX_ROWS;
use crate::words::{Row, MAX_INPUTS};

/// A source of numbers (splitmix64), the same for the same seed.
pub struct Random {
    state: u64,
}

impl Random {
    /// A source from this seed, which is printed.
    pub fn seeded(seed: u64) -> Random {
        println!("seed {seed}");
        Random { state: seed }
    }

    /// The next 64 bits.
    pub fn bits(&mut self) -> u64 {
        self.state = self.state.wrapping_add(0x9e37_79b9_7f4a_7c15);
        let mut z = self.state;
        z = (z ^ (z >> 30)).wrapping_mul(0xbf58_476d_1ce4_e5b9);
        z = (z ^ (z >> 27)).wrapping_mul(0x94d0_49bb_1331_11eb);
        z ^ (z >> 31)
    }

    /// A word.
    pub fn word(&mut self) -> u32 {
        (self.bits() >> 32) as u32
    }

    /// A number from 0 up to and without the bound, which is above 0.
    pub fn below(&mut self, bound: usize) -> usize {
        (self.bits() % bound as u64) as usize
    }

    /// A number from the first to the last, both included.
    pub fn between(&mut self, first: usize, last: usize) -> usize {
        first + self.below(last - first + 1)
    }

    /// True this many times in a hundred.
    pub fn chance(&mut self, percent: usize) -> bool {
        self.below(100) < percent
    }

    /// One of the choices.
    pub fn pick<T: Clone>(&mut self, choices: &[T]) -> T {
        choices[self.below(choices.len())].clone()
    }

    /// Puts the items in a random order.
    pub fn shuffle<T>(&mut self, items: &mut [T]) {
        for i in (1..items.len()).rev() {
            items.swap(i, self.below(i + 1));
        }
    }
}

/// A number of inputs from 1 to most.
pub fn inputs(random: &mut Random, most: u32) -> u32 {
    random.between(1, most as usize) as u32
}

/// A number that is no number of inputs.
pub fn damaged_inputs(random: &mut Random) -> u32 {
    random.pick(&[0, MAX_INPUTS + 1, 31, 32, 33, 64, 1 << 31, u32::MAX])
}

/// A variable's number.
pub fn variable(random: &mut Random, n: u32) -> u32 {
    random.between(1, n as usize) as u32
}

/// An order in form.
pub fn order(random: &mut Random, n: u32) -> Vec<u32> {
    let mut order: Vec<u32> = (1..=n).collect();
    if random.chance(80) {
        random.shuffle(&mut order);
    }
    order
}

/// An order refused 2: a repeat, a zero, a number out of reach or a wrong length.
pub fn damaged_order(random: &mut Random, n: u32) -> Vec<u32> {
    let mut order = order(random, n);
    let place = random.below(order.len());
    match random.below(6) {
        0 => order[place] = if order[place] == 1 { n + 1 } else { order[place] - 1 },
        1 => order[place] = 0,
        2 => order[place] = random.pick(&[n + 1, n + 32, u32::MAX, 1 << 31]),
        3 => drop(order.remove(place)),
        4 => order.insert(place, variable(random, n)),
        _ => order.clear(),
    }
    order
}

/// A setting of n variables.
pub fn setting(random: &mut Random, n: u32) -> u32 {
    random.word() & ((1 << n) - 1)
}

/// A setting with bits from n up (refused 9).
pub fn damaged_setting(random: &mut Random, n: u32) -> u32 {
    setting(random, n) | 1 << random.between(n as usize, 31)
}

/// A room near the need: short, exact, ample or none.
pub fn room(random: &mut Random, need: usize) -> usize {
    match random.below(6) {
        0 => 0,
        1 => need.saturating_sub(1),
        2 => need,
        3 => need + 1,
        4 => random.below(2 * need + 2),
        _ => need + random.below(40),
    }
}

/// A partial list's k: often small, sometimes at or above 256.
pub fn rows_asked(random: &mut Random) -> usize {
    match random.below(8) {
        0 => random.pick(&[MAX_ROWS - 1, MAX_ROWS, MAX_ROWS + 1, usize::MAX]),
        1 => random.below(MAX_ROWS + 1),
        _ => random.below(12),
    }
}

/// A run of words to lend, its cells filled at random.
pub fn lent_words(random: &mut Random, room: usize) -> Vec<u32> {
    (0..room).map(|_| random.word()).collect()
}

/// A run of bytes to lend, its cells filled at random.
pub fn lent_bytes(random: &mut Random, room: usize) -> Vec<u8> {
    (0..room).map(|_| random.word() as u8).collect()
}

/// A row on n variables, with about this many cared ones in a hundred.
pub fn row(random: &mut Random, n: u32, cared: usize) -> Row {
    let care = (0..n).filter(|_| random.chance(cared)).fold(0, |word, i| word | 1 << i);
    Row { care, value: random.word() & care }
}

/// A given list: two word runs and a count.
#[derive(Clone, PartialEq, Eq, Debug)]
pub struct RowList {
    pub n: u32,
    pub care: Vec<u32>,
    pub value: Vec<u32>,
    pub count: usize,
}

/// A list in form of up to this many rows, with repeats, and with cells of any kind past the count.
pub fn row_list(random: &mut Random, n: u32, most: usize) -> RowList {
    let count = random.below(most + 1);
    let cared = random.between(10, 100);
    let mut rows: Vec<Row> = Vec::new();
    for _ in 0..count {
        let again = !rows.is_empty() && random.chance(10);
        let next = if again { random.pick(&rows) } else { row(random, n, cared) };
        rows.push(next);
    }
    let mut care: Vec<u32> = rows.iter().map(|row| row.care).collect();
    let mut value: Vec<u32> = rows.iter().map(|row| row.value).collect();
    for run in [&mut care, &mut value] {
        let past = random.below(4);
        run.extend(lent_words(random, past));
    }
    RowList { n, care, value, count }
}

/// A list refused 8: a bit from n up, a value bit outside care, or a count above its room or 256.
pub fn damaged_row_list(random: &mut Random, n: u32, most: usize) -> RowList {
    let mut list = row_list(random, n, most);
    let damage = if list.count == 0 { random.between(2, 3) } else { random.below(4) };
    match damage {
        0 => {
            let bit = 1 << random.between(n as usize, 31);
            let place = random.below(list.count);
            list.care[place] |= bit;
            list.value[place] |= if random.chance(50) { bit } else { 0 };
        }
        1 => {
            let place = random.below(list.count);
            let bit = 1 << random.below(n as usize);
            list.care[place] &= !bit;
            list.value[place] |= bit;
        }
        2 => list.count = list.care.len().min(list.value.len()) + random.between(1, 3),
        _ => {
            list.count = MAX_ROWS + random.between(1, 3);
            let fill = Row { care: 0, value: 0 };
            list.care.resize(list.count, fill.care);
            list.value.resize(list.count, fill.value);
        }
    }
    list
}
