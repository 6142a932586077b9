//! Settings, orders and rows.

use std::cmp::Ordering;

/// The most inputs.
pub const MAX_INPUTS: u32 = 24;

/// Whether n is in 1..24.
pub fn inputs_in_form(n: u32) -> bool {
    (1..=MAX_INPUTS).contains(&n)
}

/// Whether the order has length n with each of 1..n once.
pub fn order_in_form(n: u32, order: &[u32]) -> bool {
    order.len() == n as usize && (1..=n).all(|variable| order.iter().filter(|&&v| v == variable).count() == 1)
}

/// Whether the word has no bits from n up.
pub fn within(n: u32, word: u32) -> bool {
    word >> n == 0
}

/// The variable's value in the setting, 0 or 1.
pub fn bit(setting: u32, variable: u32) -> u32 {
    (setting >> (variable - 1)) & 1
}

/// Of two settings the smaller is the one with 0 at the first place of the order where they differ.
pub fn compare(order: &[u32], a: u32, b: u32) -> Ordering {
    for &variable in order {
        match (bit(a, variable), bit(b, variable)) {
            (0, 1) => return Ordering::Less,
            (1, 0) => return Ordering::Greater,
            _ => {}
        }
    }
    Ordering::Equal
}

/// Every setting of the order's variables, smallest first: those with 0 at a place come before those with 1.
pub fn settings(order: &[u32]) -> Vec<u32> {
    let mut all = vec![0];
    for &variable in order.iter().rev() {
        let with_one: Vec<u32> = all.iter().map(|setting| setting | 1 << (variable - 1)).collect();
        all.extend(with_one);
    }
    all
}

/// A setting's values as characters, variable 1 first.
pub fn setting_text(n: u32, setting: u32) -> String {
    (1..=n).map(|variable| if bit(setting, variable) == 1 { '1' } else { '0' }).collect()
}

/// A row: the variables it fixes, and their values.
#[derive(Clone, Copy, PartialEq, Eq, Debug)]
pub struct Row {
    pub care: u32,
    pub value: u32,
}

impl Row {
    /// The row of all n literals that holds this setting alone.
    pub fn full(n: u32, setting: u32) -> Row {
        Row { care: (1 << n) - 1, value: setting }
    }

    /// Whether the setting agrees with the row on the cared variables.
    pub fn holds(self, setting: u32) -> bool {
        setting & self.care == self.value
    }

    /// The row without the variable's literal.
    pub fn without(self, variable: u32) -> Row {
        let mask = !(1 << (variable - 1));
        Row { care: self.care & mask, value: self.value & mask }
    }

    /// Every setting of n variables that the row holds: the dashed bits count up from all 0 to all 1, and the cared ones stay.
    pub fn settings(self, n: u32) -> impl Iterator<Item = u32> {
        let dashed = ((1 << n) - 1) & !self.care;
        let after = move |&bits: &u32| if bits == dashed { None } else { Some(((bits | !dashed) + 1) & dashed) };
        std::iter::successors(Some(0), after).map(move |bits| self.value | bits)
    }

    /// The row's n characters, variable 1 first.
    pub fn text(self, n: u32) -> String {
        (1..=n)
            .map(|variable| match (bit(self.care, variable), bit(self.value, variable)) {
                (0, _) => '-',
                (_, 0) => '0',
                _ => '1',
            })
            .collect()
    }
}

/// Whether any of the rows holds the setting.
pub fn held(rows: &[Row], setting: u32) -> bool {
    rows.iter().any(|row| row.holds(setting))
}
