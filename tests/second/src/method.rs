//! The method: next setting, widening, generation and pruning, each over every setting.

use crate::words::{settings, Row};

/// The most rows of a list.
pub const MAX_ROWS: usize = 256;

/// What two sheets ask for: for each setting, by its word, whether it is on and whether it is off.
pub struct Asked {
    pub n: u32,
    pub order: Vec<u32>,
    pub on: Vec<bool>,
    pub off: Vec<bool>,
}

impl Asked {
    /// The smallest setting that satisfies both sheets.
    pub fn collision(&self) -> Option<u32> {
        settings(&self.order).into_iter().find(|&s| self.on[s as usize] && self.off[s as usize])
    }

    /// Whether the row holds an off setting.
    pub fn holds_off(&self, row: Row) -> bool {
        row.settings(self.n).any(|s| self.off[s as usize])
    }

    /// The setting's full row, with each literal dropped, first place to last, if the row without it holds no off setting.
    pub fn widen(&self, setting: u32) -> Row {
        let mut row = Row::full(self.n, setting);
        for &variable in &self.order {
            let wider = row.without(variable);
            if !self.holds_off(wider) {
                row = wider;
            }
        }
        row
    }

    /// The first generated rows, at most this many.
    pub fn generate(&self, most: usize) -> Vec<Row> {
        let mut in_no_row = settings(&self.order);
        in_no_row.retain(|&s| self.on[s as usize]);
        let mut rows: Vec<Row> = Vec::new();
        while rows.len() < most && !in_no_row.is_empty() {
            let row = self.widen(in_no_row[0]);
            in_no_row.retain(|&s| !row.holds(s));
            rows.push(row);
        }
        rows
    }
}

/// For each row, in order, whether every setting it holds lies in another row not dropped so far.
pub fn drops(n: u32, rows: &[Row]) -> Vec<bool> {
    let mut dropped = vec![false; rows.len()];
    for i in 0..rows.len() {
        let elsewhere = |s: u32| (0..rows.len()).any(|j| j != i && !dropped[j] && rows[j].holds(s));
        dropped[i] = rows[i].settings(n).all(elsewhere);
    }
    dropped
}

/// The rows that pruning leaves, in their order.
pub fn pruned(n: u32, rows: &[Row]) -> Vec<Row> {
    let dropped = drops(n, rows);
    (0..rows.len()).filter(|&i| !dropped[i]).map(|i| rows[i]).collect()
}
