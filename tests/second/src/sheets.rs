//! Sheets: runs of signed numbers, each clause closed by 0.

use crate::words::bit;

/// The most numbers of a sheet.
pub const MAX_NUMBERS: usize = 8192;

/// The most clauses of a sheet.
pub const MAX_CLAUSES: usize = 1024;

/// Whether a number other than 0 lies in -n..-1 or 1..n.
pub fn literal_in_form(n: u32, literal: i32) -> bool {
    (1..=n).contains(&literal.unsigned_abs())
}

/// Whether the sheet is well formed for n inputs.
pub fn well_formed(n: u32, sheet: &[i32]) -> bool {
    let zeros = sheet.iter().filter(|&&x| x == 0).count();
    let closed = sheet.is_empty() || sheet[sheet.len() - 1] == 0;
    sheet.len() <= MAX_NUMBERS && zeros <= MAX_CLAUSES && closed && sheet.iter().all(|&x| x == 0 || literal_in_form(n, x))
}

/// The clauses of a closed sheet, without their zeros.
pub fn clauses(sheet: &[i32]) -> Vec<&[i32]> {
    let mut pieces: Vec<&[i32]> = sheet.split(|&x| x == 0).collect();
    pieces.pop();
    pieces
}

/// Whether the literal is true at the setting.
pub fn literal_holds(literal: i32, setting: u32) -> bool {
    let wanted = if literal > 0 { 1 } else { 0 };
    bit(setting, literal.unsigned_abs()) == wanted
}

/// Whether each of the clauses has a literal that is true at the setting.
fn all_hold(clauses: &[&[i32]], setting: u32) -> bool {
    clauses.iter().all(|clause| clause.iter().any(|&literal| literal_holds(literal, setting)))
}

/// Whether the setting satisfies every clause of the sheet.
pub fn satisfies(sheet: &[i32], setting: u32) -> bool {
    all_hold(&clauses(sheet), setting)
}

/// For each setting of n variables, by its word, whether it satisfies the sheet.
pub fn table(n: u32, sheet: &[i32]) -> Vec<bool> {
    let clauses = clauses(sheet);
    (0..1 << n).map(|setting| all_hold(&clauses, setting)).collect()
}
