//! The writer of PLA text, and what such a text says at a setting.

use crate::calls::given_list;
use crate::refusal::{require, Answer};
use crate::words::{bit, Row};

/// The longest PLA text.
pub const MAX_PLA: usize = 6933;

/// The PLA text of the rows.
pub fn text_of(n: u32, rows: &[Row]) -> Vec<u8> {
    let mut text = format!(".i {n}\n.o 1\n.p {}\n", rows.len());
    for row in rows {
        text += &format!("{} 1\n", row.text(n));
    }
    text += ".e\n";
    text.into_bytes()
}

/// Writes a given list's text to the lent run, and answers its length.
pub fn write_pla(n: u32, count: usize, care: &[u32], value: &[u32], text: &mut [u8]) -> Answer<usize> {
    let rows = given_list(n, care, value, count)?;
    let written = text_of(n, &rows);
    require(15, written.len() <= text.len())?;
    text[..written.len()].copy_from_slice(&written);
    Ok(written.len())
}

/// What a PLA text says at a setting, read row by row: 1 if some row holds it, else 0; none if it is not such a text.
pub fn read_at(text: &[u8], setting: u32) -> Option<u32> {
    let text = std::str::from_utf8(text).ok()?.strip_suffix('\n')?;
    let lines: Vec<&str> = text.split('\n').collect();
    if lines.len() < 4 || lines[1] != ".o 1" || lines[lines.len() - 1] != ".e" {
        return None;
    }
    let n: u32 = lines[0].strip_prefix(".i ")?.parse().ok()?;
    let count: usize = lines[2].strip_prefix(".p ")?.parse().ok()?;
    let rows = &lines[3..lines.len() - 1];
    if rows.len() != count {
        return None;
    }
    let mut said = 0;
    for row in rows {
        let inputs = row.strip_suffix(" 1")?.as_bytes();
        if inputs.len() != n as usize || inputs.iter().any(|b| !b"01-".contains(b)) {
            return None;
        }
        let agrees = |v: u32| match inputs[v as usize - 1] {
            b'0' => bit(setting, v) == 0,
            b'1' => bit(setting, v) == 1,
            _ => true,
        };
        if (1..=n).all(agrees) {
            said = 1;
        }
    }
    Some(said)
}
