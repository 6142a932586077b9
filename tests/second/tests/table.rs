//! The sheets tried by hand: P1 to P12 of document 01.

use second::calls::{partial_list, query, whole_list, Partial};
use second::host::{bytes_of, host_list, host_pla, unsigned};
use second::pla::write_pla;
use second::program::output;
use second::refusal::{Answer, Refusal};
use second::words::{setting_text, Row};

const P3_ON: &[i32] = &[1, 2, 3, 0, -1, -2, -3, 0];
const P3_OFF: &[i32] = &[1, -2, 0, 2, -3, 0, 3, -1, 0];
const P5_ON: &[i32] = &[-1, -2, 0, 1, -3, 0];
const P5_OFF: &[i32] = &[-1, 2, 0, 1, 3, 0];
const P5_TEXT: &[u8] = b".i 3\n.o 1\n.p 2\n0-0 1\n10- 1\n.e\n";

/// A case's outcome as text: the rows, or the refusal with its setting.
fn shown(n: u32, answer: Answer<usize>, care: &[u32], value: &[u32]) -> String {
    match answer {
        Ok(count) => {
            let rows: Vec<String> = (0..count).map(|i| Row { care: care[i], value: value[i] }.text(n)).collect();
            rows.join(", ")
        }
        Err(Refusal::Collision(setting)) => format!("refused 6, {}", setting_text(n, setting)),
        Err(Refusal::Number(number)) => format!("refused {number}"),
    }
}

/// The whole list's outcome.
fn list(n: u32, order: &[u32], on: &[i32], off: &[i32]) -> String {
    let (mut care, mut value) = ([0; 8], [0; 8]);
    let answer = whole_list(n, order, on, off, &mut care, &mut value);
    shown(n, answer, &care, &value)
}

#[test]
fn p1_to_p11() {
    let up: &[u32] = &[1, 2, 3];
    assert_eq!(list(3, up, &[1, 0, 2, 0, 3, 0], &[-1, -2, -3, 0]), "111", "P1");
    assert_eq!(list(3, up, &[-1, -2, -3, 0], &[1, 0, 2, 0, 3, 0]), "--0, -0-, 0--", "P2");
    assert_eq!(list(3, up, P3_ON, P3_OFF), "-01, -10, 0-1, 1-0", "P3");
    assert_eq!(list(3, &[3, 2, 1], P3_ON, P3_OFF), "10-, 01-, 1-0, 0-1", "P4");
    assert_eq!(list(3, up, P5_ON, P5_OFF), "0-0, 10-", "P5");
    assert_eq!(list(3, up, &[-1, 0, -3, 0], &[1, -2, 0, -1, 2, 0, 1, 3, 0, -1, -3, 0]), "-00, 0-0", "P6");
    assert_eq!(list(3, up, &[0], &[0]), "", "P7");
    assert_eq!(list(3, up, &[], &[0]), "---", "P8");
    assert_eq!(list(3, up, &[], &[]), "refused 6, 000", "P9");
    assert_eq!(list(2, &[1, 2], &[1, 0], &[2, 0]), "refused 6, 11", "P10");
    assert_eq!(list(1, &[1], &[1, 0], &[-1, 0]), "1", "P11");
}

#[test]
fn p5_generated_rows() {
    for k in 0..5 {
        let (mut care, mut value) = ([0; 8], [0; 8]);
        let partial = partial_list(3, &[1, 2, 3], P5_ON, P5_OFF, k, &mut care, &mut value).unwrap();
        assert_eq!(partial, Partial { count: k.min(3), complete: k >= 3 });
        let rows = ["", "-00", "-00, 0-0", "-00, 0-0, 10-"];
        assert_eq!(shown(3, Ok(partial.count), &care, &value), rows[k.min(3)]);
    }
}

#[test]
fn p5_rooms() {
    let (mut care, mut value) = ([9; 2], [9; 3]);
    assert_eq!(whole_list(3, &[1, 2, 3], P5_ON, P5_OFF, &mut care, &mut value), Ok(2));
    assert_eq!((care, value), ([5, 3], [0, 1, 9]));
    let (mut care, mut value) = ([9; 3], [9; 1]);
    assert_eq!(whole_list(3, &[1, 2, 3], P5_ON, P5_OFF, &mut care, &mut value), Err(Refusal::Number(15)));
    assert_eq!((care, value), ([9; 3], [9; 1]));
}

#[test]
fn p5_text() {
    let (care, value) = ([5, 3], [0, 1]);
    let mut text = [7; 31];
    assert_eq!(write_pla(3, 2, &care, &value, &mut text[..30]), Ok(30));
    assert_eq!((&text[..30], text[30]), (P5_TEXT, 7));
    let mut short = [7; 29];
    assert_eq!(write_pla(3, 2, &care, &value, &mut short), Err(Refusal::Number(15)));
    assert_eq!(short, [7; 29]);
}

#[test]
fn p5_program() {
    assert_eq!(output(b"p cnf 3 2\n-1 -2 0\n1 -3 0\n", b"p cnf 3 2\n-1 2 0\n1 3 0\n"), P5_TEXT);
}

#[test]
fn p5_host() {
    let (on, off) = (bytes_of(&unsigned(P5_ON)), bytes_of(&unsigned(P5_OFF)));
    let order = bytes_of(&[1, 2, 3]);
    let (mut care, mut value) = ([9; 11], [9; 8]);
    assert_eq!(host_list(3, &order, &on, &off, &mut care, &mut value), 2);
    assert_eq!((care, value), ([5, 0, 0, 0, 3, 0, 0, 0, 9, 9, 9], [0, 0, 0, 0, 1, 0, 0, 0]));
    assert_eq!(host_list(3, &order, &on, &off, &mut care[..7], &mut value), 15 << 32);
    let mut text = [7; 30];
    assert_eq!(host_pla(3, 2, &care, &value, &mut text), 30);
    assert_eq!(&text, P5_TEXT);
    assert_eq!(host_pla(3, 2, &care, &value, &mut text[..29]), 15 << 32);
    assert_eq!(host_list(2, &bytes_of(&[1, 2]), &bytes_of(&[1, 0]), &bytes_of(&[2, 0]), &mut [], &mut []), (6 << 32) + 3);
}

#[test]
fn p12() {
    assert_eq!(query(3, &[1, 2, 3], P3_ON, 0b000), Ok(Some(0b100)));
    assert_eq!(setting_text(3, 0b100), "001");
    assert_eq!(query(3, &[1, 2, 3], P3_ON, 0b111), Ok(None));
}
