//! The limits 24, 256, 1,024, 8,192 and 32,768.

use second::calls::{partial_list, query, whole_list, Partial};
use second::dimacs::{read_dimacs, Reading, MAX_TEXT};
use second::pla::{write_pla, MAX_PLA};
use second::random_sheets::parity;
use second::refusal::Refusal;
use second::words::Row;

/// The order 1..n.
fn up(n: u32) -> Vec<u32> {
    (1..=n).collect()
}

#[test]
fn odd_parity_of_9_has_256_rows() {
    let (mut care, mut value) = (vec![0; 257], vec![7; 256]);
    assert_eq!(whole_list(9, &up(9), &parity(9, true), &parity(9, false), &mut care, &mut value), Ok(256));
    assert!(care[..256].iter().all(|&word| word == 511) && care[256] == 0);
    assert!(value.iter().all(|word| word.count_ones() % 2 == 1));
    let whole = Partial { count: 256, complete: true };
    assert_eq!(partial_list(9, &up(9), &parity(9, true), &parity(9, false), 256, &mut care, &mut value), Ok(whole));
    let short = Partial { count: 255, complete: false };
    assert_eq!(partial_list(9, &up(9), &parity(9, true), &parity(9, false), 255, &mut care, &mut value), Ok(short));
}

#[test]
fn odd_parity_of_10_is_refused() {
    let (on, off) = (parity(10, true), parity(10, false));
    assert_eq!((on.len(), off.len()), (5632, 5632));
    let (mut care, mut value) = (vec![7; 600], vec![7; 600]);
    assert_eq!(whole_list(10, &up(10), &on, &off, &mut care, &mut value), Err(Refusal::Number(7)));
    assert!(care.iter().chain(&value).all(|&word| word == 7));
    let first = Partial { count: 256, complete: false };
    assert_eq!(partial_list(10, &up(10), &on, &off, 256, &mut care, &mut value), Ok(first));
    assert!(care[256..].iter().chain(&value[256..]).all(|&word| word == 7));
}

#[test]
fn sheets_at_their_limits() {
    let full = [vec![1; 8191], vec![0]].concat();
    let long = [vec![1; 8192], vec![0]].concat();
    assert_eq!(query(3, &up(3), &full, 0), Ok(Some(1)));
    for sheet in [&long[..], &[1, 0, 3], &[i32::MIN, 0], &[0; 1025], &[4, 0], &[-4, 0], &[i32::MAX, 0]] {
        assert_eq!(query(3, &up(3), sheet, 0), Err(Refusal::Number(3)));
        assert_eq!(whole_list(3, &up(3), sheet, &[], &mut [], &mut []), Err(Refusal::Number(3)));
        assert_eq!(whole_list(3, &up(3), &[], sheet, &mut [], &mut []), Err(Refusal::Number(4)));
    }
    assert_eq!(query(3, &up(3), &[0; 1024], 0), Ok(None));
    assert_eq!(query(3, &up(3), &[2, 0].repeat(1024), 0), Ok(Some(2)));
}

#[test]
fn the_longest_pla_text() {
    let row = Row::full(24, 0xa5_c3_0f);
    let (care, value) = ([row.care; 257], [row.value; 257]);
    let mut text = vec![7; 6934];
    assert_eq!(MAX_PLA, 6933);
    assert_eq!(write_pla(24, 256, &care, &value, &mut text), Ok(6933));
    assert_eq!(text[6933], 7);
    assert_eq!(write_pla(24, 256, &care, &value, &mut text[..6932]), Err(Refusal::Number(15)));
    assert_eq!(write_pla(24, 257, &care, &value, &mut text), Err(Refusal::Number(8)));
}

#[test]
fn texts_at_their_limits() {
    let mut numbers = vec![7; 8300];
    let full = format!("p cnf 24 1\n{}0", "-24 ".repeat(8191)).into_bytes();
    assert_eq!(full.len() - 32768, 8);
    assert_eq!(read_dimacs(&full, &mut numbers), Err(Refusal::Number(10)));
    let full = format!("p cnf 2 1\n{}0", "-2 ".repeat(8191)).into_bytes();
    assert_eq!(read_dimacs(&full, &mut numbers[..8191]), Err(Refusal::Number(15)));
    assert_eq!(numbers[0], 7);
    assert_eq!(read_dimacs(&full, &mut numbers), Ok(Reading { variables: 2, count: 8192 }));
    assert_eq!((numbers[8190], numbers[8191], numbers[8192]), (-2, 0, 7));
    let long = format!("p cnf 2 1\n{}0", "-2 ".repeat(8192)).into_bytes();
    assert_eq!(read_dimacs(&long, &mut numbers), Err(Refusal::Number(15)));
    let unclosed = format!("p cnf 2 1\n{}", "-2 ".repeat(8193)).into_bytes();
    assert_eq!(read_dimacs(&unclosed, &mut numbers), Err(Refusal::Number(13)));
    let malformed = format!("p cnf 2 1\n{}3", "-2 ".repeat(8193)).into_bytes();
    assert_eq!(read_dimacs(&malformed, &mut numbers), Err(Refusal::Number(12)));
    let mut spaces = b"p cnf 1 1\n1 0 % ".to_vec();
    spaces.resize(MAX_TEXT, b'x');
    assert_eq!(read_dimacs(&spaces, &mut numbers), Ok(Reading { variables: 1, count: 2 }));
    spaces.push(b'x');
    assert_eq!(read_dimacs(&spaces, &mut numbers), Err(Refusal::Number(10)));
}
