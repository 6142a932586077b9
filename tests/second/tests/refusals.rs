//! Every refusal is met, the lowest that applies is given, and lent runs stay as they were.

use second::calls::{partial_list, prune, query, value_at, whole_list, Cube};
use second::dimacs::read_dimacs;
use second::host::{bytes_of, host_list, host_pla};
use second::pla::write_pla;
use second::program::output;
use second::random_sheets::parity;
use second::refusal::Refusal;

/// The refusal of this number.
fn refused<T>(number: u32) -> Result<T, Refusal> {
    Err(Refusal::Number(number))
}

#[test]
fn every_refusal_is_met() {
    let up: Vec<u32> = (1..=10).collect();
    let (odd, even) = (parity(10, true), parity(10, false));
    let listed = |n, on: &[i32], off: &[i32]| whole_list(n, &up, on, off, &mut [], &mut []).map(drop);
    let read = |text: &[u8]| read_dimacs(text, &mut []).map(drop);
    let answers = [
        listed(0, &[], &[]),
        listed(9, &[], &[]),
        listed(10, &[1], &[]),
        listed(10, &[], &[1]),
        partial_list(10, &up, &odd, &even, 257, &mut [], &mut []).map(drop),
        listed(10, &[], &[]),
        listed(10, &odd, &even),
        prune(10, &mut [], 1).map(drop),
        query(10, &up, &[], 1 << 10).map(drop),
        read(&[b' '; 32769]),
        read(b""),
        read(b"p cnf 1 1\n2 0\n"),
        read(b"p cnf 1 1\n1\n"),
        read(b"p cnf 1 1\n1 0\n"),
    ];
    let numbers: Vec<u32> = answers.iter().map(|answer| answer.unwrap_err().number()).collect();
    assert_eq!(numbers, [1, 2, 3, 4, 5, 6, 7, 8, 9, 10, 11, 12, 13, 15]);
    assert_eq!(output(b"p cnf 1 0\n", b"p cnf 2 0\n"), b"refused 14\n");
}

#[test]
fn whole_list_refusals() {
    let mut words = [7; 4];
    let (care, value) = words.split_at_mut(2);
    let mut list = |n, order: &[u32], on: &[i32], off: &[i32]| whole_list(n, order, on, off, care, value);
    assert_eq!(list(0, &[], &[5], &[5]), refused(1));
    assert_eq!(list(25, &[1], &[5], &[5]), refused(1));
    for order in [&[1, 2][..], &[1, 2, 3, 1], &[1, 2, 2], &[0, 1, 2], &[1, 2, 4], &[]] {
        assert_eq!(list(3, order, &[5], &[5]), refused(2));
    }
    assert_eq!(list(3, &[3, 1, 2], &[5], &[5]), refused(3));
    assert_eq!(list(3, &[3, 1, 2], &[3, 0], &[3]), refused(4));
    assert_eq!(list(3, &[3, 1, 2], &[3, 0], &[2, 0]), Err(Refusal::Collision(0b110)));
    let up: Vec<u32> = (1..=10).collect();
    assert_eq!(list(10, &up, &parity(10, true), &parity(10, false)), refused(7));
    assert_eq!(list(3, &[1, 2, 3], &[-1, -2, -3, 0], &[1, 0, 2, 0, 3, 0]), refused(15));
    assert_eq!(words, [7; 4]);
}

#[test]
fn partial_list_refusals() {
    let mut words = [7; 4];
    let (care, value) = words.split_at_mut(2);
    let mut list = |n, order: &[u32], on: &[i32], off: &[i32], k| partial_list(n, order, on, off, k, care, value);
    assert_eq!(list(0, &[], &[5], &[5], 257), refused(1));
    assert_eq!(list(2, &[1, 1], &[5], &[5], 257), refused(2));
    assert_eq!(list(2, &[1, 2], &[5], &[5], 257), refused(3));
    assert_eq!(list(2, &[1, 2], &[], &[5], 257), refused(4));
    assert_eq!(list(2, &[1, 2], &[], &[], 257), refused(5));
    assert_eq!(list(2, &[1, 2], &[], &[], 0), Err(Refusal::Collision(0)));
    assert_eq!(list(3, &[1, 2, 3], &[-1, -2, -3, 0], &[1, 0, 2, 0, 3, 0], 3), refused(15));
    assert_eq!(words, [7; 4]);
}

#[test]
fn query_refusals() {
    assert_eq!(query(25, &[], &[5], u32::MAX), refused(1));
    assert_eq!(query(3, &[], &[5], u32::MAX), refused(2));
    assert_eq!(query(3, &[1, 2, 3], &[5], u32::MAX), refused(3));
    assert_eq!(query(3, &[1, 2, 3], &[], 8), refused(9));
    assert_eq!(query(3, &[1, 2, 3], &[0], 0), Ok(None));
}

#[test]
fn the_start_counts_by_the_order() {
    assert_eq!(query(2, &[2, 1], &[], 0b01), Ok(Some(0b01)));
    assert_eq!(query(2, &[2, 1], &[-1, 0], 0b01), Ok(Some(0b10)));
    assert_eq!(query(2, &[1, 2], &[-1, 0], 0b01), Ok(None));
}

#[test]
fn given_list_refusals() {
    let (care, value) = ([1, 8, 0, 9], [1, 0, 4]);
    assert_eq!(value_at(0, &care, &value, 9, 99), refused(1));
    for (count, n) in [(4, 4), (2, 3), (3, 4), (257, 4), (usize::MAX, 4)] {
        assert_eq!(value_at(n, &care, &value, count, 99), refused(8));
        assert_eq!(write_pla(n, count, &care, &value, &mut []), refused(8));
    }
    assert_eq!(value_at(4, &care, &value, 2, 16), refused(9));
    assert_eq!(value_at(4, &care, &value, 2, 9), Ok(1));
    assert_eq!(value_at(4, &care, &value, 2, 8), Ok(0));
    assert_eq!(value_at(4, &care, &value, 0, 0), Ok(0));
    assert_eq!(write_pla(25, 0, &care, &value, &mut []), refused(1));
    assert_eq!(write_pla(4, 0, &care, &value, &mut [0; 17]), refused(15));
    assert_eq!(write_pla(4, 0, &care, &value, &mut [0; 18]), Ok(18));
}

/// A record with this mark.
fn cube(care: u32, value: u32, dropped: bool) -> Cube {
    Cube { care, value, dropped }
}

#[test]
fn pruning_of_records() {
    let given = [cube(1, 1, true), cube(1, 1, true), cube(0, 0, false), cube(9, 9, true)];
    let mut cubes = given;
    assert_eq!(prune(0, &mut cubes, 9), refused(1));
    assert_eq!(prune(3, &mut cubes, 5), refused(8));
    assert_eq!(prune(3, &mut cubes, 4), refused(8));
    assert_eq!(prune(3, &mut [cube(1, 2, false)], 1), refused(8));
    assert_eq!(prune(3, &mut [cube(0, 0, false); 257], 257), refused(8));
    assert_eq!(cubes, given);
    assert_eq!(prune(3, &mut cubes, 2), Ok(1));
    assert_eq!(cubes, [cube(1, 1, true), cube(1, 1, false), cube(0, 0, false), cube(9, 9, true)]);
    assert_eq!(prune(3, &mut cubes, 3), Ok(1));
    assert_eq!(cubes, [cube(1, 1, true), cube(1, 1, true), cube(0, 0, false), cube(9, 9, true)]);
    assert_eq!(prune(3, &mut [cube(0, 0, true); 256], 256), Ok(1));
}

#[test]
fn pruning_first_to_last_one_after_another() {
    let mut ring = [(3, 1), (6, 4), (5, 4), (3, 2), (6, 2), (5, 1)].map(|(care, value)| cube(care, value, true));
    assert_eq!(prune(3, &mut ring, 6), Ok(3));
    assert_eq!(ring.map(|cube| cube.dropped), [true, false, true, false, true, false]);
}

#[test]
fn program_refusals() {
    let fine = b"p cnf 3 0\n";
    assert_eq!(output(b"", b""), b"refused 11\n");
    assert_eq!(output(fine, &[b'c'; 32769]), b"refused 10\n");
    assert_eq!(output(b"p cnf 3 1\n4 0\n", b""), b"refused 12\n");
    assert_eq!(output(fine, b"p cnf 3 1\n4 0\n"), b"refused 12\n");
    assert_eq!(output(b"p cnf 3 1\n3\n", b"p cnf 4 2\n"), b"refused 13\n");
    assert_eq!(output(fine, b"p cnf 4 0\n"), b"refused 14\n");
    let long = format!("p cnf 3 1\n{}0\n", "1 ".repeat(8192));
    assert_eq!(output(fine, long.as_bytes()), b"refused 15\n");
    assert_eq!(output(b"p cnf 3 1\n3 0\n", b"p cnf 3 0\n"), b"refused 6 001\n");
    assert_eq!(output(b"p cnf 3 0", b"p cnf 3 1\n0"), b".i 3\n.o 1\n.p 1\n--- 1\n.e\n");
}

#[test]
fn host_refusals() {
    let (up, bad) = (bytes_of(&[1, 2]), bytes_of(&[5]));
    let mut lent = [7; 12];
    let (care, value) = lent.split_at_mut(6);
    let mut list = |n, order: &[u8], on: &[u8], off: &[u8]| host_list(n, order, on, off, care, value);
    assert_eq!(list(0, &up[..7], &bad, &bad), 1 << 32);
    assert_eq!(list(2, &up[..7], &bad, &bad), 2 << 32);
    assert_eq!(list(2, &[&up[..], &[0]].concat(), &bad, &bad), 2 << 32);
    assert_eq!(list(2, &up, &[0, 0, 0], &bad), 3 << 32);
    assert_eq!(list(2, &up, &[0, 0, 0, 0, 0], &bad), 3 << 32);
    assert_eq!(list(2, &up, &[], &[0]), 4 << 32);
    assert_eq!(list(2, &up, &[], &[]), 6 << 32);
    assert_eq!(list(2, &up, &bytes_of(&[1, 2, 0, u32::MAX, -2i32 as u32, 0]), &bytes_of(&[1, -2i32 as u32, 0, 2, u32::MAX, 0])), 15 << 32);
    assert_eq!(lent, [7; 12]);
    assert_eq!(host_pla(2, 2, &[0; 8], &[0; 7], &mut lent), 8 << 32);
    assert_eq!(host_pla(2, u32::MAX, &[0; 8], &[0; 8], &mut lent), 8 << 32);
    assert_eq!(host_pla(25, 0, &[], &[], &mut lent), 1 << 32);
    assert_eq!(lent, [7; 12]);
}
