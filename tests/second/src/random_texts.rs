//! Random DIMACS texts: in form, damaged, and at the limits.

use crate::dimacs::MAX_TEXT;
use crate::random::{inputs, Random};
use crate::random_sheets::{full_sheet, sheet};

/// Bytes that part two tokens.
fn gap(random: &mut Random) -> Vec<u8> {
    let kinds: [&[u8]; 8] = [b" ", b" ", b" ", b"\n", b"\t", b"\r\n", b"  ", b" \t \r\n\n"];
    random.pick(&kinds).to_vec()
}

/// One or more spaces.
fn spaces(random: &mut Random) -> Vec<u8> {
    vec![b' '; if random.chance(80) { 1 } else { random.between(2, 4) }]
}

/// A comment line.
fn comment(random: &mut Random) -> Vec<u8> {
    let kinds: [&[u8]; 7] = [b"c\n", b"c made by hand\n", b"c p cnf 1 1\r\n", b"cnf\n", b"c\0\xff\t%\n", b"cc c\n", b"c  \r\n"];
    random.pick(&kinds).to_vec()
}

/// A header in form.
pub fn header_text(random: &mut Random, variables: u32, clauses: usize) -> Vec<u8> {
    let mut text = b"p".to_vec();
    text.extend(spaces(random));
    text.extend(b"cnf");
    text.extend(spaces(random));
    text.extend(variables.to_string().as_bytes());
    text.extend(spaces(random));
    text.extend(clauses.to_string().as_bytes());
    let ends: [&[u8]; 6] = [b"\n", b"\n", b"\r\n", b" \n", b" \t \r\n", b"\t\n"];
    text.extend(random.pick(&ends));
    text
}

/// A text in form that reads as this well-formed sheet, if it is not too long.
pub fn text(random: &mut Random, variables: u32, sheet: &[i32]) -> Vec<u8> {
    let plain = random.chance(50);
    let mut text = Vec::new();
    while random.chance(30) {
        text.extend(comment(random));
    }
    text.extend(header_text(random, variables, sheet.iter().filter(|&&x| x == 0).count()));
    if !plain && random.chance(30) {
        text.extend(gap(random));
    }
    for number in sheet {
        text.extend(number.to_string().as_bytes());
        let parting = if plain && *number == 0 { b"\n".to_vec() } else { b" ".to_vec() };
        text.extend(if plain { parting } else { gap(random) });
    }
    match random.below(4) {
        0 => text.extend(b"%\n0\n\n"),
        1 => text.extend(b"%"),
        2 if text.ends_with(b" ") => drop(text.pop()),
        _ => {}
    }
    text
}

/// The text with one thing changed: bytes flipped, dropped, doubled, put in, moved or cut.
pub fn mutated(random: &mut Random, text: &[u8]) -> Vec<u8> {
    let mut text = text.to_vec();
    let place = random.below(text.len() + 1);
    let last = (place + random.between(1, 3)).min(text.len());
    let pieces: [&[u8]; 24] = [
        b"+1",
        b" -0 ",
        b" 01 ",
        b" 00 ",
        b"%",
        b" % ",
        b"%%",
        b"c x\n",
        b"\nc x\n",
        b"\0",
        b"\x0c",
        b"\x0b",
        b"-",
        b"--1",
        b" - ",
        b"25 ",
        b" 99999999999 ",
        b"\r",
        b"\t",
        b" ",
        b"\n",
        b" 0 ",
        b" 1 ",
        b"p cnf 2 1\n",
    ];
    match random.below(8) {
        0 if place < text.len() => text[place] ^= 1 << random.below(8),
        1 => drop(text.drain(place..last)),
        2 => {
            let doubled = text[place..last].to_vec();
            text.splice(place..place, doubled).for_each(drop);
        }
        3 => text.truncate(place),
        4 if place < text.len() => text[place] = random.pick(b"0123456789-+%cpnf \t\r\n"),
        5 if last < text.len() => text.swap(place, last),
        _ => {
            let piece = random.pick(&pieces);
            text.splice(place..place, piece.iter().copied()).for_each(drop);
        }
    }
    text
}

/// A text whose header has one fault (refused 11).
pub fn headless(random: &mut Random) -> Vec<u8> {
    let kinds: [&[u8]; 26] = [
        b"",
        b"c",
        b"c x",
        b"p",
        b"p cnf",
        b"p cnf 3",
        b"p cnf 3 ",
        b"p  cnf 0 1\n",
        b"p cnf 25 1\n",
        b"p cnf 3 1025\n",
        b"p cnf 03 1\n",
        b"p cnf 3 01\n",
        b"p cnf 3 -1\n",
        b"p cnf +3 1\n",
        b"p cnf 3 1 1\n",
        b"p cnf 3 1\r\r\n",
        b"p cnf 3 1\r \n",
        b"p\tcnf 3 1\n",
        b"pcnf 3 1\n",
        b" p cnf 3 1\n",
        b"\np cnf 3 1\n",
        b"p cnf 3 00\n",
        b"p CNF 3 1\n",
        b"p cnf3 1\n",
        b"p cnf 3\t1\n",
        b"p cnf 3 1\0\n",
    ];
    let mut text = Vec::new();
    if random.chance(30) {
        text.extend(comment(random));
    }
    text.extend(random.pick(&kinds));
    text.extend(if text.ends_with(b"\n") { &b"1 0\n"[..] } else { b"" });
    text
}

/// A text of exactly this length: the given one, and spaces after it.
pub fn padded(text: &[u8], length: usize) -> Vec<u8> {
    let mut text = text.to_vec();
    text.resize(length.max(text.len()), b' ');
    text
}

/// A text of any kind, on at most so many inputs.
pub fn any_text(random: &mut Random, most: u32) -> Vec<u8> {
    let variables = inputs(random, most);
    let numbers = if random.chance(3) { full_sheet(random, variables) } else { sheet(random, variables) };
    let mut made = text(random, variables, &numbers);
    match random.below(10) {
        0 => made = headless(random),
        1 => made = padded(&made, random.pick(&[MAX_TEXT - 1, MAX_TEXT, MAX_TEXT + 1])),
        2 | 3 => {}
        4 => {
            let mut long = vec![1; random.between(8189, 8194)];
            long.push(0);
            made = text(random, variables, &long);
        }
        _ => {
            for _ in 0..random.between(1, 3) {
                made = mutated(random, &made);
            }
        }
    }
    made
}
