//! Document 01's worked cases, each with its outcome as stated there.

use second::random::{Random, RowList};
use second::random_sheets::{parity, Pair};
use second::sheets::MAX_NUMBERS;

use crate::driver::Worked;
use crate::host::{HostListCase, HostPlaCase};
use crate::lent::Lent;
use crate::lists::ListCase;
use crate::output::{OutputCase, ROOM};
use crate::query::QueryCase;
use crate::reading::ReadCase;
use crate::records::PruneCase;
use crate::tokens::TokenCase;
use crate::value::ValueCase;
use crate::writing::WriteCase;

const P3_ON: &[i32] = &[1, 2, 3, 0, -1, -2, -3, 0];
const P3_OFF: &[i32] = &[1, -2, 0, 2, -3, 0, 3, -1, 0];
const P5_ON: &[i32] = &[-1, -2, 0, 1, -3, 0];
const P5_OFF: &[i32] = &[-1, 2, 0, 1, 3, 0];
const P5_TEXT: &str = ".i 3\n.o 1\n.p 2\n0-0 1\n10- 1\n.e\n";

/// A pair by its order.
fn pair(order: &[u32], on: &[i32], off: &[i32]) -> Pair {
    Pair { n: order.len() as u32, order: order.to_vec(), on: on.to_vec(), off: off.to_vec() }
}

/// Two sheets on n inputs, by the order 1..n.
fn upward(n: u32, on: &[i32], off: &[i32]) -> Pair {
    let order: Vec<u32> = (1..=n).collect();
    pair(&order, on, off)
}

/// The list of these rows, each written variable 1 first.
fn list(n: u32, rows: &[&str]) -> RowList {
    let word = |row: &str, wanted: &str| row.chars().rev().fold(0, |word, c| 2 * word + u32::from(wanted.contains(c)));
    let care: Vec<u32> = rows.iter().map(|row| word(row, "01")).collect();
    let value: Vec<u32> = rows.iter().map(|row| word(row, "1")).collect();
    RowList { n, care, value, count: rows.len() }
}

/// P12.
pub fn queries(_: &mut Random) -> Vec<Worked<QueryCase>> {
    let p12 = |start: u32| QueryCase { n: 3, order: vec![1, 2, 3], sheet: P3_ON.to_vec(), start };
    vec![Worked { name: "P12 from 000", case: p12(0b000), said: "001" }, Worked { name: "P12 from 111", case: p12(0b111), said: "none" }]
}

/// P1 to P11, P5's rooms, parity, and sheets at and past their limits.
pub fn whole_lists(random: &mut Random) -> Vec<Worked<ListCase>> {
    let mut case = |name: &'static str, pair: Pair, room: usize, said: &'static str| {
        let (care, value) = (Lent::filled(random, room), Lent::filled(random, room + 1));
        Worked { name, case: ListCase { pair, reworded: None, k: None, care, value }, said }
    };
    let long = [vec![1; MAX_NUMBERS], vec![0]].concat();
    vec![
        case("P1", upward(3, &[1, 0, 2, 0, 3, 0], &[-1, -2, -3, 0]), 8, "111"),
        case("P2", upward(3, &[-1, -2, -3, 0], &[1, 0, 2, 0, 3, 0]), 8, "--0, -0-, 0--"),
        case("P3", upward(3, P3_ON, P3_OFF), 8, "-01, -10, 0-1, 1-0"),
        case("P4", pair(&[3, 2, 1], P3_ON, P3_OFF), 8, "10-, 01-, 1-0, 0-1"),
        case("P5", upward(3, P5_ON, P5_OFF), 8, "0-0, 10-"),
        case("P5 in room 2", upward(3, P5_ON, P5_OFF), 2, "0-0, 10-"),
        case("P5 in room 1", upward(3, P5_ON, P5_OFF), 1, "refused 15"),
        case("P6", upward(3, &[-1, 0, -3, 0], &[1, -2, 0, -1, 2, 0, 1, 3, 0, -1, -3, 0]), 8, "-00, 0-0"),
        case("P7", upward(3, &[0], &[0]), 8, "no rows"),
        case("P8", upward(3, &[], &[0]), 8, "---"),
        case("P9", upward(3, &[], &[]), 8, "refused 6, 000"),
        case("P10", upward(2, &[1, 0], &[2, 0]), 8, "refused 6, 11"),
        case("P11", upward(1, &[1, 0], &[-1, 0]), 8, "1"),
        case("odd parity of 9", upward(9, &parity(9, true), &parity(9, false)), 256, "256 rows"),
        case("odd parity of 10", upward(10, &parity(10, true), &parity(10, false)), 256, "refused 7"),
        case("8,193 numbers", upward(3, &long, &[0]), 8, "refused 3"),
        case("the last number 3", upward(3, &[1, 0, 3], &[0]), 8, "refused 3"),
        case("-2147483648", upward(3, &[i32::MIN, 0], &[0]), 8, "refused 3"),
    ]
}

/// P5's generated rows.
pub fn partial_lists(random: &mut Random) -> Vec<Worked<ListCase>> {
    let mut case = |name: &'static str, k: usize, room: usize, said: &'static str| {
        let (care, value) = (Lent::filled(random, room + 1), Lent::filled(random, room));
        let pair = upward(3, P5_ON, P5_OFF);
        Worked { name, case: ListCase { pair, reworded: None, k: Some(k), care, value }, said }
    };
    vec![
        case("P5, k 0", 0, 0, "no rows; not complete"),
        case("P5, k 1", 1, 1, "-00; not complete"),
        case("P5, k 2", 2, 2, "-00, 0-0; not complete"),
        case("P5, k 3", 3, 3, "-00, 0-0, 10-; complete"),
        case("P5, k 3 in room 2", 3, 2, "refused 15"),
        case("P5, k 256", 256, 3, "-00, 0-0, 10-; complete"),
        case("P5, k 257", 257, 3, "refused 5"),
    ]
}

/// P5's list at settings.
pub fn values(_: &mut Random) -> Vec<Worked<ValueCase>> {
    let at = |setting: u32| ValueCase { list: list(3, &["0-0", "10-"]), setting };
    vec![
        Worked { name: "P5 at 000", case: at(0b000), said: "value 1" },
        Worked { name: "P5 at 111", case: at(0b111), said: "value 0" },
        Worked { name: "P5 past its inputs", case: at(0b1000), said: "refused 9" },
    ]
}

/// P5's on sheet as a text, and files as SATLIB has them.
pub fn readings(random: &mut Random) -> Vec<Worked<ReadCase>> {
    let mut case = |name: &'static str, text: &[u8], room: usize, said: &'static str| Worked {
        name,
        case: ReadCase { text: text.to_vec(), numbers: Lent::filled(random, room) },
        said,
    };
    vec![
        case("P5", b"p cnf 3 2\n-1 -2 0\n1 -3 0\n", 6, "3 inputs: -1 -2 0 1 -3 0"),
        case("P5 in room 5", b"p cnf 3 2\n-1 -2 0\n1 -3 0\n", 5, "refused 15"),
        case("SATLIB", b"c made\nc\np  cnf 3  1 \r\n1 -2\n3 0\n%\n0\n\n", 9, "3 inputs: 1 -2 3 0"),
        case("no text", b"", 9, "refused 11"),
    ]
}

/// The steps through a short text.
pub fn tokens(_: &mut Random) -> Vec<Worked<TokenCase>> {
    let case = |name: &'static str, at: usize, said: &'static str| Worked {
        name,
        case: TokenCase { v: 3, text: b" 1\t-3 0\r\n4 % ".to_vec(), at },
        said,
    };
    vec![
        case("at 0", 0, "number 1, then 2"),
        case("at 2", 2, "number -3, then 5"),
        case("at 5", 5, "number 0, then 7"),
        case("at 7", 7, "other, then 10"),
        case("at 10", 10, "percent, then 12"),
        case("at 12", 12, "none left"),
    ]
}

/// P5's text in rooms 30 and 29, and the longest text.
pub fn writings(random: &mut Random) -> Vec<Worked<WriteCase>> {
    let mut case = |name: &'static str, list: RowList, room: usize, said: &'static str| Worked {
        name,
        case: WriteCase { list, text: Lent::filled(random, room) },
        said,
    };
    let longest = list(24, &["01-01-01-01-01-01-01-01-"; 256]);
    vec![
        case("P5 in room 30", list(3, &["0-0", "10-"]), 30, P5_TEXT),
        case("P5 in room 29", list(3, &["0-0", "10-"]), 29, "refused 15"),
        case("the longest", longest.clone(), 6933, "6933 bytes"),
        case("the longest, one short", longest, 6932, "refused 15"),
    ]
}

/// P5 and P10 as files, unequal headers, and no file.
pub fn outputs(random: &mut Random) -> Vec<Worked<OutputCase>> {
    let mut case = |name: &'static str, on: &[u8], off: &[u8], said: &'static str| {
        let out = Lent::filled(random, ROOM);
        Worked { name, case: OutputCase { on: on.to_vec(), off: off.to_vec(), out }, said }
    };
    vec![
        case("P5", b"p cnf 3 2\n-1 -2 0\n1 -3 0\n", b"p cnf 3 2\n-1 2 0\n1 3 0\n", P5_TEXT),
        case("P10", b"p cnf 2 1\n1 0\n", b"p cnf 2 1\n2 0\n", "refused 6 11\n"),
        case("unequal headers", b"p cnf 2 1\n1 0\n", b"p cnf 3 1\n-1 0\n", "refused 14\n"),
        case("no off.cnf", b"p cnf 2 1\n1 0\n", b"", "refused 11\n"),
    ]
}

/// P5 and P10 on byte runs.
pub fn host_lists(random: &mut Random) -> Vec<Worked<HostListCase>> {
    let mut case = |name: &'static str, pair: Pair, over: [&[u8]; 3], bytes: usize, said: &'static str| {
        let (care, value) = (Lent::filled(random, bytes + 3), Lent::filled(random, bytes));
        Worked { name, case: HostListCase { pair, over: over.map(|run| run.to_vec()), care, value }, said }
    };
    let p5 = || upward(3, P5_ON, P5_OFF);
    vec![
        case("P5 in 8 bytes", p5(), [b"", b"", b""], 8, "0-0, 10-"),
        case("P5 in 7 bytes", p5(), [b"", b"", b""], 7, "refused 15"),
        case("P5, a byte of the order left over", p5(), [b"\0", b"", b""], 8, "refused 2"),
        case("P5, a byte of the on sheet left over", p5(), [b"", b"\0", b""], 8, "refused 3"),
        case("P5, a byte of the off sheet left over", p5(), [b"", b"", b"\0"], 8, "refused 4"),
        case("P10", upward(2, &[1, 0], &[2, 0]), [b"", b"", b""], 8, "refused 6, 11"),
    ]
}

/// P5's text from byte runs.
pub fn host_texts(random: &mut Random) -> Vec<Worked<HostPlaCase>> {
    let mut case = |name: &'static str, over: &[u8], room: usize, said: &'static str| {
        let text = Lent::filled(random, room);
        Worked { name, case: HostPlaCase { list: list(3, &["0-0", "10-"]), over: [over.to_vec(), over.to_vec()], text }, said }
    };
    vec![
        case("P5 in room 30", b"", 30, P5_TEXT),
        case("P5 in room 29", b"", 29, "refused 15"),
        case("P5, bytes left over", b"\xff\xff\xff", 30, P5_TEXT),
    ]
}

/// P5's generated rows as records.
pub fn records(random: &mut Random) -> Vec<Worked<PruneCase>> {
    let mut case =
        |name: &'static str, rows: &[&str], said: &'static str| Worked { name, case: PruneCase::of(random, &list(3, rows)), said };
    vec![
        case("P5", &["-00", "0-0", "10-"], "2 kept; dropped 1 0 0"),
        case("a row twice", &["0-0", "0-0"], "1 kept; dropped 1 0"),
        case("no records", &[], "0 kept; dropped "),
    ]
}
