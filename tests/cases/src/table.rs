//! The cases: document 01's, every refusal that the program can give, and the traps of texts.

use second::random_sheets::parity;

use crate::texts::{long_clause, padded, sheet};

pub enum File {
    Text(String),
    Missing,
    Folder,
}

pub struct Case {
    pub name: &'static str,
    pub on: File,
    pub off: File,
}

const P5_ON: &[i32] = &[-1, -2, 0, 1, -3, 0];
const P5_OFF: &[i32] = &[-1, 2, 0, 1, 3, 0];

pub fn p5() -> (String, String) {
    (sheet(3, P5_ON), sheet(3, P5_OFF))
}

fn texts(name: &'static str, on: impl Into<String>, off: impl Into<String>) -> Case {
    Case { name, on: File::Text(on.into()), off: File::Text(off.into()) }
}

fn sheets(name: &'static str, n: u32, on: &[i32], off: &[i32]) -> Case {
    texts(name, sheet(n, on), sheet(n, off))
}

/// P5 with another on text, and with another off text.
fn on(name: &'static str, text: impl Into<String>) -> Case {
    texts(name, text, p5().1)
}

fn off(name: &'static str, text: impl Into<String>) -> Case {
    texts(name, p5().0, text)
}

fn worked() -> Vec<Case> {
    let (p3_on, p3_off) = ([1, 2, 3, 0, -1, -2, -3, 0], [1, -2, 0, 2, -3, 0, 3, -1, 0]);
    vec![
        sheets("p1", 3, &[1, 0, 2, 0, 3, 0], &[-1, -2, -3, 0]),
        sheets("p2", 3, &[-1, -2, -3, 0], &[1, 0, 2, 0, 3, 0]),
        sheets("p3", 3, &p3_on, &p3_off),
        sheets("p5", 3, P5_ON, P5_OFF),
        sheets("p6", 3, &[-1, 0, -3, 0], &[1, -2, 0, -1, 2, 0, 1, 3, 0, -1, -3, 0]),
        sheets("p7", 3, &[0], &[0]),
        sheets("p8", 3, &[], &[0]),
        sheets("p9", 3, &[], &[]),
        sheets("p10", 2, &[1, 0], &[2, 0]),
        sheets("p11", 1, &[1, 0], &[-1, 0]),
        sheets("parity_9", 9, &parity(9, true), &parity(9, false)),
    ]
}

fn refusals() -> Vec<Case> {
    let (on_text, off_text) = p5();
    vec![
        on("on_10", padded(32769, &on_text)),
        on("on_11", "p cnf 3\n"),
        on("on_12", "p cnf 3 1\n1 4 0\n"),
        on("on_13", "p cnf 3 2\n1 0\n"),
        on("on_15", long_clause(3, 8193)),
        off("off_10", padded(32769, &off_text)),
        off("off_11", "p cnf 3\n"),
        off("off_12", "p cnf 3 1\n1 4 0\n"),
        off("off_13", "p cnf 3 2\n1 0\n"),
        off("off_15", long_clause(3, 8193)),
        texts("on_before_off", "p cnf 3 2\n1 0\n", "p cnf 3\n"),
        texts("off_before_14", "p cnf 3 1\n1 0\n", "p cnf 4 1\n5 0\n"),
        texts("other_inputs", sheet(3, &[1, 0]), sheet(4, &[-1, 0])),
        sheets("collision_of_4", 4, &[4, 0], &[2, 0, -3, 0]),
        sheets("collision_first_variable", 3, &[1, 0], &[1, 0]),
        sheets("parity_10", 10, &parity(10, true), &parity(10, false)),
    ]
}

fn headers() -> Vec<Case> {
    vec![
        on("comments", format!("c on\nc\nc p cnf 9 9\n{}", p5().0)),
        on("comment_not_closed", "c no line feed"),
        on("header_spaces", "p  cnf   3  1 \t\n-1 -2 0\n"),
        on("header_tab", "p cnf\t3 1\n1 0\n"),
        on("header_indented", " p cnf 3 1\n1 0\n"),
        on("header_alone", "p cnf 3 0"),
        on("header_carriage_return", "p cnf 3 0\r"),
        on("header_and_more", "p cnf 3 1 1 0\n"),
        on("header_inputs_zero_first", "p cnf 03 1\n1 0\n"),
        on("header_clauses_zero_first", "p cnf 3 01\n1 0\n"),
        on("header_inputs_0", "p cnf 0 0\n"),
        on("header_inputs_25", "p cnf 25 0\n"),
        on("header_clauses_1025", "p cnf 3 1025\n"),
        on("header_upper_case", "P CNF 3 1\n1 0\n"),
    ]
}

fn bodies() -> Vec<Case> {
    vec![
        on("line_feeds_after_returns", p5().0.replace('\n', "\r\n")),
        on("tabs", "p cnf 3 2\n-1\t-2\t0\t1 -3 0"),
        on("no_final_line_feed", p5().0.trim_end()),
        on("one_line", "p cnf 3 2\n-1 -2 0 1 -3 0\n"),
        on("clause_over_lines", "p cnf 3 2\n-1\n-2\n0\n\n1\n-3 0\n"),
        on("percent", format!("{}%\n0\n\n", p5().0)),
        on("percent_and_anything", format!("{}% not looked at", p5().0)),
        on("percent_joined", "p cnf 3 1\n1 0%\n"),
        on("percent_in_clause", "p cnf 3 1\n1 % 0\n"),
        on("comment_after_header", "p cnf 3 1\nc no\n1 0\n"),
        on("minus_zero", "p cnf 3 1\n1 -0\n"),
        on("plus_one", "p cnf 3 1\n+1 0\n"),
        on("zero_first", "p cnf 3 1\n01 0\n"),
        on("two_zeros", "p cnf 3 1\n1 00\n"),
        on("minus_alone", "p cnf 3 1\n1 - 0\n"),
        on("letters", "p cnf 3 1\n1 x 0\n"),
    ]
}

fn limits() -> Vec<Case> {
    let (on_text, off_text) = p5();
    vec![
        on("not_closed", "p cnf 3 1\n1 0 2\n"),
        on("count_below", "p cnf 3 0\n1 0\n"),
        on("count_above", "p cnf 3 3\n-1 -2 0 1 -3 0\n"),
        on("token_before_count", "p cnf 3 7\n1 0 z\n"),
        on("bytes_32768", padded(32768, &on_text)),
        off("bytes_32769", padded(32769, &off_text)),
        texts("numbers_8192", long_clause(3, 8192), sheet(3, &[-1, 0])),
        off("numbers_8193", long_clause(3, 8193)),
        Case { name: "on_missing", on: File::Missing, off: File::Text(off_text.clone()) },
        Case { name: "off_missing", on: File::Text(on_text.clone()), off: File::Missing },
        Case { name: "both_missing", on: File::Missing, off: File::Missing },
        Case { name: "on_a_folder", on: File::Folder, off: File::Text(off_text) },
        on("on_empty", ""),
        off("off_empty", ""),
    ]
}

pub fn cases() -> Vec<Case> {
    [worked(), refusals(), headers(), bodies(), limits()].into_iter().flatten().collect()
}
