//! The token step.

use second::random::{inputs, Random};
use second::random_texts::any_text;

use crate::answers::{token_kind, token_next, token_number};
use crate::calls::Texts;
use crate::driver::{Call, Case};
use crate::itself;
use crate::lent::Outcome;
use crate::shrink::fewer;
use crate::worked;

/// What the step is given.
#[derive(Clone)]
pub struct TokenCase {
    pub v: u32,
    pub text: Vec<u8>,
    pub at: usize,
}

impl Case for TokenCase {
    type Calls = Texts;

    fn call(&self, calls: &Texts) -> Outcome {
        Outcome::of((calls.token)(self.v, &self.text, self.at))
    }

    fn kind(&self, outcome: &Outcome) -> String {
        token_kind(outcome.answer).to_string()
    }

    fn said(&self, outcome: &Outcome) -> String {
        let kind = token_kind(outcome.answer);
        match token_number(outcome.answer) {
            Some(number) => format!("number {number}, then {}", token_next(outcome.answer)),
            None if kind == "none left" => kind.to_string(),
            None => format!("{kind}, then {}", token_next(outcome.answer)),
        }
    }

    fn smaller(&self) -> Box<dyn Iterator<Item = TokenCase> + '_> {
        let fronts = [self.at, 1].into_iter().filter(|&cut| 0 < cut && cut <= self.at && cut <= self.text.len());
        let later = fronts.map(|cut| TokenCase { v: self.v, text: self.text[cut..].to_vec(), at: self.at - cut });
        let texts = fewer(&self.text).map(|text| TokenCase { text, ..self.clone() });
        let places = [self.at / 2, self.at.saturating_sub(1)].into_iter().filter(|&at| at < self.at);
        let places = places.map(|at| TokenCase { at, ..self.clone() });
        let lower = (0..self.v.min(25)).map(|v| TokenCase { v, ..self.clone() });
        Box::new(later.chain(texts).chain(places).chain(lower))
    }

    fn shown(&self) -> String {
        format!("V {}\ntext \"{}\"\nplace {}", self.v, self.text.escape_ascii(), self.at)
    }
}

/// A token in form, one just out of reach, or one of many kinds that are not in form.
fn drawn_token(random: &mut Random, v: u32) -> Vec<u8> {
    let odd: [&[u8]; 30] = [
        b"00",
        b"01",
        b"-0",
        b"-01",
        b"+1",
        b"-",
        b"--1",
        b"1-",
        b"-1-",
        b"%%",
        b"%0",
        b"0%",
        b"1%",
        b"-%",
        b"a",
        b"1a",
        b"0x1",
        b"1e1",
        b"\xff",
        b"\0",
        b"1\0",
        b"\x0b",
        b"\x0c1",
        b"c",
        b"1.",
        b"4294967297",
        b"18446744073709551617",
        b"-4294967295",
        b"2147483648",
        b"340282366920938463463374607431768211457",
    ];
    match random.below(8) {
        0 => b"0".to_vec(),
        1 => b"%".to_vec(),
        2 | 3 => random.pick(&odd).to_vec(),
        4 => {
            let v = u64::from(v);
            format!("{}{}", random.pick(&["", "-"]), random.pick(&[v, v + 1, 10 * v, 9, 10, 25])).into_bytes()
        }
        _ => format!("{}{}", random.pick(&["", "-"]), inputs(random, v.clamp(1, 24))).into_bytes(),
    }
}

/// A few tokens with bytes that part them, or a whole text; and a place in it or just past it. V may be any number.
fn draw(random: &mut Random) -> TokenCase {
    let v = if random.chance(10) { random.pick(&[0, 25, 99, 1 << 31, u32::MAX]) } else { inputs(random, 24) };
    let mut text = Vec::new();
    if random.chance(25) {
        text = any_text(random, 24);
    } else {
        let gaps: [&[u8]; 8] = [b" ", b"\t", b"\r", b"\n", b"  ", b" \r\n\t ", b" ", b""];
        for _ in 0..random.below(6) {
            text.extend(random.pick(&gaps));
            text.extend(drawn_token(random, v));
        }
        text.extend(random.pick(&gaps));
    }
    let at = match random.below(20) {
        0 => text.len() + random.below(3),
        1..=8 => 0,
        _ => random.below(text.len() + 1),
    };
    TokenCase { v, text, at }
}

pub const TOKEN: Call<TokenCase> =
    Call::new("token", itself::TEXTS, worked::tokens, draw, &["none left", "number", "number below zero", "percent", "other"], &[]);
