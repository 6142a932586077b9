//! What the program prints for two texts.

use second::dimacs::header;
use second::pla::MAX_PLA;
use second::random::Random;
use second::random_texts::{any_text, mutated, text};

use crate::calls::Texts;
use crate::driver::{Call, Case};
use crate::itself;
use crate::lent::{Lent, Outcome};
use crate::pairs::{formed_pair, with_many_rows};
use crate::shrink::{fewer, quick};
use crate::worked;
use crate::writing::text_said;

/// The bytes that are lent for the output: more than the longest has.
pub const ROOM: usize = 7000;

/// What the program is given.
#[derive(Clone)]
pub struct OutputCase {
    pub on: Vec<u8>,
    pub off: Vec<u8>,
    pub out: Lent<u8>,
}

/// Whether the second program answers soon: few inputs, or a refusal before it goes through the settings.
fn is_quick(on: &[u8], off: &[u8]) -> bool {
    match (header(on), header(off)) {
        (Some(on), Some(off)) => on.variables != off.variables || quick(on.variables),
        _ => true,
    }
}

impl Case for OutputCase {
    type Calls = Texts;

    fn call(&self, calls: &Texts) -> Outcome {
        let mut out = self.out.clone();
        Outcome::of((calls.output)(&self.on, &self.off, out.run())).and("out", &out)
    }

    fn kind(&self, outcome: &Outcome) -> String {
        let length = (outcome.answer as usize).min(self.out.room());
        let printed: String = outcome.cells("out")[..length].iter().map(|&cell| cell as u8 as char).collect();
        let mut words = printed.split_ascii_whitespace();
        match (words.next(), words.next()) {
            (Some("refused"), Some(number)) => format!("refused {number}"),
            (Some(".i"), _) => "text".to_string(),
            (None, _) => "no room".to_string(),
            _ => "neither text nor refusal".to_string(),
        }
    }

    fn said(&self, outcome: &Outcome) -> String {
        text_said(outcome.answer as usize, outcome.cells("out"))
    }

    fn smaller(&self) -> Box<dyn Iterator<Item = OutputCase> + '_> {
        let ons = fewer(&self.on).map(|on| OutputCase { on, ..self.clone() });
        let offs = fewer(&self.off).map(|off| OutputCase { off, ..self.clone() });
        Box::new(ons.chain(offs).filter(|case| is_quick(&case.on, &case.off)))
    }

    fn shown(&self) -> String {
        format!("on.cnf \"{}\"\noff.cnf \"{}\"\nroom {}", self.on.escape_ascii(), self.off.escape_ascii(), self.out.room())
    }
}

/// Texts of a pair: both in form, with too many rows, on unequal inputs, with a few bytes changed, or one of any kind.
fn drawn_texts(random: &mut Random) -> (Vec<u8>, Vec<u8>) {
    if random.chance(1) {
        let pair = with_many_rows(random);
        return (text(random, pair.n, &pair.on), text(random, pair.n, &pair.off));
    }
    let pair = formed_pair(random);
    let more = pair.n + if random.chance(10) { 1 } else { 0 };
    let (mut on, mut off) = (text(random, pair.n, &pair.on), text(random, more, &pair.off));
    let changed = if random.chance(50) { &mut on } else { &mut off };
    match random.below(10) {
        0..=2 => *changed = any_text(random, 7),
        3..=5 => {
            for _ in 0..random.between(1, 3) {
                *changed = mutated(random, changed);
            }
        }
        _ => {}
    }
    (on, off)
}

/// Texts that the second program is quick on, now and then with no room or with just enough.
fn draw(random: &mut Random) -> OutputCase {
    loop {
        let (on, off) = drawn_texts(random);
        if is_quick(&on, &off) {
            let room = if random.chance(5) { random.pick(&[0, MAX_PLA - 1, MAX_PLA]) } else { ROOM };
            return OutputCase { on, off, out: Lent::filled(random, room) };
        }
    }
}

pub const OUTPUT: Call<OutputCase> =
    Call::new("output", itself::TEXTS, worked::outputs, draw, &["text", "no room"], &[6, 7, 10, 11, 12, 13, 14, 15]);
