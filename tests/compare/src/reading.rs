//! The reader of DIMACS CNF.

use second::dimacs::read_dimacs;
use second::random::{room, Random};
use second::random_texts::any_text;
use second::refusal::Refusal;
use second::sheets::MAX_NUMBERS;

use crate::answers::{first, kind, second_value};
use crate::calls::Texts;
use crate::driver::{Call, Case};
use crate::itself;
use crate::lent::{Lent, Outcome};
use crate::shrink::{fewer, listed};
use crate::worked;

/// What the reader is given.
#[derive(Clone)]
pub struct ReadCase {
    pub text: Vec<u8>,
    pub numbers: Lent<i32>,
}

impl Case for ReadCase {
    type Calls = Texts;

    fn call(&self, calls: &Texts) -> Outcome {
        let mut numbers = self.numbers.clone();
        Outcome::of((calls.read)(&self.text, numbers.run())).and("numbers", &numbers)
    }

    fn kind(&self, outcome: &Outcome) -> String {
        kind(outcome.answer, if second_value(outcome.answer) == 0 { "no numbers" } else { "numbers" })
    }

    fn said(&self, outcome: &Outcome) -> String {
        match self.kind(outcome).as_str() {
            "numbers" | "no numbers" => {
                let count = second_value(outcome.answer) as usize;
                format!("{} inputs: {}", first(outcome.answer), listed(&outcome.cells("numbers")[..count]))
            }
            refused => refused.to_string(),
        }
    }

    fn smaller(&self) -> Box<dyn Iterator<Item = ReadCase> + '_> {
        let texts = fewer(&self.text).map(|text| ReadCase { text, ..self.clone() });
        let rooms = self.numbers.shorter().map(|numbers| ReadCase { numbers, ..self.clone() });
        Box::new(rooms.chain(texts))
    }

    fn shown(&self) -> String {
        format!("text \"{}\"\nroom {}", self.text.escape_ascii(), self.numbers.room())
    }
}

/// A text of any kind, and room near what its numbers need, be they more than a sheet has.
fn draw(random: &mut Random) -> ReadCase {
    let text = any_text(random, 24);
    let need = match read_dimacs(&text, &mut [0; MAX_NUMBERS]) {
        Ok(reading) => reading.count,
        Err(Refusal::Number(15)) => MAX_NUMBERS + 3,
        Err(_) => 5,
    };
    let room = room(random, need);
    ReadCase { text, numbers: Lent::filled(random, room) }
}

pub const READ: Call<ReadCase> =
    Call::new("read", itself::TEXTS, worked::readings, draw, &["numbers", "no numbers"], &[10, 11, 12, 13, 15]);
