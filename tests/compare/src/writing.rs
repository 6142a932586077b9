//! The writer of PLA text.

use second::pla::{write_pla, MAX_PLA};
use second::random::{room, Random, RowList};

use crate::answers::{first, kind};
use crate::calls::Texts;
use crate::driver::{Call, Case};
use crate::itself;
use crate::lent::{Lent, Outcome};
use crate::rows::{drawn_rows, rows_shown, smaller_rows};
use crate::worked;

/// What the writer is given.
#[derive(Clone)]
pub struct WriteCase {
    pub list: RowList,
    pub text: Lent<u8>,
}

/// The first cells of a lent text, in words: the text itself if it is short, else its length.
pub fn text_said(length: usize, cells: &[i64]) -> String {
    let text: Vec<u8> = cells[..length].iter().map(|&cell| cell as u8).collect();
    if length > 40 {
        format!("{length} bytes")
    } else {
        String::from_utf8_lossy(&text).into_owned()
    }
}

/// Room for text near what the list needs.
pub fn drawn_room(random: &mut Random, list: &RowList) -> usize {
    let need = write_pla(list.n, list.count, &list.care, &list.value, &mut [0; MAX_PLA]);
    room(random, need.unwrap_or(30))
}

impl Case for WriteCase {
    type Calls = Texts;

    fn call(&self, calls: &Texts) -> Outcome {
        let RowList { n, care, value, count } = &self.list;
        let mut text = self.text.clone();
        Outcome::of((calls.write)(*n, *count, care, value, text.run())).and("text", &text)
    }

    fn kind(&self, outcome: &Outcome) -> String {
        kind(outcome.answer, "text")
    }

    fn said(&self, outcome: &Outcome) -> String {
        match self.kind(outcome).as_str() {
            "text" => text_said(first(outcome.answer) as usize, outcome.cells("text")),
            refused => refused.to_string(),
        }
    }

    fn smaller(&self) -> Box<dyn Iterator<Item = WriteCase> + '_> {
        let lists = smaller_rows(&self.list).map(|list| WriteCase { list, ..self.clone() });
        let rooms = self.text.shorter().map(|text| WriteCase { text, ..self.clone() });
        Box::new(lists.chain(rooms))
    }

    fn shown(&self) -> String {
        format!("{}\nroom {}", rows_shown(&self.list), self.text.room())
    }
}

/// A list, and room near what its text needs.
fn draw(random: &mut Random) -> WriteCase {
    let list = drawn_rows(random, 24);
    let room = drawn_room(random, &list);
    WriteCase { list, text: Lent::filled(random, room) }
}

pub const WRITE: Call<WriteCase> = Call::new("write", itself::TEXTS, worked::writings, draw, &["text"], &[1, 8, 15]);
