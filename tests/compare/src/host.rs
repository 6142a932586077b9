//! The C host's calls, on byte runs.

use second::host::{bytes_of, unsigned, words_of};
use second::random::{Random, RowList};
use second::random_sheets::Pair;
use second::words::setting_text;

use crate::answers::host_kind;
use crate::calls::Host;
use crate::driver::{Call, Case};
use crate::itself;
use crate::lent::{Lent, Outcome};
use crate::lists::rows_said;
use crate::pairs::{drawn_pair, drawn_rooms};
use crate::rows::{drawn_rows, rows_shown, smaller_rows};
use crate::shrink::{pair_shown, smaller_pair};
use crate::worked;
use crate::writing::{drawn_room, text_said};

/// The low half of a host answer.
fn payload(answer: u64) -> u32 {
    answer as u32
}

/// A byte run's whole words as numbers, for reading an outcome.
fn word_cells(cells: &[i64]) -> Vec<i64> {
    let bytes: Vec<u8> = cells.iter().map(|&cell| cell as u8).collect();
    words_of(&bytes).into_iter().map(i64::from).collect()
}

/// Up to three bytes left over, mostly none.
fn left_over(random: &mut Random, percent: usize) -> Vec<u8> {
    let length = if random.chance(percent) { random.between(1, 3) } else { 0 };
    (0..length).map(|_| random.pick(&[0, 1, 255, 77])).collect()
}

/// What list building is given: a pair, and the bytes left over of its order, its on sheet and its off sheet.
#[derive(Clone)]
pub struct HostListCase {
    pub pair: Pair,
    pub over: [Vec<u8>; 3],
    pub care: Lent<u8>,
    pub value: Lent<u8>,
}

impl Case for HostListCase {
    type Calls = Host;

    fn call(&self, calls: &Host) -> Outcome {
        let [order, on, off] = &self.over;
        let order = [bytes_of(&self.pair.order), order.clone()].concat();
        let on = [bytes_of(&unsigned(&self.pair.on)), on.clone()].concat();
        let off = [bytes_of(&unsigned(&self.pair.off)), off.clone()].concat();
        let (mut care, mut value) = (self.care.clone(), self.value.clone());
        Outcome::of((calls.list)(self.pair.n, &order, &on, &off, care.run(), value.run())).and("care", &care).and("value", &value)
    }

    fn kind(&self, outcome: &Outcome) -> String {
        host_kind(outcome.answer, if payload(outcome.answer) == 0 { "no rows" } else { "rows" })
    }

    fn said(&self, outcome: &Outcome) -> String {
        let payload = payload(outcome.answer);
        match self.kind(outcome).as_str() {
            "rows" | "no rows" => {
                let (care, value) = (word_cells(outcome.cells("care")), word_cells(outcome.cells("value")));
                rows_said(self.pair.n, payload as usize, &care, &value)
            }
            "refused 6" => format!("refused 6, {}", setting_text(self.pair.n, payload)),
            refused => refused.to_string(),
        }
    }

    fn smaller(&self) -> Box<dyn Iterator<Item = HostListCase> + '_> {
        let pairs = smaller_pair(&self.pair).map(|pair| HostListCase { pair, ..self.clone() });
        let overs = (0..3).filter(|&i| !self.over[i].is_empty()).map(|i| {
            let mut case = self.clone();
            case.over[i].pop();
            case
        });
        let cares = self.care.shorter().map(|care| HostListCase { care, ..self.clone() });
        let values = self.value.shorter().map(|value| HostListCase { value, ..self.clone() });
        Box::new(pairs.chain(overs).chain(cares).chain(values))
    }

    fn shown(&self) -> String {
        let (care, value) = (self.care.room(), self.value.room());
        format!("{}\nleft over {:?}\nbytes of room care {care}, value {value}", pair_shown(&self.pair), self.over)
    }
}

/// A pair as bytes, now and then with bytes left over, and rooms near what its list needs.
fn draw_list(random: &mut Random) -> HostListCase {
    let pair = drawn_pair(random);
    let (care, value) = drawn_rooms(random, &itself::LISTS, &pair, None);
    let (care, value) = (4 * care + random.below(4), 4 * value + random.below(4));
    let over = [left_over(random, 5), left_over(random, 5), left_over(random, 5)];
    HostListCase { pair, over, care: Lent::filled(random, care), value: Lent::filled(random, value) }
}

pub const HOST_LIST: Call<HostListCase> =
    Call::new("host-list", itself::HOST, worked::host_lists, draw_list, &["rows", "no rows"], &[1, 2, 3, 4, 6, 7, 15]);

/// What PLA writing is given: a list, and the bytes left over of its care and value words.
#[derive(Clone)]
pub struct HostPlaCase {
    pub list: RowList,
    pub over: [Vec<u8>; 2],
    pub text: Lent<u8>,
}

impl Case for HostPlaCase {
    type Calls = Host;

    fn call(&self, calls: &Host) -> Outcome {
        let [care, value] = &self.over;
        let care = [bytes_of(&self.list.care), care.clone()].concat();
        let value = [bytes_of(&self.list.value), value.clone()].concat();
        let mut text = self.text.clone();
        Outcome::of((calls.pla)(self.list.n, self.list.count as u32, &care, &value, text.run())).and("text", &text)
    }

    fn kind(&self, outcome: &Outcome) -> String {
        host_kind(outcome.answer, "text")
    }

    fn said(&self, outcome: &Outcome) -> String {
        match self.kind(outcome).as_str() {
            "text" => text_said(payload(outcome.answer) as usize, outcome.cells("text")),
            refused => refused.to_string(),
        }
    }

    fn smaller(&self) -> Box<dyn Iterator<Item = HostPlaCase> + '_> {
        let lists = smaller_rows(&self.list).map(|list| HostPlaCase { list, ..self.clone() });
        let overs = (0..2).filter(|&i| !self.over[i].is_empty()).map(|i| {
            let mut case = self.clone();
            case.over[i].pop();
            case
        });
        let rooms = self.text.shorter().map(|text| HostPlaCase { text, ..self.clone() });
        Box::new(lists.chain(overs).chain(rooms))
    }

    fn shown(&self) -> String {
        format!("{}\nleft over {:?}\nroom {}", rows_shown(&self.list), self.over, self.text.room())
    }
}

/// A list as bytes, now and then with bytes left over, and room near what its text needs.
fn draw_pla(random: &mut Random) -> HostPlaCase {
    let list = drawn_rows(random, 24);
    let room = drawn_room(random, &list);
    let over = [left_over(random, 30), left_over(random, 30)];
    HostPlaCase { list, over, text: Lent::filled(random, room) }
}

pub const HOST_PLA: Call<HostPlaCase> = Call::new("host-pla", itself::HOST, worked::host_texts, draw_pla, &["text"], &[1, 8, 15]);
