//! The whole list and partial lists.

use second::random::{rows_asked, Random};
use second::random_sheets::{reworded, Pair};
use second::sheets::well_formed;
use second::words::{inputs_in_form, setting_text, Row};

use crate::answers::{first, kind, second_value};
use crate::calls::Lists;
use crate::driver::{Call, Case};
use crate::families::pair_to_24;
use crate::itself;
use crate::lent::{Lent, Outcome};
use crate::pairs::{drawn_pair, drawn_rooms, pair_to_16};
use crate::plain;
use crate::shrink::{pair_shown, smaller_pair};
use crate::worked;

/// What a list call is given; k for a partial list.
#[derive(Clone)]
pub struct ListCase {
    pub pair: Pair,
    pub reworded: Option<Pair>,
    pub k: Option<usize>,
    pub care: Lent<u32>,
    pub value: Lent<u32>,
}

/// So many rows in words: each if they are few, else their number.
pub fn rows_said(n: u32, count: usize, care: &[i64], value: &[i64]) -> String {
    if count > 8 {
        return format!("{count} rows");
    }
    let rows: Vec<String> = (0..count).map(|i| Row { care: care[i] as u32, value: value[i] as u32 }.text(n)).collect();
    if rows.is_empty() {
        "no rows".to_string()
    } else {
        rows.join(", ")
    }
}

impl Case for ListCase {
    type Calls = Lists;

    fn call(&self, calls: &Lists) -> Outcome {
        let Pair { n, order, on, off } = &self.pair;
        let (mut care, mut value) = (self.care.clone(), self.value.clone());
        let answer = match self.k {
            None => (calls.whole)(*n, order, on, off, care.run(), value.run()),
            Some(k) => (calls.partial)(*n, order, on, off, k, care.run(), value.run()),
        };
        Outcome::of(answer).and("care", &care).and("value", &value)
    }

    fn kind(&self, outcome: &Outcome) -> String {
        let result = match (self.k, first(outcome.answer), second_value(outcome.answer)) {
            (None, 0, _) => "no rows",
            (None, ..) => "rows",
            (Some(_), _, 0) => "not complete",
            (Some(_), ..) => "complete",
        };
        kind(outcome.answer, result)
    }

    fn said(&self, outcome: &Outcome) -> String {
        let payload = first(outcome.answer);
        let rows = || rows_said(self.pair.n, payload as usize, outcome.cells("care"), outcome.cells("value"));
        match self.kind(outcome).as_str() {
            "rows" | "no rows" => rows(),
            "complete" => format!("{}; complete", rows()),
            "not complete" => format!("{}; not complete", rows()),
            "refused 6" => format!("refused 6, {}", setting_text(self.pair.n, payload as u32)),
            refused => refused.to_string(),
        }
    }

    fn smaller(&self) -> Box<dyn Iterator<Item = ListCase> + '_> {
        let pairs = smaller_pair(&self.pair).map(|pair| ListCase { pair, reworded: None, ..self.clone() });
        let fewer_rows = self.k.into_iter().flat_map(|k| [k / 2, k.saturating_sub(1)]).filter(|&k| Some(k) != self.k);
        let ks = fewer_rows.map(|k| ListCase { k: Some(k), reworded: None, ..self.clone() });
        let cares = self.care.shorter().map(|care| ListCase { care, reworded: None, ..self.clone() });
        let values = self.value.shorter().map(|value| ListCase { value, reworded: None, ..self.clone() });
        Box::new(pairs.chain(ks).chain(cares).chain(values))
    }

    fn shown(&self) -> String {
        let k = self.k.map_or(String::new(), |k| format!("\nk {k}"));
        format!("{}{k}\nroom care {}, value {}", pair_shown(&self.pair), self.care.room(), self.value.room())
    }

    fn twin(&self) -> Option<ListCase> {
        let pair = self.reworded.clone()?;
        Some(ListCase { pair, reworded: None, ..self.clone() })
    }
}

/// The pair in other words, where both sheets are well formed.
fn twin_of(random: &mut Random, pair: &Pair) -> Option<Pair> {
    let Pair { n, order, on, off } = pair;
    let in_form = inputs_in_form(*n) && well_formed(*n, on) && well_formed(*n, off);
    in_form.then(|| Pair { n: *n, order: order.clone(), on: reworded(random, *n, on), off: reworded(random, *n, off) })
}

/// A pair so drawn with its twin, and rooms near what these calls need, for a whole list or a partial one.
fn draw(random: &mut Random, lists: &Lists, pair: fn(&mut Random) -> Pair, partial: bool) -> ListCase {
    let k = partial.then(|| rows_asked(random));
    let pair = pair(random);
    let (care, value) = drawn_rooms(random, lists, &pair, k);
    let (care, value) = (Lent::filled(random, care), Lent::filled(random, value));
    ListCase { reworded: twin_of(random, &pair), pair, k, care, value }
}

pub const WHOLE: Call<ListCase> = Call::new(
    "whole",
    itself::LISTS,
    worked::whole_lists,
    |random| draw(random, &itself::LISTS, drawn_pair, false),
    &["rows", "no rows"],
    &[1, 2, 3, 4, 6, 7, 15],
);

pub const PARTIAL: Call<ListCase> = Call {
    name: "partial",
    worked: worked::partial_lists,
    draw: |random| draw(random, &itself::LISTS, drawn_pair, true),
    results: &["complete", "not complete"],
    refusals: &[1, 2, 3, 4, 5, 6, 15],
    ..WHOLE
};

/// 11 to 16 inputs: few cases, for each takes the second program up to a tenth of a second.
pub const WHOLE_TO_16: Call<ListCase> = Call {
    name: "whole-11-to-16",
    draw: |random| draw(random, &itself::LISTS, pair_to_16, false),
    results: &["rows"],
    refusals: &[6, 7, 15],
    ..WHOLE
};

pub const PARTIAL_TO_16: Call<ListCase> =
    Call { name: "partial-11-to-16", draw: |random| draw(random, &itself::LISTS, pair_to_16, true), refusals: &[6, 15], ..PARTIAL };

const PLAIN: &str = "the plain C program";

/// 17 to 24 inputs, of which the second program would go through too many settings: the plain C program answers in its place.
pub const WHOLE_TO_24: Call<ListCase> = Call {
    name: "whole-17-to-24",
    second: plain::LISTS,
    whose: PLAIN,
    draw: |random| draw(random, &plain::LISTS, pair_to_24, false),
    ..WHOLE_TO_16
};

pub const PARTIAL_TO_24: Call<ListCase> = Call {
    name: "partial-17-to-24",
    second: plain::LISTS,
    whose: PLAIN,
    draw: |random| draw(random, &plain::LISTS, pair_to_24, true),
    ..PARTIAL_TO_16
};
