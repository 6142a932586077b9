//! A list's value at a setting.

use second::random::{damaged_setting, setting, Random, RowList};
use second::words::inputs_in_form;

use crate::answers::{first, kind};
use crate::calls::Lists;
use crate::driver::{Call, Case};
use crate::itself;
use crate::lent::Outcome;
use crate::rows::{drawn_rows, fewer_rows, rows_shown, rows_without};
use crate::shrink::{inputs_to_drop, word_without};
use crate::worked;

/// What the call is given.
#[derive(Clone)]
pub struct ValueCase {
    pub list: RowList,
    pub setting: u32,
}

impl Case for ValueCase {
    type Calls = Lists;

    fn call(&self, calls: &Lists) -> Outcome {
        let RowList { n, care, value, count } = &self.list;
        Outcome::of((calls.value)(*n, *count, care, value, self.setting))
    }

    fn kind(&self, outcome: &Outcome) -> String {
        kind(outcome.answer, if first(outcome.answer) == 0 { "value 0" } else { "value 1" })
    }

    fn said(&self, outcome: &Outcome) -> String {
        self.kind(outcome)
    }

    fn smaller(&self) -> Box<dyn Iterator<Item = ValueCase> + '_> {
        let rows = fewer_rows(&self.list).map(|list| ValueCase { list, setting: self.setting });
        let without = |v: u32| ValueCase { list: rows_without(&self.list, v), setting: word_without(self.setting, v) };
        Box::new(rows.chain(inputs_to_drop(self.list.n).map(without)))
    }

    fn shown(&self) -> String {
        format!("{}\nsetting {:#b}", rows_shown(&self.list), self.setting)
    }
}

/// A list, and a setting that often one of its rows holds.
fn draw(random: &mut Random) -> ValueCase {
    let list = drawn_rows(random, 24);
    let n = if inputs_in_form(list.n) { list.n } else { 5 };
    let mut at = setting(random, n);
    let rows = list.count.min(list.care.len()).min(list.value.len());
    if rows > 0 && random.chance(40) {
        let held = random.below(rows);
        at = (at & !list.care[held] | list.value[held]) & ((1 << n) - 1);
    }
    if random.chance(8) {
        at = damaged_setting(random, n);
    }
    ValueCase { list, setting: at }
}

pub const VALUE: Call<ValueCase> = Call::new("value", itself::LISTS, worked::values, draw, &["value 0", "value 1"], &[1, 8, 9]);
