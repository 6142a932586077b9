//! The smallest-setting query.

use second::random::{damaged_inputs, damaged_order, damaged_setting, inputs, order, setting, Random};
use second::random_sheets::{damaged_sheet, full_sheet, sheet, sheet_of_settings};
use second::words::setting_text;

use crate::answers::{first, kind, size};
use crate::calls::Query;
use crate::driver::{Call, Case};
use crate::itself;
use crate::lent::Outcome;
use crate::shrink::{inputs_to_drop, listed, order_without, sheet_is_quick, sheet_without, smaller_sheet, word_without};
use crate::worked;

/// What the query is given.
#[derive(Clone)]
pub struct QueryCase {
    pub n: u32,
    pub order: Vec<u32>,
    pub sheet: Vec<i32>,
    pub start: u32,
}

impl QueryCase {
    /// Whether the second program answers soon.
    fn is_quick(&self) -> bool {
        sheet_is_quick(self.n, &self.order, &self.sheet)
    }
}

impl Case for QueryCase {
    type Calls = Query;

    fn call(&self, calls: &Query) -> Outcome {
        Outcome::of((calls.query)(self.n, &self.order, &self.sheet, self.start))
    }

    fn kind(&self, outcome: &Outcome) -> String {
        kind(outcome.answer, if size(outcome.answer) == 0 { "none" } else { "setting" })
    }

    fn said(&self, outcome: &Outcome) -> String {
        match self.kind(outcome).as_str() {
            "setting" => setting_text(self.n, first(outcome.answer) as u32),
            other => other.to_string(),
        }
    }

    fn smaller(&self) -> Box<dyn Iterator<Item = QueryCase> + '_> {
        let without = |v: u32| QueryCase {
            n: self.n - 1,
            order: order_without(&self.order, v),
            sheet: sheet_without(&self.sheet, v),
            start: word_without(self.start, v),
        };
        let fewer_inputs = inputs_to_drop(self.n).map(without);
        let sheets = smaller_sheet(&self.sheet).map(|sheet| QueryCase { sheet, ..self.clone() });
        let starts = (0..32).map(|i| 1 << i).filter(|bit| self.start & bit != 0);
        let lower = starts.map(|bit| QueryCase { start: self.start - bit, ..self.clone() });
        let slow = !self.is_quick();
        Box::new(fewer_inputs.chain(sheets).chain(lower).filter(move |case| slow || case.is_quick()))
    }

    fn shown(&self) -> String {
        format!("n {}\norder {}\nsheet {}\nstart {:#b}", self.n, listed(&self.order), listed(&self.sheet), self.start)
    }
}

/// Now and then a part is not in form; else a free, a full or a sparse sheet on mostly few inputs.
fn draw(random: &mut Random) -> QueryCase {
    let most = match random.below(1000) {
        0 | 1 => 18,
        2..=30 => 14,
        _ => 10,
    };
    let n = inputs(random, most);
    let given = match random.below(10) {
        0 if random.chance(10) => full_sheet(random, n.min(8)),
        0..=3 if n <= 8 => {
            let percent = random.pick(&[1, 5, 50, 95]);
            let wanted: Vec<bool> = (0..1 << n).map(|_| random.chance(percent)).collect();
            sheet_of_settings(n, &wanted)
        }
        _ => sheet(random, n),
    };
    let start = match random.below(5) {
        0 => 0,
        1 => (1 << n) - 1,
        _ => setting(random, n),
    };
    let mut case = QueryCase { n, order: order(random, n), sheet: given, start };
    if random.chance(8) {
        case.n = damaged_inputs(random);
    }
    if random.chance(8) {
        case.order = damaged_order(random, n);
    }
    if random.chance(8) {
        case.sheet = damaged_sheet(random, n);
    }
    if random.chance(8) {
        case.start = damaged_setting(random, n);
    }
    case
}

pub const QUERY: Call<QueryCase> = Call::new("query", itself::QUERY, worked::queries, draw, &["setting", "none"], &[1, 2, 3, 9]);
