//! Pruning of cube records where they stand.

use second::method::MAX_ROWS;
use second::random::{Random, RowList};

use crate::answers::{first, kind};
use crate::calls::Records;
use crate::driver::{Call, Case};
use crate::itself;
use crate::lent::{Lent, Outcome};
use crate::rows::{drawn_rows, rows_without};
use crate::shrink::{count_without, inputs_to_drop, listed, parts, quick};
use crate::worked;

/// What pruning is given: 256 records as three runs of words, a mark being set unless it is 0.
#[derive(Clone)]
pub struct PruneCase {
    pub n: u32,
    pub count: usize,
    pub care: Lent<u32>,
    pub value: Lent<u32>,
    pub dropped: Lent<u32>,
}

impl PruneCase {
    /// These records, with random ones after them, marked at random.
    pub fn of(random: &mut Random, list: &RowList) -> PruneCase {
        let length = list.care.len().min(list.value.len()).min(MAX_ROWS);
        let mut lent = |run: &[u32]| {
            let mut lent = Lent::filled(random, MAX_ROWS);
            lent.run()[..length].copy_from_slice(&run[..length]);
            lent
        };
        let (care, value) = (lent(&list.care), lent(&list.value));
        let other_words = if random.chance(10) { 20 } else { 0 };
        let mark = |random: &mut Random| if random.chance(other_words) { random.word() } else { random.below(2) as u32 };
        let marks: Vec<u32> = (0..MAX_ROWS).map(|_| mark(random)).collect();
        PruneCase { n: list.n, count: list.count, care, value, dropped: Lent::holding(random, &marks) }
    }

    /// How many records there are, less the last ones that are 0.
    fn used(&self) -> usize {
        let (care, value, dropped) = (self.care.held(), self.value.held(), self.dropped.held());
        (0..MAX_ROWS).rev().find(|&i| care[i] | value[i] | dropped[i] != 0).map_or(0, |last| last + 1)
    }

    /// The records without those from the first place up to the last, which is not among them; as many more at the end are 0.
    fn without(&self, first: usize, last: usize) -> PruneCase {
        let mut case = self.clone();
        for lent in [&mut case.care, &mut case.value, &mut case.dropped] {
            lent.run().copy_within(last.., first);
            lent.run()[MAX_ROWS - (last - first)..].fill(0);
        }
        if self.count <= MAX_ROWS {
            case.count = count_without(self.count, first, last);
        }
        case
    }

    /// The records without one variable.
    fn on_fewer_inputs(&self, variable: u32) -> PruneCase {
        let list = RowList { n: self.n, care: self.care.held().to_vec(), value: self.value.held().to_vec(), count: self.count };
        let fewer = rows_without(&list, variable);
        let mut case = PruneCase { n: fewer.n, ..self.clone() };
        case.care.run().copy_from_slice(&fewer.care);
        case.value.run().copy_from_slice(&fewer.value);
        case
    }
}

impl Case for PruneCase {
    type Calls = Records;

    fn call(&self, calls: &Records) -> Outcome {
        let (mut care, mut value, mut dropped) = (self.care.clone(), self.value.clone(), self.dropped.clone());
        let answer = (calls.prune)(self.n, self.count, care.run(), value.run(), dropped.run());
        Outcome::of(answer).and("care", &care).and("value", &value).and("dropped", &dropped)
    }

    fn kind(&self, outcome: &Outcome) -> String {
        let all = first(outcome.answer) == self.count as u64;
        kind(outcome.answer, if all { "all kept" } else { "some dropped" })
    }

    fn said(&self, outcome: &Outcome) -> String {
        match self.kind(outcome).as_str() {
            "all kept" | "some dropped" => {
                format!("{} kept; dropped {}", first(outcome.answer), listed(&outcome.cells("dropped")[..self.count]))
            }
            refused => refused.to_string(),
        }
    }

    fn smaller(&self) -> Box<dyn Iterator<Item = PruneCase> + '_> {
        let fewer_records = parts(self.used()).map(|(first, last)| self.without(first, last));
        let fewer_inputs = inputs_to_drop(self.n).map(|variable| self.on_fewer_inputs(variable));
        Box::new(fewer_records.chain(fewer_inputs).filter(|case| quick(case.n)))
    }

    fn shown(&self) -> String {
        let run = |lent: &Lent<u32>| listed(&lent.held()[..self.used()]);
        let (care, value, dropped) = (run(&self.care), run(&self.value), run(&self.dropped));
        format!("n {}, count {}; of {MAX_ROWS} records the others are 0\ncare {care}\nvalue {value}\nmarks {dropped}", self.n, self.count)
    }
}

/// Counts at and past the limits; the low halves of some are counts in form.
const COUNTS: &[usize] = &[0, 1, 255, 256, 257, 258, 512, u32::MAX as usize, 1 << 32, (1 << 32) + 3, usize::MAX];

/// The list with its own rows over again until there are 256, and any count.
fn filled(random: &mut Random, list: &RowList) -> RowList {
    let places: Vec<usize> = (0..MAX_ROWS).map(|i| if i < list.count { i } else { random.below(list.count) }).collect();
    let words = |run: &[u32]| places.iter().map(|&i| run[i]).collect();
    RowList { n: list.n, care: words(&list.care), value: words(&list.value), count: random.pick(COUNTS) }
}

/// Records on few inputs, with rows that others hold; now and then not in form.
fn draw(random: &mut Random) -> PruneCase {
    let most = if random.chance(3) { 12 } else { 7 };
    let list = drawn_rows(random, most);
    let room = list.care.len().min(list.value.len()).min(MAX_ROWS);
    let list = if (1..=room).contains(&list.count) && random.chance(15) { filled(random, &list) } else { list };
    PruneCase::of(random, &list)
}

pub const PRUNE: Call<PruneCase> = Call::new("prune", itself::RECORDS, worked::records, draw, &["all kept", "some dropped"], &[1, 8]);
