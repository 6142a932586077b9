//! Runs a call's cases by a library and by another program, mostly the second program, and compares the outcomes.

use std::collections::BTreeMap;
use std::time::{Duration, Instant};

use second::random::Random;

use crate::lent::Outcome;

/// How long a smaller case is looked for.
const SHRINKING: Duration = Duration::from_secs(10);

/// What a call is given: its inputs and what is lent to it.
pub trait Case: Clone {
    /// The table of calls that this call is in.
    type Calls: Copy;

    /// What the call by this table comes to.
    fn call(&self, calls: &Self::Calls) -> Outcome;

    /// The kind of an outcome: a refusal by its number, or a kind of result.
    fn kind(&self, outcome: &Outcome) -> String;

    /// The outcome in document 01's words.
    fn said(&self, outcome: &Outcome) -> String;

    /// Cases somewhat smaller than this one, each quick enough for the other program.
    fn smaller(&self) -> Box<dyn Iterator<Item = Self> + '_>;

    /// The case's parts, a line for each.
    fn shown(&self) -> String;

    /// The same question in other words, to be answered alike in every cell.
    fn twin(&self) -> Option<Self> {
        None
    }
}

/// A case tried by hand, and its outcome in document 01's words.
pub struct Worked<C> {
    pub name: &'static str,
    pub case: C,
    pub said: &'static str,
}

/// A call: how its cases are made, and the kinds of answer that they must meet.
pub struct Call<C: Case> {
    pub name: &'static str,
    pub second: C::Calls,
    /// What the other program is called where it differs.
    pub whose: &'static str,
    pub worked: fn(&mut Random) -> Vec<Worked<C>>,
    pub draw: fn(&mut Random) -> C,
    pub results: &'static [&'static str],
    pub refusals: &'static [u32],
}

/// How often each kind of answer was met.
pub type Tally = BTreeMap<String, usize>;

impl<C: Case> Call<C> {
    /// A call by its name, the other program's table, its worked cases, how others are drawn, and the answers to meet.
    pub const fn new(
        name: &'static str,
        second: C::Calls,
        worked: fn(&mut Random) -> Vec<Worked<C>>,
        draw: fn(&mut Random) -> C,
        results: &'static [&'static str],
        refusals: &'static [u32],
    ) -> Call<C> {
        Call { name, second, whose: "the second program", worked, draw, results, refusals }
    }

    /// Compares this many random cases after the worked ones; what was met, or in words what is wrong.
    pub fn compare(&self, library: &C::Calls, count: usize, seed: u64) -> Result<Tally, String> {
        print!("{}: {count} cases, ", self.name);
        let mut random = Random::seeded(seed);
        for worked in (self.worked)(&mut random) {
            self.meet(library, &worked.case).map_err(|what| format!("{} {}: {what}", self.name, worked.name))?;
            let said = worked.case.said(&worked.case.call(library));
            if said != worked.said {
                return Err(format!("{} {}: {said}, but document 01 says {}", self.name, worked.name, worked.said));
            }
        }
        let mut tally = Tally::new();
        for number in 1..=count {
            let case = (self.draw)(&mut random);
            let kind = self.meet(library, &case).map_err(|what| format!("{} case {number}, seed {seed}: {what}", self.name))?;
            *tally.entry(kind).or_default() += 1;
        }
        self.all_met(tally)
    }

    /// The tally, if every kind of answer that this call can give was met.
    pub fn all_met(&self, tally: Tally) -> Result<Tally, String> {
        let results = self.results.iter().map(|result| result.to_string());
        let refusals = self.refusals.iter().map(|number| format!("refused {number}"));
        let unmet: Vec<String> = results.chain(refusals).filter(|kind| !tally.contains_key(kind)).collect();
        match unmet.is_empty() {
            true => Ok(tally),
            false => Err(format!("{}: never met: {}", self.name, unmet.join(", "))),
        }
    }

    /// The kind of answer to this case and to its twin, or what differs in the smallest case found.
    fn meet(&self, library: &C::Calls, case: &C) -> Result<String, String> {
        let second = case.call(&self.second);
        if self.differs(case, &case.call(library), &second).is_some() {
            return Err(self.smallest(library, case.clone()));
        }
        if let Some(twin) = case.twin() {
            if let Some(what) = self.differs(&twin, &twin.call(library), &second) {
                let shrunk = self.difference(library, &twin).map(|_| self.smallest(library, twin.clone()));
                return Err(shrunk.unwrap_or(format!("a reworded twin: {what}\n{}\nand its twin\n{}", case.shown(), twin.shown())));
            }
        }
        Ok(case.kind(&second))
    }

    /// How the library differs from the other program on this case.
    fn difference(&self, library: &C::Calls, case: &C) -> Option<String> {
        self.differs(case, &case.call(library), &case.call(&self.second))
    }

    /// How the library's outcome differs from the other program's.
    fn differs(&self, case: &C, library: &Outcome, second: &Outcome) -> Option<String> {
        let answer = |outcome: &Outcome| format!("{} ({:#018x})", case.kind(outcome), outcome.answer);
        if library.answer != second.answer {
            return Some(format!("answers {}, {} {}", answer(library), self.whose, answer(second)));
        }
        library.cell_that_differs(second, self.whose)
    }

    /// The smallest differing case found from this differing one, shown with what differs.
    fn smallest(&self, library: &C::Calls, case: C) -> String {
        let began = Instant::now();
        let next = |case: &C| {
            let mut tried = case.smaller().take_while(|_| began.elapsed() < SHRINKING);
            tried.find(|smaller| self.difference(library, smaller).is_some())
        };
        let mut smallest = case;
        while let Some(smaller) = next(&smallest) {
            smallest = smaller;
        }
        let what = self.difference(library, &smallest).unwrap_or("differs only now and then".to_string());
        format!("{what}\nthe smallest case found:\n{}", smallest.shown())
    }
}
