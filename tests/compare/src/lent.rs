//! Lent runs between guard cells, and what a call leaves in them.

use second::random::Random;

/// Cells on each side of a lent run, which no call may touch.
const GUARD: usize = 16;

/// A kind of cell.
pub trait Cell: Copy + Into<i64> {
    /// A random cell.
    fn drawn(random: &mut Random) -> Self;
}

impl Cell for u32 {
    fn drawn(random: &mut Random) -> u32 {
        random.word()
    }
}

impl Cell for i32 {
    fn drawn(random: &mut Random) -> i32 {
        random.word() as i32
    }
}

impl Cell for u8 {
    fn drawn(random: &mut Random) -> u8 {
        random.word() as u8
    }
}

/// A run of cells to lend, between guard cells.
#[derive(Clone)]
pub struct Lent<T> {
    cells: Vec<T>,
}

impl<T: Cell> Lent<T> {
    /// A run of this length, filled at random.
    pub fn filled(random: &mut Random, room: usize) -> Lent<T> {
        Lent { cells: (0..room + 2 * GUARD).map(|_| T::drawn(random)).collect() }
    }

    /// A run with these cells, between random guard cells.
    pub fn holding(random: &mut Random, run: &[T]) -> Lent<T> {
        let mut lent = Lent::filled(random, run.len());
        lent.run().copy_from_slice(run);
        lent
    }

    /// The run's length.
    pub fn room(&self) -> usize {
        self.cells.len() - 2 * GUARD
    }

    /// The run.
    pub fn run(&mut self) -> &mut [T] {
        let room = self.room();
        &mut self.cells[GUARD..GUARD + room]
    }

    /// The run's cells.
    pub fn held(&self) -> &[T] {
        &self.cells[GUARD..GUARD + self.room()]
    }

    /// The run without the cells from the first place up to the last, which is not among them.
    pub fn without(&self, first: usize, last: usize) -> Lent<T> {
        let mut cells = self.cells.clone();
        cells.drain(GUARD + first..GUARD + last);
        Lent { cells }
    }

    /// The runs with less room: half, or one cell less.
    pub fn shorter(&self) -> impl Iterator<Item = Lent<T>> + '_ {
        let room = self.room();
        let rooms = if room == 0 { vec![] } else { vec![room / 2, room - 1] };
        rooms.into_iter().map(move |left| self.without(left, room))
    }

    /// All cells, the guards with them.
    fn numbers(&self) -> Vec<i64> {
        self.cells.iter().map(|&cell| cell.into()).collect()
    }
}

/// A call's answer, and every cell of what was lent to it.
pub struct Outcome {
    pub answer: u64,
    runs: Vec<(&'static str, Vec<i64>)>,
}

impl Outcome {
    /// An answer of a call to which nothing was lent.
    pub fn of(answer: u64) -> Outcome {
        Outcome { answer, runs: Vec::new() }
    }

    /// The outcome with what stands in a lent run.
    pub fn and<T: Cell>(mut self, name: &'static str, lent: &Lent<T>) -> Outcome {
        self.runs.push((name, lent.numbers()));
        self
    }

    /// The cells of a lent run, without its guards.
    pub fn cells(&self, name: &str) -> &[i64] {
        let (_, cells) = self.runs.iter().find(|(run, _)| *run == name).expect("a run of this name was lent");
        &cells[GUARD..cells.len() - GUARD]
    }

    /// The first lent cell that differs, in words: cells before 0 and from the run's length on are guards.
    pub fn cell_that_differs(&self, other: &Outcome, whose: &str) -> Option<String> {
        for ((name, ours), (_, theirs)) in self.runs.iter().zip(&other.runs) {
            if let Some(i) = (0..ours.len()).find(|&i| ours[i] != theirs[i]) {
                let (place, room) = (i as i64 - GUARD as i64, ours.len() - 2 * GUARD);
                return Some(format!("{name}[{place}] of {room} is {}, {whose} leaves {}", ours[i], theirs[i]));
            }
        }
        None
    }
}
