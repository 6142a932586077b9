//! Random sheets, pairs of sheets and rewordings.

use crate::random::{damaged_inputs, damaged_order, inputs, order, setting, variable, Random};
use crate::sheets::{clauses, MAX_CLAUSES, MAX_NUMBERS};

/// A literal in form.
pub fn literal(random: &mut Random, n: u32) -> i32 {
    let variable = variable(random, n) as i32;
    random.pick(&[variable, -variable])
}

/// A clause of this many literals, repeats and both signs allowed.
pub fn clause(random: &mut Random, n: u32, length: usize) -> Vec<i32> {
    (0..length).map(|_| literal(random, n)).collect()
}

/// The sheet of these clauses.
pub fn sheet_of_clauses(clauses: &[Vec<i32>]) -> Vec<i32> {
    clauses.iter().flat_map(|clause| clause.iter().copied().chain([0])).collect()
}

/// A well-formed sheet: no clauses, few or many, short or long, now and then an empty or repeated one.
pub fn sheet(random: &mut Random, n: u32) -> Vec<i32> {
    let count = match random.below(5) {
        0 => random.below(3),
        1 => random.below(2 * n as usize + 1),
        2 => random.below(6 * n as usize + 1),
        3 => random.below(60),
        _ => random.below(8),
    };
    let longest = random.between(1, n as usize + 2);
    let mut made: Vec<Vec<i32>> = Vec::new();
    for _ in 0..count {
        let length = random.between(1, longest);
        let again = !made.is_empty() && random.chance(5);
        let next = if again { random.pick(&made) } else { clause(random, n, length) };
        made.push(next);
    }
    if random.chance(4) {
        made.insert(random.below(made.len() + 1), Vec::new());
    }
    sheet_of_clauses(&made)
}

/// A well-formed sheet of exactly 8,192 numbers or exactly 1,024 clauses.
pub fn full_sheet(random: &mut Random, n: u32) -> Vec<i32> {
    if random.chance(50) {
        let mut made: Vec<i32> = (0..MAX_NUMBERS).map(|_| literal(random, n)).collect();
        for _ in 0..random.below(MAX_CLAUSES) {
            made[random.below(MAX_NUMBERS)] = 0;
        }
        made[MAX_NUMBERS - 1] = 0;
        return made;
    }
    let made: Vec<Vec<i32>> = (0..MAX_CLAUSES)
        .map(|_| {
            let length = random.between(1, 7);
            clause(random, n, length)
        })
        .collect();
    sheet_of_clauses(&made)
}

/// A sheet that is not well formed.
pub fn damaged_sheet(random: &mut Random, n: u32) -> Vec<i32> {
    let reach = n as i32;
    let mut sheet = sheet(random, n);
    let place = random.below(sheet.len() + 1);
    match random.below(6) {
        0 => sheet.splice(place..place, [i32::MIN, 0]).for_each(drop),
        1 => sheet.splice(place..place, [random.pick(&[reach + 1, -reach - 1, i32::MAX, -i32::MAX]), 0]).for_each(drop),
        2 => sheet.push(literal(random, n)),
        3 => {
            sheet = vec![literal(random, n); MAX_NUMBERS];
            sheet.push(0);
        }
        4 => sheet = sheet_of_clauses(&vec![vec![literal(random, n)]; MAX_CLAUSES + 1]),
        _ => sheet = vec![0; MAX_CLAUSES + random.between(1, 3)],
    }
    sheet
}

/// The clause that this setting alone falsifies.
pub fn barring(n: u32, setting: u32) -> Vec<i32> {
    (1..=n as i32).map(|v| if setting >> (v - 1) & 1 == 1 { -v } else { v }).collect()
}

/// The sheet, of one full clause for each other setting, that exactly the wanted settings satisfy; it fits while n is at most 9.
pub fn sheet_of_settings(n: u32, wanted: &[bool]) -> Vec<i32> {
    let barred: Vec<Vec<i32>> = (0..1 << n).filter(|&s| !wanted[s as usize]).map(|s| barring(n, s)).collect();
    sheet_of_clauses(&barred)
}

/// The sheet of odd parity, or of even parity.
pub fn parity(n: u32, odd: bool) -> Vec<i32> {
    let wanted: Vec<bool> = (0..1u32 << n).map(|s| (s.count_ones() % 2 == 1) == odd).collect();
    sheet_of_settings(n, &wanted)
}

/// What a list call takes beside its room.
#[derive(Clone, PartialEq, Eq, Debug)]
pub struct Pair {
    pub n: u32,
    pub order: Vec<u32>,
    pub on: Vec<i32>,
    pub off: Vec<i32>,
}

/// Sheets of two random sets of settings without a shared one: each setting on, off or neither by the percentages.
pub fn parted_by_settings(random: &mut Random, n: u32, on: usize, off: usize) -> (Vec<i32>, Vec<i32>) {
    let draws: Vec<usize> = (0..1 << n).map(|_| random.below(100)).collect();
    let is_on: Vec<bool> = draws.iter().map(|&d| d < on).collect();
    let is_off: Vec<bool> = draws.iter().map(|&d| d >= on && d < on + off).collect();
    (sheet_of_settings(n, &is_on), sheet_of_settings(n, &is_off))
}

/// Sheets parted by one clause: on has it, off denies each of its literals; beside that both are random.
pub fn parted_by_clause(random: &mut Random, n: u32) -> (Vec<i32>, Vec<i32>) {
    let length = random.between(1, 3);
    let parting = clause(random, n, length);
    let mut on = sheet(random, n);
    let mut off = sheet(random, n);
    on.extend(parting.iter().copied().chain([0]));
    off.extend(parting.iter().flat_map(|&literal| [-literal, 0]));
    if random.chance(50) {
        (off, on)
    } else {
        (on, off)
    }
}

/// Sheets that decide every setting: a few short clauses, and each choice of one literal from every clause, turned round.
pub fn parted_by_choices(random: &mut Random, n: u32) -> (Vec<i32>, Vec<i32>) {
    let (mut chosen_from, mut choices) = (Vec::new(), vec![Vec::new()]);
    for _ in 0..random.between(2, 8) {
        let length = random.between(1, 4);
        let next = clause(random, n, length);
        let longer = |choice: &Vec<i32>| next.iter().map(|&literal| [&choice[..], &[-literal]].concat()).collect::<Vec<_>>();
        let more: Vec<Vec<i32>> = choices.iter().flat_map(longer).collect();
        if !fits(&more) {
            break;
        }
        choices = more;
        chosen_from.push(next);
    }
    let (on, off) = (sheet_of_clauses(&chosen_from), sheet_of_clauses(&choices));
    if random.chance(50) {
        (off, on)
    } else {
        (on, off)
    }
}

/// The sheet with variable i called by the i-th of these names.
pub fn renamed(sheet: &[i32], names: &[u32]) -> Vec<i32> {
    sheet.iter().map(|&l| if l == 0 { 0 } else { l.signum() * names[l.unsigned_abs() as usize - 1] as i32 }).collect()
}

/// Some variables of n, at most so many, each once.
pub fn chosen(random: &mut Random, n: u32, most: usize) -> Vec<u32> {
    let mut names: Vec<u32> = (1..=n).collect();
    random.shuffle(&mut names);
    names.truncate(most);
    names
}

/// Sheets parted by the parity of a few variables, beside that random; or, seldom, of up to ten.
pub fn parted_by_parity(random: &mut Random, n: u32) -> (Vec<i32>, Vec<i32>) {
    let many = random.chance(10);
    let most = if many { 10 } else { random.between(1, 4) };
    let names = chosen(random, n, most);
    let few = names.len() as u32;
    let mut on = renamed(&parity(few, true), &names);
    let mut off = renamed(&parity(few, false), &names);
    if !many && random.chance(70) {
        on.extend(sheet(random, n));
        off.extend(sheet(random, n));
    }
    (on, off)
}

/// Sheets of two sets of settings that share at least one.
pub fn sharing_a_setting(random: &mut Random, n: u32, on: usize) -> (Vec<i32>, Vec<i32>) {
    let shared = setting(random, n) as usize;
    let mut is_on: Vec<bool> = (0..1 << n).map(|_| random.chance(on)).collect();
    let mut is_off: Vec<bool> = is_on.iter().map(|on| !on).collect();
    is_on[shared] = true;
    is_off[shared] = true;
    (sheet_of_settings(n, &is_on), sheet_of_settings(n, &is_off))
}

/// A well-formed pair on at most so many inputs: free, parted in one of several ways, or with one shared setting.
pub fn pair(random: &mut Random, most: u32) -> Pair {
    let n = inputs(random, most);
    pair_on(random, n)
}

/// The same on n inputs.
pub fn pair_on(random: &mut Random, n: u32) -> Pair {
    let names = chosen(random, n, 9);
    let few = names.len() as u32;
    let percent = random.below(101);
    let by_settings = |(on, off): (Vec<i32>, Vec<i32>)| (renamed(&on, &names), renamed(&off, &names));
    let (on, off) = match random.below(8) {
        0 if random.chance(10) => (full_sheet(random, n), full_sheet(random, n)),
        0 => (sheet(random, n), sheet(random, n)),
        1 | 2 => by_settings(parted_by_settings(random, few, percent, 100 - percent)),
        3 | 4 => by_settings(parted_by_settings(random, few, percent, (100 - percent) / 2)),
        5 => by_settings(sharing_a_setting(random, few, percent)),
        6 => parted_by_parity(random, n),
        _ => parted_by_clause(random, n),
    };
    Pair { n, order: order(random, n), on, off }
}

/// A pair with one to four of its parts damaged.
pub fn damaged_pair(random: &mut Random, most: u32) -> Pair {
    let mut pair = pair(random, most);
    let n = pair.n;
    let sure = random.below(4);
    for part in 0..4 {
        if part != sure && !random.chance(20) {
            continue;
        }
        match part {
            0 => pair.n = damaged_inputs(random),
            1 => pair.order = damaged_order(random, n),
            2 => pair.on = damaged_sheet(random, n),
            _ => pair.off = damaged_sheet(random, n),
        }
    }
    pair
}

/// Whether the clauses make a sheet within its limits.
fn fits(clauses: &[Vec<i32>]) -> bool {
    clauses.len() <= MAX_CLAUSES && sheet_of_clauses(clauses).len() <= MAX_NUMBERS
}

/// One rewording that leaves the satisfying settings as they are.
fn reword_once(random: &mut Random, n: u32, clauses: &mut Vec<Vec<i32>>) {
    let place = random.below(clauses.len().max(1));
    let literal = literal(random, n);
    match random.below(5) {
        0 => {
            let mut both_signs = clause(random, n, 2);
            both_signs.extend([literal, -literal]);
            clauses.push(both_signs);
        }
        _ if clauses.is_empty() => {}
        1 if !clauses[place].is_empty() => {
            let repeated = random.pick(&clauses[place]);
            clauses[place].push(repeated);
        }
        2 => clauses.push(clauses[place].clone()),
        3 => {
            let mut weaker = clauses[place].clone();
            weaker.push(literal);
            clauses.push(weaker);
        }
        _ => {
            let mut other = clauses[place].clone();
            other.push(-literal);
            clauses[place].push(literal);
            clauses.push(other);
        }
    }
}

/// A twin of a well-formed sheet: other words, the same settings.
pub fn reworded(random: &mut Random, n: u32, sheet: &[i32]) -> Vec<i32> {
    let mut made: Vec<Vec<i32>> = clauses(sheet).iter().map(|clause| clause.to_vec()).collect();
    for _ in 0..random.between(1, 12) {
        let before = made.clone();
        reword_once(random, n, &mut made);
        if !fits(&made) {
            made = before;
        }
    }
    for clause in &mut made {
        random.shuffle(clause);
    }
    random.shuffle(&mut made);
    sheet_of_clauses(&made)
}
