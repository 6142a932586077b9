//! `compare GROUP COUNT SEED`, `compare all`: see the usage below.

use std::env::args;
use std::process::ExitCode;
use std::time::{Instant, SystemTime, UNIX_EPOCH};

use compare::calls::LIBRARY;
use compare::catalogue::{entries, Entry};
use compare::driver::Tally;

const USAGE: &str = "compare GROUP COUNT SEED   so many cases of each call of a group, or of one call; seed 0: from the clock
compare all [SEED]         every call that was built in, with the gate's amounts; seed 1 unless given
build with --features self, or with some of: query lists texts host records";

/// The seed, or one from the clock for 0.
fn chosen(seed: u64) -> u64 {
    let clock = || SystemTime::now().duration_since(UNIX_EPOCH).map_or(1, |since| since.as_nanos() as u64 | 1);
    if seed == 0 {
        clock()
    } else {
        seed
    }
}

/// What the command line asks for: a count and a seed for each call.
fn asked(words: &[String], entries: Vec<Entry>) -> Option<Vec<(usize, u64, Entry)>> {
    let number = |word: &String| word.parse::<u64>().ok();
    let (name, count, seed) = match words {
        [all] if all == "all" => (all, None, 1),
        [all, seed] if all == "all" => (all, None, chosen(number(seed)?)),
        [name, count, seed] => (name, Some(number(count)? as usize), chosen(number(seed)?)),
        _ => return None,
    };
    let named = entries.into_iter().filter(|entry| [entry.group, entry.name, "all"].contains(&name.as_str()));
    Some(named.map(|entry| (count.unwrap_or(entry.amount), seed, entry)).collect())
}

/// A tally on one line.
fn listed(tally: &Tally) -> String {
    let kinds: Vec<String> = tally.iter().map(|(kind, met)| format!("{kind}: {met}")).collect();
    kinds.join(", ")
}

fn main() -> ExitCode {
    let words: Vec<String> = args().skip(1).collect();
    let runs = asked(&words, entries(LIBRARY)).unwrap_or_default();
    if runs.is_empty() {
        eprintln!("{USAGE}");
        return ExitCode::from(2);
    }
    if cfg!(feature = "self") {
        println!("the second program against itself: this tests the comparison alone");
    }
    for (count, seed, entry) in runs {
        let began = Instant::now();
        match (entry.run)(count, seed) {
            Ok(tally) => println!("  {}\n  equal in all, {:.1} s", listed(&tally), began.elapsed().as_secs_f64()),
            Err(what) => {
                println!("{what}");
                return ExitCode::from(1);
            }
        }
    }
    ExitCode::SUCCESS
}
