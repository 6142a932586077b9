//! The same question on words and on bytes: both calls of the library give the same rows.

use second::host::{bytes_of, unsigned, words_of};
use second::random::Random;
use second::random_sheets::Pair;

use crate::answers::{first, host_kind, kind};
use crate::calls::{Host, Lists};
use crate::driver::Tally;
use crate::host::HOST_LIST;
use crate::itself;
use crate::pairs::{drawn_pair, drawn_rooms};
use crate::shrink::pair_shown;

/// What a list call comes to: its kind, its payload, and both runs as words.
#[derive(PartialEq, Eq, Debug)]
struct Given {
    kind: String,
    payload: u32,
    care: Vec<u32>,
    value: Vec<u32>,
}

/// The kind of a result of so many rows.
fn result(count: u32) -> &'static str {
    if count == 0 {
        "no rows"
    } else {
        "rows"
    }
}

/// The call on words.
fn by_words(lists: &Lists, pair: &Pair, care: &[u32], value: &[u32]) -> Given {
    let (mut care, mut value) = (care.to_vec(), value.to_vec());
    let answer = (lists.whole)(pair.n, &pair.order, &pair.on, &pair.off, &mut care, &mut value);
    let payload = first(answer) as u32;
    Given { kind: kind(answer, result(payload)), payload, care, value }
}

/// The call on bytes.
fn by_bytes(host: &Host, pair: &Pair, care: &[u32], value: &[u32]) -> Given {
    let (on, off) = (bytes_of(&unsigned(&pair.on)), bytes_of(&unsigned(&pair.off)));
    let (mut care, mut value) = (bytes_of(care), bytes_of(value));
    let answer = (host.list)(pair.n, &bytes_of(&pair.order), &on, &off, &mut care, &mut value);
    let payload = answer as u32;
    Given { kind: host_kind(answer, result(payload)), payload, care: words_of(&care), value: words_of(&value) }
}

/// Asks both calls this many random pairs; what was met, or in words what differs.
pub fn compare_both(lists: &Lists, host: &Host, count: usize, seed: u64) -> Result<Tally, String> {
    print!("words-and-bytes: {count} cases, ");
    let mut random = Random::seeded(seed);
    let mut tally = Tally::new();
    for number in 1..=count {
        let pair = drawn_pair(&mut random);
        let (care, value) = drawn_rooms(&mut random, &itself::LISTS, &pair, None);
        let care: Vec<u32> = (0..care).map(|_| random.word()).collect();
        let value: Vec<u32> = (0..value).map(|_| random.word()).collect();
        let (words, bytes) = (by_words(lists, &pair, &care, &value), by_bytes(host, &pair, &care, &value));
        if words != bytes {
            let shown = pair_shown(&pair);
            return Err(format!("case {number}, seed {seed}: on words {words:?}\non bytes {bytes:?}\n{shown}"));
        }
        *tally.entry(words.kind).or_default() += 1;
    }
    HOST_LIST.all_met(tally)
}
