//! The comparison itself: the second program passes, kinds that are not met fail, and the cases are what they are meant to be.

use compare::answers::pack;
use compare::calls::{Library, Lists, Query};
use compare::catalogue::entries;
use compare::driver::{Call, Case, Worked};
use compare::families::pair_to_24;
use compare::itself::{LIBRARY, LISTS, QUERY as SECOND};
use compare::lent::Lent;
use compare::lists::{ListCase, PARTIAL, WHOLE};
use compare::pairs::pair_to_16;
use compare::plain::LISTS as PLAIN;
use compare::query::{QueryCase, QUERY};
use compare::records::PRUNE;
use compare::shrink::{fewer, parts, sheet_without, smaller_sheet, word_without};
use compare::worked::queries;
use second::random::Random;
use second::random_sheets::Pair;
use second::sheets::{table, well_formed};
use second::words::{inputs_in_form, order_in_form, Row};

/// Every call of the library is compared 1,500 times, but for those on many inputs, which take long.
fn all_pass(library: Library) {
    for entry in entries(library).into_iter().filter(|entry| entry.group != "many") {
        let tally = (entry.run)(1500, 11).unwrap();
        println!("{tally:?}");
        assert_eq!(tally.values().sum::<usize>(), 1500);
    }
}

#[test]
fn the_second_program_passes() {
    all_pass(LIBRARY);
}

#[test]
fn the_plain_program_passes() {
    let lists = Some(PLAIN);
    all_pass(Library { query: None, lists, texts: None, host: None, records: None, quick_lists: lists });
}

#[test]
fn worked_cases_come_first() {
    let words = QUERY.compare(&Query { query: |_, _, _, _| 0 }, 1, 1).unwrap_err();
    assert!(words.starts_with("query P12 from 000: "));
}

#[test]
fn a_worked_case_must_come_out_as_stated() {
    let other: fn(&mut Random) -> Vec<Worked<QueryCase>> = |random| {
        let stated = |case: Worked<QueryCase>| Worked { said: "110", ..case };
        queries(random).into_iter().map(stated).collect()
    };
    let words = Call { worked: other, ..QUERY }.compare(&SECOND, 1, 1).unwrap_err();
    assert_eq!(words, "query P12 from 000: 001, but document 01 says 110");
}

/// A list call that goes by the wording: both signs in a first clause of two are refused.
const BY_WORDING: Lists = Lists {
    whole: |n, order, on, off, care, value| match on {
        [a, b, 0, ..] if a + b == 0 => pack(7, &[]),
        _ => (LISTS.whole)(n, order, on, off, care, value),
    },
    ..LISTS
};

/// The whole list on one pair, whose twin begins with both signs of a variable.
const WITH_TWIN: Call<ListCase> = Call {
    draw: |random| {
        let pair = Pair { n: 1, order: vec![1], on: vec![1, 0], off: vec![-1, 0] };
        let twin = Pair { on: vec![1, -1, 0, 1, 0], ..pair.clone() };
        ListCase { pair, reworded: Some(twin), k: None, care: Lent::filled(random, 1), value: Lent::filled(random, 1) }
    },
    ..WHOLE
};

#[test]
fn a_twin_is_compared() {
    let words = WITH_TWIN.compare(&BY_WORDING, 1, 1).unwrap_err();
    assert!(words.contains("answers refused 7") && words.contains("on 1 -1 0"), "the twin is what differs");
}

#[test]
fn a_twin_is_compared_with_the_first_wording() {
    let words = Call { second: BY_WORDING, ..WITH_TWIN }.compare(&BY_WORDING, 1, 1).unwrap_err();
    assert!(words.contains("a reworded twin: answers refused 7") && words.contains("and its twin"));
}

#[test]
fn a_kind_that_is_not_met_fails() {
    let words = QUERY.compare(&SECOND, 3, 1).unwrap_err();
    assert!(words.contains("never met") && words.contains("refused"));
}

#[test]
fn lists_meet_every_room_and_k() {
    let mut random = Random::seeded(21);
    let (mut exact, mut short, mut decided, mut undecided, mut twins, mut turned) = (0, 0, 0, 0, 0, 0);
    let mut ks = [0; 258];
    for i in 0..4000 {
        let call = if i % 2 == 0 { WHOLE } else { PARTIAL };
        let case = (call.draw)(&mut random);
        let outcome = case.call(&call.second);
        let room = case.care.room().min(case.value.room());
        let kind = case.kind(&outcome);
        if outcome.answer >> 56 == 0 && outcome.answer as u32 as usize == room && room > 0 {
            exact += 1;
        }
        short += usize::from(kind == "refused 15");
        ks[case.k.unwrap_or(0).min(257)] += 1;
        twins += usize::from(case.twin().is_some());
        let pair = &case.pair;
        if inputs_in_form(pair.n) && pair.n <= 10 && well_formed(pair.n, &pair.on) && well_formed(pair.n, &pair.off) {
            turned += usize::from(order_in_form(pair.n, &pair.order) && pair.order.windows(2).any(|two| two[0] > two[1]));
            let (on, off) = (table(pair.n, &pair.on), table(pair.n, &pair.off));
            match (0..on.len()).all(|s| on[s] || off[s]) {
                true => decided += 1,
                false => undecided += 1,
            }
        }
    }
    println!("{exact} exact, {short} short, {decided} decided, {undecided} undecided, {twins} twins, {turned} turned");
    assert!([exact, short, decided, undecided, twins, turned].iter().all(|&met| met > 200));
    assert!([0, 1, 2, 255, 256, 257].iter().all(|&k| ks[k] > 0) && ks[12..255].iter().sum::<usize>() > 100);
}

#[test]
fn many_inputs_are_met() {
    let mut random = Random::seeded(23);
    let draws: [(fn(&mut Random) -> Pair, _); 2] = [(pair_to_16, 11..=16), (pair_to_24, 17..=24)];
    for (draw, inputs) in draws {
        let mut met = [0; 25];
        for _ in 0..1000 {
            let Pair { n, order, on, off } = draw(&mut random);
            assert!(order_in_form(n, &order) && well_formed(n, &on) && well_formed(n, &off));
            met[n as usize] += 1;
        }
        println!("{met:?}");
        assert!((0..25).all(|n| (met[n] > 20) == inputs.contains(&n)));
    }
}

#[test]
fn records_meet_every_count_and_row() {
    let mut random = Random::seeded(22);
    let (mut twice, mut inside, mut bad_rows, mut bad_inputs, mut marked, mut odd) = (0, 0, 0, 0, 0, 0);
    let mut counts = [0; 258];
    let mut refused_counts = 0;
    for _ in 0..5000 {
        let case = (PRUNE.draw)(&mut random);
        let refusal = case.call(&PRUNE.second).answer >> 56;
        let count = case.count.min(257);
        let rows: Vec<Row> = (0..count.min(256)).map(|i| Row { care: case.care.held()[i], value: case.value.held()[i] }).collect();
        let within = |a: &Row, b: &Row| a.care & b.care == b.care && a.value & b.care == b.value;
        let pairs = || (1..rows.len()).flat_map(|i| (0..i).map(move |j| (j, i)));
        counts[count] += usize::from(refusal != 1);
        refused_counts += usize::from(case.count > 256 && refusal == 8);
        bad_rows += usize::from(case.count <= 256 && refusal == 8);
        bad_inputs += usize::from(refusal == 1);
        twice += usize::from(refusal == 0 && pairs().any(|(j, i)| rows[j] == rows[i]));
        inside += usize::from(
            refusal == 0 && pairs().any(|(j, i)| rows[j] != rows[i] && (within(&rows[j], &rows[i]) || within(&rows[i], &rows[j]))),
        );
        marked += usize::from(case.dropped.held()[..count.min(256)].iter().any(|&mark| mark != 0));
        odd += usize::from(case.dropped.held().iter().any(|&mark| mark > 1));
    }
    println!(
        "{twice} with equal rows, {inside} with rows within others, {bad_rows} bad rows, {bad_inputs} bad n, {refused_counts} bad counts"
    );
    println!("{marked} marked before, {odd} by other words; counts 0: {}, 256: {}", counts[0], counts[256]);
    assert!([twice, inside, bad_rows, bad_inputs, refused_counts, marked, odd].iter().all(|&met| met > 200));
    assert!([0, 1, 2, 255, 256, 257].iter().all(|&count| counts[count] > 50) && counts[13..255].iter().sum::<usize>() > 100);
}

#[test]
fn smaller_runs_are_smaller() {
    assert_eq!(parts(0).count(), 0);
    assert_eq!(parts(1).collect::<Vec<_>>(), [(0, 1)]);
    assert_eq!(fewer(&[1, 2, 3]).collect::<Vec<_>>(), [vec![2, 3], vec![1, 3], vec![1, 2]]);
    let sheet = [1, 2, 0, -3, 0];
    let smaller: Vec<Vec<i32>> = smaller_sheet(&sheet).collect();
    assert!(smaller.contains(&vec![-3, 0]) && smaller.contains(&vec![1, 2, 0]) && smaller.contains(&vec![1, 0, -3, 0]));
    assert!(smaller.iter().all(|smaller| smaller.len() < sheet.len()));
    assert_eq!(sheet_without(&sheet, 2), [1, 0, -2, 0]);
    assert_eq!(word_without(0b1011, 2), 0b101);
}
