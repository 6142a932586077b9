//! Demands 2 and 3 on random pairs, and the generators' own promises.

use second::calls::{partial_list, prune, query, value_at, whole_list, Cube, Partial};
use second::dimacs::read_dimacs;
use second::host::{bytes_of, host_list, host_pla, unsigned, words_of};
use second::pla::{read_at, write_pla, MAX_PLA};
use second::program::output;
use second::random::{
    damaged_inputs, damaged_order, damaged_row_list, damaged_setting, inputs, lent_words, order, room, row, row_list, rows_asked, setting,
    Random,
};
use second::random_sheets::{damaged_pair, damaged_sheet, full_sheet, pair, parted_by_settings, reworded, sheet, Pair};
use second::random_texts::{any_text, text};
use second::refusal::{Answer, Refusal};
use second::sheets::{table, well_formed};
use second::words::{compare, held, order_in_form, settings, Row};

/// The whole list's rows.
fn list(pair: &Pair) -> Answer<Vec<Row>> {
    let (mut care, mut value) = ([0; 256], [0; 256]);
    let count = whole_list(pair.n, &pair.order, &pair.on, &pair.off, &mut care, &mut value)?;
    Ok((0..count).map(|i| Row { care: care[i], value: value[i] }).collect())
}

#[test]
fn settings_come_smallest_first_and_a_row_has_those_it_holds() {
    let mut random = Random::seeded(12);
    for _ in 0..100 {
        let Pair { n, order, .. } = pair(&mut random, 8);
        let mut all: Vec<u32> = (0..1 << n).collect();
        all.sort_by(|&a, &b| compare(&order, a, b));
        assert_eq!(settings(&order), all);
        let row = row(&mut random, n, 50);
        assert_eq!(row.settings(n).collect::<Vec<u32>>(), (0..1 << n).filter(|&s| row.holds(s)).collect::<Vec<u32>>());
    }
}

#[test]
fn demand_2_holds() {
    let mut random = Random::seeded(2);
    let (mut accepted, mut collided) = (0, 0);
    for _ in 0..600 {
        let pair = pair(&mut random, 8);
        let (on, off) = (table(pair.n, &pair.on), table(pair.n, &pair.off));
        let both: Vec<u32> = (0..1 << pair.n).filter(|&s| on[s as usize] && off[s as usize]).collect();
        let smallest = both.iter().copied().min_by(|&a, &b| compare(&pair.order, a, b));
        let rows = match list(&pair) {
            Ok(rows) => rows,
            Err(refusal) => {
                assert_eq!(Some(refusal), smallest.map(Refusal::Collision));
                collided += 1;
                continue;
            }
        };
        accepted += 1;
        assert_eq!(smallest, None);
        for s in 0..1 << pair.n {
            assert!(!on[s as usize] || held(&rows, s), "every on setting lies in some row");
            assert!(!off[s as usize] || !held(&rows, s), "no off setting lies in any");
        }
        for (i, row) in rows.iter().enumerate() {
            let kept = (1..=pair.n).filter(|v| row.care >> (v - 1) & 1 == 1);
            let crosses = |v: u32| row.without(v).settings(pair.n).any(|s| off[s as usize]);
            assert!(kept.into_iter().all(crosses), "no row can lose a literal");
            let others: Vec<Row> = (0..rows.len()).filter(|&j| j != i).map(|j| rows[j]).collect();
            assert!(row.settings(pair.n).any(|s| !held(&others, s)), "none can be left out without losing a setting");
        }
    }
    println!("{accepted} accepted, {collided} collided");
    assert!(accepted > 100 && collided > 50);
}

#[test]
fn demand_3_holds_of_texts() {
    let mut random = Random::seeded(3);
    for _ in 0..300 {
        let mut pair = pair(&mut random, 7);
        pair.order.sort();
        let on_text = text(&mut random, pair.n, &pair.on);
        let off_text = text(&mut random, pair.n, &pair.off);
        let printed = output(&on_text, &off_text);
        let rows = match list(&pair) {
            Ok(rows) => rows,
            Err(_) => {
                assert!(printed.starts_with(b"refused ") && printed.ends_with(b"\n"));
                continue;
            }
        };
        let (on, off) = (table(pair.n, &pair.on), table(pair.n, &pair.off));
        for s in 0..1 << pair.n {
            let said = read_at(&printed, s).unwrap();
            assert!(!on[s as usize] || said == 1);
            assert!(!off[s as usize] || said == 0);
            assert_eq!(said == 1, held(&rows, s));
        }
    }
}

#[test]
fn reworded_twins_are_equal() {
    let mut random = Random::seeded(4);
    for _ in 0..300 {
        let first = pair(&mut random, 7);
        let on = reworded(&mut random, first.n, &first.on);
        let off = reworded(&mut random, first.n, &first.off);
        assert!(well_formed(first.n, &on) && well_formed(first.n, &off));
        assert_eq!((table(first.n, &on), table(first.n, &off)), (table(first.n, &first.on), table(first.n, &first.off)));
        let start = setting(&mut random, first.n);
        assert_eq!(query(first.n, &first.order, &on, start), query(first.n, &first.order, &first.on, start));
        let twin = Pair { on, off, ..first.clone() };
        assert_eq!(list(&first), list(&twin));
    }
}

#[test]
fn equal_lists_of_decided_pairs_have_equal_on_settings() {
    let mut random = Random::seeded(11);
    for _ in 0..300 {
        let n = inputs(&mut random, 4);
        let order = order(&mut random, n);
        let mut decided = || {
            let (on, off) = parted_by_settings(&mut random, n, 50, 50);
            Pair { n, order: order.clone(), on, off }
        };
        let (first, second) = (decided(), decided());
        let lists = (list(&first).unwrap(), list(&second).unwrap());
        assert_eq!(lists.0 == lists.1, table(n, &first.on) == table(n, &second.on));
    }
}

#[test]
fn partial_lists_are_beginnings() {
    let mut random = Random::seeded(5);
    for _ in 0..200 {
        let pair = pair(&mut random, 7);
        let (mut care, mut value) = ([7; 256], [7; 256]);
        let all = partial_list(pair.n, &pair.order, &pair.on, &pair.off, 256, &mut care, &mut value);
        let k = rows_asked(&mut random).min(256);
        let lent = lent_words(&mut random, k + 2);
        let (mut some_care, mut some_value) = (lent.clone(), lent.clone());
        let some = partial_list(pair.n, &pair.order, &pair.on, &pair.off, k, &mut some_care, &mut some_value);
        match all {
            Err(refusal) => assert_eq!(some, Err(refusal)),
            Ok(Partial { count: total, complete }) => {
                assert!(complete);
                let count = k.min(total);
                assert_eq!(some, Ok(Partial { count, complete: total <= k }));
                assert_eq!([&care[..count], &lent[count..]].concat(), some_care);
                assert_eq!([&value[..count], &lent[count..]].concat(), some_value);
            }
        }
    }
}

#[test]
fn pruning_loses_no_setting() {
    let mut random = Random::seeded(6);
    for _ in 0..300 {
        let n = inputs(&mut random, 6);
        let list = row_list(&mut random, n, 20);
        let rows: Vec<Row> = (0..list.count).map(|i| Row { care: list.care[i], value: list.value[i] }).collect();
        let mut cubes: Vec<Cube> = rows.iter().map(|row| Cube { care: row.care, value: row.value, dropped: random.chance(50) }).collect();
        let kept = prune(n, &mut cubes, list.count).unwrap();
        let left: Vec<Row> = (0..list.count).filter(|&i| !cubes[i].dropped).map(|i| rows[i]).collect();
        assert_eq!(kept, left.len());
        for s in 0..1 << n {
            let value = value_at(n, &list.care, &list.value, list.count, s).unwrap();
            assert_eq!((value == 1, value == 1), (held(&rows, s), held(&left, s)));
        }
        let mut written = [0; MAX_PLA];
        let length = write_pla(n, list.count, &list.care, &list.value, &mut written).unwrap();
        let s = setting(&mut random, n);
        assert_eq!(read_at(&written[..length], s), value_at(n, &list.care, &list.value, list.count, s).ok());
    }
}

#[test]
fn byte_runs_answer_as_words_do() {
    let mut random = Random::seeded(7);
    for _ in 0..300 {
        let pair = if random.chance(30) { damaged_pair(&mut random, 6) } else { pair(&mut random, 6) };
        let rooms = [room(&mut random, 6), room(&mut random, 6)];
        let (mut care, mut value) = (lent_words(&mut random, rooms[0]), lent_words(&mut random, rooms[1]));
        let (mut care_bytes, mut value_bytes) = (bytes_of(&care), bytes_of(&value));
        let answer = whole_list(pair.n, &pair.order, &pair.on, &pair.off, &mut care, &mut value);
        let order = bytes_of(&pair.order);
        let (on, off) = (bytes_of(&unsigned(&pair.on)), bytes_of(&unsigned(&pair.off)));
        let number = host_list(pair.n, &order, &on, &off, &mut care_bytes, &mut value_bytes);
        assert_eq!((words_of(&care_bytes), words_of(&value_bytes)), (care.clone(), value.clone()));
        match answer {
            Ok(count) => {
                assert_eq!(number, count as u64);
                let (mut text, mut text_again) = ([7; 300], [7; 300]);
                let length = write_pla(pair.n, count, &care, &value, &mut text);
                let again = host_pla(pair.n, count as u32, &care_bytes, &value_bytes, &mut text_again);
                assert_eq!((length.map_or_else(|r| u64::from(r.number()) << 32, |l| l as u64), text), (again, text_again));
            }
            Err(refusal) => assert_eq!(number >> 32, u64::from(refusal.number())),
        }
    }
}

#[test]
fn generators_keep_their_word() {
    let mut random = Random::seeded(8);
    for _ in 0..300 {
        let n = inputs(&mut random, 24);
        assert!(order_in_form(n, &order(&mut random, n)));
        assert!(!order_in_form(n, &damaged_order(&mut random, n)));
        assert!(!(1..=24).contains(&damaged_inputs(&mut random)));
        assert!(well_formed(n, &sheet(&mut random, n)));
        assert!(well_formed(n, &full_sheet(&mut random, n)));
        assert!(!well_formed(n, &damaged_sheet(&mut random, n)));
        let good = pair(&mut random, 24);
        assert!(well_formed(good.n, &good.on) && well_formed(good.n, &good.off));
        let bad = damaged_pair(&mut random, 24);
        assert!((1..=4).contains(&whole_list(bad.n, &bad.order, &bad.on, &bad.off, &mut [], &mut []).unwrap_err().number()));
        let list = row_list(&mut random, n, 30);
        assert!(value_at(n, &list.care, &list.value, list.count, setting(&mut random, n)).is_ok());
        let past = damaged_setting(&mut random, n);
        assert_eq!(value_at(n, &list.care, &list.value, list.count, past), Err(Refusal::Number(9)));
        let list = damaged_row_list(&mut random, n, 30);
        assert_eq!(value_at(n, &list.care, &list.value, list.count, 0), Err(Refusal::Number(8)));
    }
}

#[test]
fn written_texts_read_back() {
    let mut random = Random::seeded(9);
    for _ in 0..300 {
        let n = inputs(&mut random, 24);
        let sheet = sheet(&mut random, n);
        let text = text(&mut random, n, &sheet);
        let mut numbers = [0; 8192];
        let reading = read_dimacs(&text, &mut numbers).unwrap();
        assert_eq!((reading.variables, &numbers[..reading.count]), (n, &sheet[..]));
    }
}

#[test]
fn texts_of_any_kind_meet_every_answer() {
    let mut random = Random::seeded(10);
    let mut met = [0; 16];
    for _ in 0..3000 {
        let text = any_text(&mut random, 24);
        let mut numbers = vec![7; 8192];
        match read_dimacs(&text, &mut numbers) {
            Ok(_) => met[0] += 1,
            Err(refusal) => {
                met[refusal.number() as usize] += 1;
                assert!(numbers.iter().all(|&x| x == 7));
            }
        }
    }
    println!("{met:?}");
    assert!([0, 10, 11, 12, 13, 15].iter().all(|&number| met[number] > 10));
}
