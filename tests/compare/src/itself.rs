//! The second program behind the calls' tables.

use second::calls::{partial_list, prune, query, value_at, whole_list, Cube};
use second::dimacs::{read_dimacs, token_step};
use second::host::{host_list, host_pla};
use second::pla::{write_pla, MAX_PLA};
use second::program::output;

use crate::answers::{packed, packed_token};
use crate::calls::{Host, Library, Lists, Query, Records, Texts};

pub const QUERY: Query =
    Query { query: |n, order, sheet, start| packed(query(n, order, sheet, start), |found| found.into_iter().map(u64::from).collect()) };

pub const LISTS: Lists = Lists {
    whole: |n, order, on, off, care, value| packed(whole_list(n, order, on, off, care, value), |count| vec![count as u64]),
    partial: |n, order, on, off, k, care, value| {
        packed(partial_list(n, order, on, off, k, care, value), |partial| vec![partial.count as u64, u64::from(partial.complete)])
    },
    value: |n, count, care, value, setting| packed(value_at(n, care, value, count, setting), |value| vec![u64::from(value)]),
};

pub const TEXTS: Texts = Texts {
    read: |text, numbers| packed(read_dimacs(text, numbers), |reading| vec![u64::from(reading.variables), reading.count as u64]),
    token: |v, text, at| packed_token(token_step(v, text, at)),
    write: |n, count, care, value, text| packed(write_pla(n, count, care, value, text), |length| vec![length as u64]),
    output: |on, off, out| {
        if out.len() < MAX_PLA {
            return 0;
        }
        let printed = output(on, off);
        out[..printed.len()].copy_from_slice(&printed);
        printed.len() as u64
    },
};

pub const HOST: Host = Host { list: host_list, pla: host_pla };

pub const RECORDS: Records = Records { prune: prune_words };

/// Every group, by the second program.
pub const LIBRARY: Library =
    Library { query: Some(QUERY), lists: Some(LISTS), texts: Some(TEXTS), host: Some(HOST), records: Some(RECORDS), quick_lists: None };

/// Pruning of records that stand in three word runs: a mark is set unless it is 0, and comes back as 0 or 1.
fn prune_words(n: u32, count: usize, care: &mut [u32], value: &mut [u32], dropped: &mut [u32]) -> u64 {
    let record = |i: usize| Cube { care: care[i], value: value[i], dropped: dropped[i] != 0 };
    let mut cubes: Vec<Cube> = (0..dropped.len()).map(record).collect();
    let answer = prune(n, &mut cubes, count);
    for (i, cube) in cubes.iter().enumerate() {
        (care[i], value[i], dropped[i]) = (cube.care, cube.value, u32::from(cube.dropped));
    }
    packed(answer, |kept| vec![kept as u64])
}
