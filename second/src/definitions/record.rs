//! The record of a branch: 52 bytes, in both directions.

use crate::definitions::network::{members, Excess, Group, Verdict};

pub const SIZE: usize = 52;
const GROUP: usize = 4;
const REROUTE: usize = 20;

/// The bytes of a record; `reroute` names branches and is given for a carrying branch only. Byte 0 is 0 out of service, 1 where
/// it carries, 2 where it is short and joined, 3 where it is short and would island.
pub fn bytes(verdict: Verdict, reroute: &[usize]) -> [u8; SIZE] {
    let mut record = [0; SIZE];
    match verdict {
        Verdict::Out => {}
        Verdict::Carries => {
            record[0] = 1;
            for branch in reroute {
                record[REROUTE + branch / 8] |= 1 << (7 - branch % 8);
            }
        }
        Verdict::Short(excess) => put_short(&mut record, 2, excess),
        Verdict::Islands(excess) => put_short(&mut record, 3, excess),
    }
    record
}

/// A short branch's byte 0, shortage and group. Byte 0 alone says whether it would island.
fn put_short(record: &mut [u8; SIZE], byte_0: u8, excess: Excess) {
    record[0] = byte_0;
    record[1..4].copy_from_slice(&(excess.amount as u32).to_be_bytes()[1..]);
    for bus in members(excess.group) {
        record[GROUP + bus / 8] |= 1 << (7 - bus % 8);
    }
}

/// Whether the record shows its branch as short, islanding or not.
pub fn is_short(record: &[u8]) -> bool {
    [2, 3].contains(&record[0])
}

pub fn shortage(record: &[u8]) -> i64 {
    record[1..4].iter().fold(0, |value, &byte| value << 8 | byte as i64)
}

pub fn group(record: &[u8]) -> Group {
    (0..128).filter(|bus| record[GROUP + bus / 8] >> (7 - bus % 8) & 1 == 1).fold(0, |group, bus| group | 1 << bus)
}

/// Whether the record's reroute names a branch.
pub fn names(record: &[u8], branch: usize) -> bool {
    record[REROUTE + branch / 8] >> (7 - branch % 8) & 1 == 1
}

/// The branches below `count` that the record's reroute names.
pub fn named(record: &[u8], count: usize) -> Vec<usize> {
    (0..count).filter(|&branch| names(record, branch)).collect()
}

/// The stretch of one branch in a table.
pub fn stretch(table: &[u8], branch: usize) -> &[u8] {
    &table[SIZE * branch..SIZE * (branch + 1)]
}
