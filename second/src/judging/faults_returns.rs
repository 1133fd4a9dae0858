//! The faults to be planted in what a return leaves and answers, by name, and how each is planted.

use crate::definitions::book;
use crate::definitions::comeback;
use crate::definitions::cuts::{self, Cutter};
use crate::definitions::network::Network;
use crate::definitions::record::{self, SIZE};
use crate::definitions::screen;
use crate::definitions::switching::Way;
use crate::judging::faults::Plant;
use crate::judging::plant::*;
use crate::trial::reference::Done;
use crate::trial::stream::Command;

/// Every fault by its name.
pub const RETURN_FAULTS: &[(&str, Plant)] = &[
    ("a return that changes nothing", |done| {
        back(done, |_, _, done| {
            *done.after = done.before.clone();
            true
        })
    }),
    ("a return that leaves the bit", |done| {
        back(done, |_, _, done| {
            done.after.book = done.before.book.clone();
            true
        })
    }),
    ("a return that sets another bit too", |done| other_bit(done, |_, _| {})),
    ("a return that sets another bit instead", |done| {
        other_bit(done, |book, branch| *book = book::with_status(book, branch, false))
    }),
    ("a return that changes one flow number", |done| {
        back(done, |_, branch, done| {
            done.after.flow[branch] += 1;
            true
        })
    }),
    ("a return that finds another flow, with a table true of it", another_flow),
    ("a return that writes a flow number beyond the count", |done| back(done, |network, _, done| flow_beyond(network, done))),
    ("a return that writes a table byte beyond the count", |done| back(done, |network, _, done| table_beyond(network, done))),
    ("a return that leaves a reroute in its branch's record", |done| {
        own_record(done, |network, branch, bytes| {
            let other = (0..network.lines.len()).find(|&k| k != branch);
            other.map(|k| with_bit(bytes, k))
        })
    }),
    ("a return that leaves what its branch's record held", |done| {
        let held = done.before.table.clone();
        own_record(done, |_, branch, _| record::stretch(&held, branch).try_into().ok())
    }),
    ("a return that leaves a shortage in its branch's record", |done| {
        own_record(done, |_, _, bytes| {
            let mut changed: [u8; SIZE] = bytes.try_into().ok()?;
            changed[3] = 1;
            Some(changed)
        })
    }),
    ("a return that keeps a short record", |done| old_record(done, record::is_short)),
    ("a return that keeps a record of another byte 0", |done| old_record(done, |old| old[0] > 3)),
    ("a return that keeps a record of byte 0 = 0 in service", |done| old_record(done, |old| old[0] == 0)),
    ("a return that writes a record of byte 0 = 1 out of service", |done| {
        kept_written(done, |network, k, _, _| !network.lines[k].served)
    }),
    ("a return that writes a record that names the returned branch", |done| {
        kept_written(done, |network, k, old, branch| network.lines[k].served && record::names(old, branch))
    }),
    ("a return that writes another record of byte 0 = 1", |done| {
        kept_written(done, |network, k, old, branch| network.lines[k].served && !record::names(old, branch))
    }),
    ("a return that changes a bit of a kept record", |done| {
        back(done, |network, _, done| {
            let anew = judged_records(network, done);
            let kept = (0..network.lines.len()).find(|k| !anew.contains(k));
            kept.map(|k| done.after.table[SIZE * k + 20] ^= 128).is_some()
        })
    }),
    ("11 before 17", |done| refused_with(done, "17") && !flow_fits(done) && answer_words(done, |words| words[1] = "11".into())),
    ("10 for 17", |done| refused_with(done, "17") && answer_words(done, |words| words[1] = "10".into())),
    ("17 for an unknown branch", |done| refused_with(done, "9") && answer_words(done, |words| words[1] = "17".into())),
    ("a return refused that should be accepted", |done| {
        back(done, |_, _, done| {
            *done.after = done.before.clone();
            answer_words(done, |words| words[1] = "11".into())
        })
    }),
    ("a return answered with the word of an outage", |done| {
        matches!(done.command, Command::Switch { way: Way::Back, .. }) && line_with(done, "back", |words| words[0] = "out".into())
    }),
    ("a return refused with 11 that sets the bit", |done| {
        let Command::Switch { branch, .. } = *done.command else { return false };
        refused_with(done, "11") && refused_leaves(done, "back", |left| left.book = book::with_status(&left.book, branch, true))
    }),
    ("a refused return that writes a book byte", |done| refused_leaves(done, "back", book_byte)),
    ("a refused return that writes a flow number", |done| refused_leaves(done, "back", flow_number)),
    ("a refused return that writes a table byte", |done| refused_leaves(done, "back", table_byte)),
    ("a refused return that writes its branch's record", |done| {
        let Command::Switch { branch, .. } = *done.command else { return false };
        let another = branch < 256 && record::stretch(&done.before.table, branch) != comeback::returned();
        another && refused_leaves(done, "back", |left| put(&mut left.table, branch, &comeback::returned()))
    }),
];

fn back(done: &mut Done, plant: impl FnOnce(&Network, usize, &mut Done) -> bool) -> bool {
    accepted_switch(Way::Back, done, plant)
}

fn put(table: &mut [u8], branch: usize, bytes: &[u8]) {
    table[SIZE * branch..SIZE * (branch + 1)].copy_from_slice(bytes);
}

/// Sets the status bit of another branch out of service; `then` may meddle with the book besides.
fn other_bit(done: &mut Done, then: impl FnOnce(&mut Vec<u8>, usize)) -> bool {
    back(done, |network, branch, done| {
        let Some(other) = network.lines.iter().position(|line| !line.served) else { return false };
        done.after.book = book::with_status(&done.after.book, other, true);
        then(&mut done.after.book, branch);
        true
    })
}

/// Drops the flow and screens afresh, where that gives another one.
fn another_flow(done: &mut Done) -> bool {
    back(done, |network, _, done| {
        let count = network.lines.len();
        let Some(fresh) = cuts::fitting_flow(network).filter(|fresh| *fresh != done.before.flow[..count]) else { return false };
        left_afresh(network, &fresh, done);
        true
    })
}

/// Gives the returned branch's record other bytes.
fn own_record(done: &mut Done, other: impl FnOnce(&Network, usize, &[u8]) -> Option<[u8; SIZE]>) -> bool {
    back(done, |network, branch, done| {
        let bytes = record::stretch(&done.after.table, branch).to_vec();
        let changed = other(network, branch, &bytes).filter(|changed| changed[..] != bytes);
        changed.map(|changed| put(&mut done.after.table, branch, &changed)).is_some()
    })
}

/// Gives a record written anew its old bytes back, where these are others.
pub fn old_record(done: &mut Done, wanted: impl Fn(&[u8]) -> bool) -> bool {
    back(done, |network, branch, done| {
        let changed = |k: &usize| {
            let old = record::stretch(&done.before.table, *k);
            *k != branch && wanted(old) && old != record::stretch(&done.after.table, *k)
        };
        let found = judged_records(network, done).into_iter().find(changed);
        found.map(|k| put(&mut done.after.table, k, record::stretch(&done.before.table, k))).is_some()
    })
}

/// Writes a record anew that is to be kept, where that gives other bytes.
fn kept_written(done: &mut Done, wanted: impl Fn(&Network, usize, &[u8], usize) -> bool) -> bool {
    back(done, |network, branch, done| {
        let count = network.lines.len();
        let mut cutter = Cutter::new(network);
        let anew = judged_records(network, done);
        for k in (0..count).filter(|k| !anew.contains(k)) {
            let old = record::stretch(&done.before.table, k);
            let fresh = screen::own_record(&mut cutter, &done.after.flow[..count], k);
            if wanted(network, k, old, branch) && fresh[..] != *old {
                put(&mut done.after.table, k, &fresh);
                return true;
            }
        }
        false
    })
}

/// Whether the command is a return refused with this number.
fn refused_with(done: &Done, number: &str) -> bool {
    refused(done, "back") && done.lines[0].split(' ').nth(1) == Some(number)
}

fn flow_fits(done: &Done) -> bool {
    let book = book::unpack(done.before.bytes()).ok();
    book.is_some_and(|book| Network::of(&book, done.before.percentage).fits(&done.before.flow[..book.branches.len()]))
}
