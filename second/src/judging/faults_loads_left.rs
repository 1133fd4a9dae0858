//! The faults to be planted in the flow and the table that a move of load leaves, and in what a refused one does, by name, and how
//! each is planted.

use crate::definitions::book::{self, with_injection};
use crate::definitions::cuts::{self, Cutter};
use crate::definitions::form::LARGEST;
use crate::definitions::load::{self, Shift};
use crate::definitions::network::{Network, Verdict};
use crate::definitions::record::{self, SIZE};
use crate::definitions::screen;
use crate::judging::faults::Plant;
use crate::judging::faults_loads::{accepted_shift, refused_with, shift_of};
use crate::judging::plant::*;
use crate::judging::ratings::second_alone;
use crate::trial::reference::Done;
use crate::trial::stream::Command;

/// Every fault by its name.
pub const LOAD_LEFT_FAULTS: &[(&str, Plant)] = &[
    ("a move of load that changes nothing", |done| {
        moved(done, |_, shift, done| {
            *done.after = done.before.clone();
            shift.kw > 0
        })
    }),
    ("a move of load that leaves the flow", |done| {
        moved(done, |_, shift, done| {
            done.after.flow = done.before.flow.clone();
            shift.kw > 0
        })
    }),
    ("a move of 0 kW that changes the flow, with a table true of it", |done| another_flow(done, |shift| shift.kw == 0)),
    ("a flow that changes by more than is moved, with a table true of it", |done| another_flow(done, |shift| shift.kw > 0)),
    ("a move of load that leaves a flow above a normal limit", |done| {
        moved(done, |network, _, done| {
            let above = cuts::fitting_flow(&second_alone(network)).filter(|above| !network.fits(above));
            above.map(|above| done.after.flow[..above.len()].copy_from_slice(&above)).is_some()
        })
    }),
    ("a move of load that writes a flow number beyond the count", |done| {
        moved(done, |network, _, done| flow_beyond(network, done))
    }),
    ("a move of load that writes a table byte beyond the count", |done| {
        moved(done, |network, _, done| table_beyond(network, done))
    }),
    ("a move of load that keeps the table", |done| {
        moved(done, |network, _, done| {
            let count = SIZE * network.lines.len();
            let differs = done.after.table[..count] != done.before.table[..count];
            done.after.table = done.before.table.clone();
            differs
        })
    }),
    ("a move of load that keeps a short record", |done| kept(done, |_, _, old, _| record::is_short(old))),
    ("a move of load that keeps an islanding record", |done| kept(done, |_, _, old, _| old[0] == 3)),
    ("a move of load that keeps a record whose own flow changed", |done| {
        kept(done, |_, k, old, touched| own_flow_only(k, old, touched))
    }),
    ("a move of load that keeps a record whose reroute names a touched branch", |done| {
        kept(done, |_, k, old, touched| {
            old[0] == 1 && !touched[k] && record::named(old, touched.len()).iter().any(|&named| touched[named])
        })
    }),
    ("a move of load that keeps a record of another byte 0", |done| kept(done, |_, _, old, _| old[0] > 3)),
    ("a move of load that keeps a record of byte 0 = 0 in service", |done| {
        kept(done, |network, k, old, _| old[0] == 0 && network.lines[k].served)
    }),
    ("a move of load that keeps a record of byte 0 = 1 out of service", |done| {
        kept(done, |network, k, old, _| old[0] == 1 && !network.lines[k].served)
    }),
    ("a move of 0 kW that keeps every record", |done| {
        shift_of(done).is_some_and(|shift| shift.kw == 0) && kept(done, |_, _, _, _| true)
    }),
    ("a move of load that writes a record anew that is to be kept", |done| kept_written(done, |_, _| true)),
    ("a move of load that writes a record anew for a bit beyond the count", |done| {
        kept_written(done, |count, old| (count..256).any(|bit| record::names(old, bit)))
    }),
    ("a move of load that changes a bit of a kept record", |done| {
        moved(done, |network, _, done| {
            let anew = judged_records(network, done);
            let kept = (0..network.lines.len()).find(|k| !anew.contains(k));
            kept.map(|k| done.after.table[SIZE * k + 20] ^= 128).is_some()
        })
    }),
    ("a verdict by the injections before the move", |done| {
        moved(done, |network, shift, done| {
            let before = shift.turned().changed(network);
            let mut cutter = Cutter::new(&before);
            let old: Vec<Verdict> = (0..network.lines.len()).map(|k| cutter.verdict(k)).collect();
            first_record(done, &[1, 2, 3], |_, k, bytes| {
                let shown = record::bytes(old[k], &[]);
                (shown[..20] != bytes[..20]).then_some(shown)
            })
        })
    }),
    ("a move refused with 19 that changes an injection", |done| {
        refused_moves(done, 19, |book, shift, injections| {
            (shift.up < injections.len() && shift.kw > 0).then(|| with_injection(book, shift.up, injections[shift.up] + 1))
        })
    }),
    ("a move refused with 20 that raises to the edge of the range", |done| {
        refused_moves(done, 20, |book, shift, _| Some(with_injection(book, shift.up, LARGEST)))
    }),
    ("a move refused with 11 that changes the injections", |done| {
        refused_moves(done, 11, |book, shift, _| Some(shift.book(book)))
    }),
    ("a move refused with 12 that changes the injections", |done| {
        refused_moves(done, 12, |book, shift, _| Some(shift.book(book)))
    }),
    ("a move refused with 12 that moves what flow it can", moves_what_it_can),
    ("a refused move of load that writes a book byte", |done| refused_leaves(done, "move", book_byte)),
    ("a refused move of load that writes a flow number", |done| refused_leaves(done, "move", flow_number)),
    ("a refused move of load that writes a table byte", |done| refused_leaves(done, "move", table_byte)),
];

/// Whether the command is an accepted move of load; the network is the one after it.
fn moved(done: &mut Done, plant: impl FnOnce(&Network, Shift, &mut Done) -> bool) -> bool {
    let Some(shift) = accepted_shift(done) else { return false };
    accepted(done, |network, done| plant(network, shift, done))
}

/// Drops the flow and screens afresh, where some branch's flow then differs by more than is moved.
fn another_flow(done: &mut Done, wanted: impl Fn(Shift) -> bool) -> bool {
    moved(done, |network, shift, done| {
        let before = &done.before.flow[..network.lines.len()];
        let far = |fresh: &Vec<i64>| fresh.iter().zip(before).any(|(kw, before)| (kw - before).abs() > shift.kw as i64);
        let fresh = cuts::fitting_flow(network).filter(far).filter(|_| wanted(shift));
        fresh.map(|fresh| left_afresh(network, &fresh, done)).is_some()
    })
}

/// Gives a record on the shortlist its old bytes back where these are wrong now.
fn kept(done: &mut Done, wanted: impl Fn(&Network, usize, &[u8], &[bool]) -> bool) -> bool {
    moved(done, |network, _, done| listed_kept(network, None, done, |k, old, touched| wanted(network, k, old, touched)))
}

/// Writes a record anew that is to be kept, where that gives other bytes.
fn kept_written(done: &mut Done, wanted: impl Fn(usize, &[u8]) -> bool) -> bool {
    moved(done, |network, _, done| {
        let count = network.lines.len();
        let mut cutter = Cutter::new(network);
        let anew = judged_records(network, done);
        for k in (0..count).filter(|k| !anew.contains(k)) {
            let old = record::stretch(&done.before.table, k);
            let fresh = screen::own_record(&mut cutter, &done.after.flow[..count], k);
            if wanted(count, old) && fresh[..] != *old {
                done.after.table[SIZE * k..SIZE * (k + 1)].copy_from_slice(&fresh);
                return true;
            }
        }
        false
    })
}

/// Leaves another book after a move refused with this number, where a dump shows it.
fn refused_moves(done: &mut Done, number: u32, other: impl FnOnce(&[u8], Shift, &[i64]) -> Option<Vec<u8>>) -> bool {
    let shown = done.next == Some(&Command::Dump);
    shown
        && refused_with(done, number, |done, shift, book| {
            let before = done.before.bytes();
            let left = other(before, shift, &book.injections).filter(|left| left != before);
            left.map(|left| done.after.book[..left.len()].copy_from_slice(&left)).is_some()
        })
}

/// Reroutes as much as there is room for, and then refuses the call all the same.
fn moves_what_it_can(done: &mut Done) -> bool {
    let Command::Load { flow, table, shift } = *done.command else { return false };
    if done.next != Some(&Command::Dump) || done.command.answer_in(done.lines) != Some(12) {
        return false;
    }
    let book = book::unpack(done.before.bytes()).expect("a book refused with 12");
    let network = Network::of(&book, done.before.percentage);
    let most = load::most(&network, &done.before.flow[..book.branches.len()], shift.up, shift.down) as u32;
    let (after, _) = load::own_result(&network, &done.before.lent(flow, table), Shift { kw: most, ..shift });
    done.after.flow[..after.len()].copy_from_slice(&after);
    done.after.flow != done.before.flow
}
