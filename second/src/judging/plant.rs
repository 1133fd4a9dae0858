//! How a fault is planted: what a wrong program would leave or print at one command of a stream.

use crate::definitions::answer::Answer;
use crate::definitions::book;
use crate::definitions::comeback;
use crate::definitions::cuts::{self, Cutter};
use crate::definitions::items::Fault;
use crate::definitions::limits::Limits;
use crate::definitions::load;
use crate::definitions::network::{Excess, Network, Verdict};
use crate::definitions::outage;
use crate::definitions::record::{self, SIZE};
use crate::definitions::reroutes;
use crate::definitions::screen;
use crate::definitions::switching::Way;
use crate::judging::places::lent_items;
use crate::trial::reference::Done;
use crate::trial::spaces::Spaces;
use crate::trial::stream::{Command, BOOK};

pub fn all_buses(network: &Network) -> u128 {
    (0..network.buses()).fold(0, |group, bus| group | 1 << bus)
}

pub fn line_with(done: &mut Done, first: &str, change: impl FnOnce(&mut Vec<String>)) -> bool {
    let Some(line) = done.lines.iter_mut().find(|line| line.split(' ').next() == Some(first)) else {
        return false;
    };
    let mut words: Vec<String> = line.split(' ').map(String::from).collect();
    change(&mut words);
    let changed = words.join(" ");
    let differs = changed != *line;
    *line = changed;
    differs
}

pub fn answer_words(done: &mut Done, change: impl FnOnce(&mut Vec<String>)) -> bool {
    done.command.call().is_some_and(|call| line_with(done, call, change))
}

/// Gives a call this answer; true where that is another one.
pub fn says(done: &mut Done, answer: Answer) -> bool {
    let line = format!("{} {answer}", done.command.call().expect("a call"));
    answer_words(done, |words| *words = line.split(' ').map(String::from).collect())
}

/// All that is wrong where the command is a call refused with 4 or 5.
pub fn placed(done: &Done) -> Option<Vec<Fault>> {
    done.command.answer_in(done.lines).filter(|number| [4, 5].contains(number))?;
    lent_items(done.command, done.before).map(|items| items.faults().collect())
}

pub fn refused_12(done: &mut Done, change: impl FnOnce(&mut Vec<String>)) -> bool {
    done.lines.first().is_some_and(|line| line.split(' ').nth(1) == Some("12")) && answer_words(done, change)
}

pub fn read_numbers(done: &mut Done, place: usize) -> bool {
    matches!(done.command, Command::Read { .. }) && line_with(done, "injections", |words| words[place].push('1'))
}

/// Whether the command is an accepted `S`, `O`, `K` or `V`; the network is the one after it.
pub fn accepted(done: &mut Done, plant: impl FnOnce(&Network, &mut Done) -> bool) -> bool {
    if !done.command.takes_percentage() || done.lines[0].split(' ').nth(1) != Some("0") {
        return false;
    }
    let Ok(book) = book::unpack(done.after.bytes()) else {
        return false;
    };
    plant(&Network::of(&book, done.before.percentage), done)
}

/// Whether the command is an accepted `O`, or an accepted `K`; the network is the one after it, the number its branch.
pub fn accepted_switch(wanted: Way, done: &mut Done, plant: impl FnOnce(&Network, usize, &mut Done) -> bool) -> bool {
    match *done.command {
        Command::Switch { way, branch, .. } if way == wanted => accepted(done, |network, done| plant(network, branch, done)),
        _ => false,
    }
}

pub fn accepted_out(done: &mut Done, plant: impl FnOnce(&Network, usize, &mut Done) -> bool) -> bool {
    accepted_switch(Way::Out, done, plant)
}

/// Records that are written anew: all by a screen, those on the shortlist by an outage or a move of load, those that a return
/// writes.
pub fn judged_records(network: &Network, done: &Done) -> Vec<usize> {
    let count = network.lines.len();
    let (table, before, after) = (&done.before.table, &done.before.flow[..count], &done.after.flow[..count]);
    let anew = match *done.command {
        Command::Switch { way: Way::Out, branch, .. } => outage::shortlist(network, table, branch, before, after),
        Command::Switch { way: Way::Back, branch, .. } => comeback::anew(table, branch, count),
        Command::Load { .. } => load::shortlist(network, table, before, after),
        _ => vec![true; count],
    };
    (0..count).filter(|&k| anew[k]).collect()
}

/// What byte 0 of a record says: that the branch carries, that it is short, islanding or not, and that it is islanding.
pub const CARRYING: &[u8] = &[1];
pub const SHORT: &[u8] = &[2, 3];
pub const ISLANDING: &[u8] = &[3];

/// Puts other bytes into the first judged record with such a byte 0 for which there are any.
pub fn first_record(done: &mut Done, shown: &[u8], other: impl Fn(&Network, usize, &[u8]) -> Option<[u8; SIZE]>) -> bool {
    accepted(done, |network, done| {
        for k in judged_records(network, done) {
            let bytes = record::stretch(&done.after.table, k);
            if let Some(changed) = shown.contains(&bytes[0]).then(|| other(network, k, bytes)).flatten() {
                let differs = changed != bytes;
                done.after.table[SIZE * k..SIZE * (k + 1)].copy_from_slice(&changed);
                return differs;
            }
        }
        false
    })
}

/// Another shortage or group in the first such record, its byte 0 as it was.
pub fn short_record(done: &mut Done, shown: &[u8], other: impl Fn(&Network, usize, Excess) -> Excess) -> bool {
    first_record(done, shown, |network, k, bytes| {
        let excess = Excess { amount: record::shortage(bytes), group: record::group(bytes) };
        let changed = other(network, k, excess);
        (changed != excess).then(|| with_byte_0(&record::bytes(Verdict::Short(changed), &[]), bytes[0]))
    })
}

/// The same record with another byte 0.
pub fn with_byte_0(bytes: &[u8], byte_0: u8) -> [u8; SIZE] {
    let mut changed: [u8; SIZE] = bytes.try_into().expect("a record");
    changed[0] = byte_0;
    changed
}

/// The largest group that reaches the shortage: what is left when the smallest deficit side is taken away.
pub fn largest_group(network: &Network, branch: usize, excess: Excess) -> Excess {
    let mut turned = network.clone();
    turned.injections.iter_mut().for_each(|kw| *kw = -*kw);
    match cuts::verdict(&turned, branch).excess() {
        Some(other) => Excess { amount: excess.amount, group: all_buses(network) & !other.group },
        None => excess,
    }
}

pub fn with_bit(bytes: &[u8], branch: usize) -> [u8; SIZE] {
    let mut changed: [u8; SIZE] = bytes.try_into().expect("a record");
    changed[20 + branch / 8] |= 1 << (7 - branch % 8);
    changed
}

/// A branch other than this one whose ends no other branch in service joins: its flow is the same in every fitting flow.
pub fn bridge(network: &Network, branch: usize) -> Option<usize> {
    (0..network.lines.len()).find(|&k| {
        let line = &network.lines[k];
        let island = network.without(k).islands();
        k != branch && line.served && island[line.first] != island[line.second]
    })
}

pub fn empty_reroute(done: &mut Done) -> bool {
    let flow = done.after.flow.clone();
    first_record(done, CARRYING, |_, k, _| (flow[k] != 0).then(|| record::bytes(Verdict::Carries, &[])))
}

pub fn reroute_without_flow(done: &mut Done) -> bool {
    let flow = done.after.flow.clone();
    first_record(done, CARRYING, |network, k, bytes| {
        (flow[k] == 0 && network.lines.len() > 1).then(|| with_bit(bytes, if k == 0 { 1 } else { 0 }))
    })
}

pub fn screened_afresh(done: &mut Done) -> bool {
    accepted_out(done, |network, branch, done| {
        let count = network.lines.len();
        let before = &done.before.flow[..count];
        let named = record::named(record::stretch(&done.before.table, branch), count);
        let Some(fresh) = cuts::fitting_flow(network) else { return false };
        let strays = (0..count).any(|k| k != branch && fresh[k] != before[k] && (before[branch] == 0 || !named.contains(&k)));
        let mut with = network.clone();
        with.lines[branch].served = true;
        if !strays || reroutes::confined(&with, Limits::Normal, before, branch, &named).is_none() {
            return false;
        }
        left_afresh(network, &fresh, done);
        true
    })
}

/// Leaves another flow, and a table true of it.
pub fn left_afresh(network: &Network, fresh: &[i64], done: &mut Done) {
    let table = screen::own_table(network, fresh);
    done.after.flow[..fresh.len()].copy_from_slice(fresh);
    done.after.table[..table.len()].copy_from_slice(&table);
}

pub fn kept_record_written(done: &mut Done) -> bool {
    accepted_out(done, |network, _, done| {
        let listed = judged_records(network, done);
        let kept = (0..network.lines.len()).find(|k| !listed.contains(k));
        kept.map(|k| done.after.table[SIZE * k + 20] ^= 128).is_some()
    })
}

/// Whether the reroute of a carrying branch names no touched branch, while the branch's own flow changed.
pub fn own_flow_only(branch: usize, old: &[u8], touched: &[bool]) -> bool {
    old[0] == 1 && touched[branch] && record::named(old, touched.len()).into_iter().all(|k| !touched[k])
}

/// Gives a record that an outage shortlists its old bytes back where these are wrong now.
pub fn shortlisted_kept(done: &mut Done, wanted: impl Fn(usize, &[u8], &[bool]) -> bool) -> bool {
    accepted_out(done, |network, branch, done| listed_kept(network, Some(branch), done, wanted))
}

/// The same for any call with a shortlist; the branch taken out, if one is, was touched, and its own record isn't looked at.
pub fn listed_kept(
    network: &Network,
    taken: Option<usize>,
    done: &mut Done,
    wanted: impl Fn(usize, &[u8], &[bool]) -> bool,
) -> bool {
    let count = network.lines.len();
    let mut cutter = Cutter::new(network);
    let touched: Vec<bool> = (0..count).map(|k| taken == Some(k) || done.before.flow[k] != done.after.flow[k]).collect();
    for k in judged_records(network, done).into_iter().filter(|&k| taken != Some(k)) {
        let old = record::stretch(&done.before.table, k).to_vec();
        if wanted(k, &old, &touched) && screen::record_holds(&mut cutter, &done.after.flow[..count], k, &old).is_err() {
            done.after.table[SIZE * k..SIZE * (k + 1)].copy_from_slice(&old);
            return true;
        }
    }
    false
}

/// Whether the command is a call that was accepted.
pub fn call_accepted(done: &Done) -> bool {
    done.command.answer_in(done.lines) == Some(0)
}

/// Refuses a call where `wanted`, with this number, and leaves and prints all as it was.
pub fn instead(done: &mut Done, wanted: impl Fn(&Done) -> bool, number: &str) -> bool {
    if !wanted(done) {
        return false;
    }
    *done.after = done.before.clone();
    if matches!(done.command, Command::Read { .. } | Command::Move { .. }) {
        // A book of no bytes is refused, so that what is printed is what was lent.
        let mut lent = done.before.clone();
        lent.length = 0;
        *done.lines = lent.run(done.command).1;
    }
    answer_words(done, |words| words[1] = number.into()) || number == "1"
}

/// Whether the command is this call, refused.
pub fn refused(done: &Done, call: &str) -> bool {
    done.command.call() == Some(call) && done.command.answer_in(done.lines).is_some_and(|number| number != 0)
}

/// What a refused call leaves otherwise than it stood, where a dump shows it.
pub fn refused_leaves(done: &mut Done, call: &str, plant: impl FnOnce(&mut Spaces)) -> bool {
    let shown = refused(done, call) && done.next == Some(&Command::Dump);
    if shown {
        plant(done.after);
    }
    shown
}

/// What a refused call leaves and prints itself.
pub fn refused_prints(done: &mut Done, call: &str, line: &str) -> bool {
    refused(done, call) && line_with(done, line, |words| words.last_mut().expect("a number").push('1'))
}

/// A byte of the book space, a flow number and a table byte, each beyond most counts, written otherwise.
pub fn book_byte(left: &mut Spaces) {
    left.book[30] ^= 1;
}

/// The book's length, changed within its space.
pub fn other_length(left: &mut Spaces) {
    left.length = (left.length + 1) % BOOK;
}

pub fn flow_number(left: &mut Spaces) {
    left.flow[200] ^= 1;
}

pub fn table_byte(left: &mut Spaces) {
    left.table[13_000] ^= 1;
}

/// The first flow number beyond the count written otherwise, where there is one.
pub fn flow_beyond(network: &Network, done: &mut Done) -> bool {
    done.after.flow.get_mut(network.lines.len()).map(|number| *number ^= 1).is_some()
}

/// The first table byte beyond the count written otherwise, where there is one.
pub fn table_beyond(network: &Network, done: &mut Done) -> bool {
    done.after.table.get_mut(SIZE * network.lines.len()).map(|byte| *byte ^= 1).is_some()
}
