//! The faults to be planted in a copied output, by name. Each answers whether it could be planted at this command.

use crate::definitions::book;
use crate::definitions::network::{Excess, Verdict};
use crate::definitions::record::{self, SIZE};
use crate::judging::plant::*;
use crate::trial::reference::Done;
use crate::trial::stream::Command;

pub type Plant = fn(&mut Done) -> bool;

/// Every fault by its name.
pub const FAULTS: &[(&str, Plant)] = &[
    ("another answer number", |done| answer_words(done, |words| words[1] = if words[1] == "0" { "8" } else { "0" }.into())),
    ("another shortage in an answer", |done| refused_12(done, |words| words[2] = format!("{}1", words[2]))),
    ("a bus too many counted in an answer", |done| refused_12(done, |words| words[3] = format!("{}", words.len() - 3))),
    ("one flow number off by one", |done| {
        accepted(done, |network, done| {
            !network.lines.is_empty() && {
                done.after.flow[0] += 1;
                true
            }
        })
    }),
    ("a flow number beyond the count written", |done| accepted(done, flow_beyond)),
    ("a record written one stretch too far", |done| accepted(done, table_beyond)),
    ("a short branch called carrying", |done| first_record(done, SHORT, |_, _, _| Some(record::bytes(Verdict::Carries, &[])))),
    ("a carrying branch called short", |done| {
        first_record(done, CARRYING, |_, _, _| Some(record::bytes(Verdict::Short(Excess { amount: 1, group: 1 }), &[])))
    }),
    ("a branch in service called out", |done| first_record(done, CARRYING, |_, _, _| Some([0; SIZE]))),
    ("a shortage one too large", |done| short_record(done, SHORT, |_, _, excess| Excess { amount: excess.amount + 1, ..excess })),
    ("the group round the deficit end", |done| {
        short_record(done, SHORT, |network, _, excess| Excess { group: all_buses(network) & !excess.group, ..excess })
    }),
    ("the largest group", |done| short_record(done, SHORT, largest_group)),
    ("a group bit beyond the bus count", |done| {
        short_record(done, SHORT, |network, _, excess| Excess {
            group: excess.group | if network.buses() < 128 { 1 << 127 } else { 0 },
            ..excess
        })
    }),
    ("a reroute that names the branch itself", |done| {
        first_record(done, CARRYING, |_, branch, bytes| Some(with_bit(bytes, branch)))
    }),
    ("a reroute bit beyond the branch count", |done| {
        first_record(done, CARRYING, |network, _, bytes| (network.lines.len() < 256).then(|| with_bit(bytes, 255)))
    }),
    ("a reroute bit for a branch out of service", |done| {
        first_record(done, CARRYING, |network, _, bytes| {
            network.lines.iter().position(|line| !line.served).map(|k| with_bit(bytes, k))
        })
    }),
    ("a reroute bit for a branch that must keep its flow", |done| {
        first_record(done, CARRYING, |network, branch, bytes| bridge(network, branch).map(|k| with_bit(bytes, k)))
    }),
    ("an empty reroute though there is a flow", empty_reroute),
    ("a reroute though there is no flow", reroute_without_flow),
    ("an outage that changes nothing", |done| {
        accepted_out(done, |_, _, done| {
            *done.after = done.before.clone();
            true
        })
    }),
    ("an outage that only clears the bit", |done| {
        accepted_out(done, |_, branch, done| {
            let moved = done.before.flow[branch] != 0;
            if moved {
                done.after.flow = done.before.flow.clone();
                done.after.table = done.before.table.clone();
            }
            moved
        })
    }),
    ("an outage that clears another bit too", |done| {
        accepted_out(done, |network, branch, done| {
            let other = (0..network.lines.len()).find(|&k| k != branch && network.lines[k].served);
            other.map(|k| done.after.book = book::with_status(&done.after.book, k, false)).is_some()
        })
    }),
    ("an outage that leaves the bit", |done| {
        accepted_out(done, |_, _, done| {
            done.after.book = done.before.book.clone();
            true
        })
    }),
    ("an outage that keeps the lost branch's flow", |done| {
        accepted_out(done, |_, branch, done| {
            done.after.flow[branch] = done.before.flow[branch];
            done.before.flow[branch] != 0
        })
    }),
    ("an outage that drops the flow and screens afresh", screened_afresh),
    ("a kept record written anew", kept_record_written),
    ("a shortlisted record kept", |done| shortlisted_kept(done, |_, _, _| true)),
    ("an old shortage taken over", |done| shortlisted_kept(done, |_, old, _| record::is_short(old))),
    ("a record kept since its reroute is untouched, though its own flow changed", |done| shortlisted_kept(done, own_flow_only)),
    ("a refused screen that writes a book byte", |done| refused_leaves(done, "screen", book_byte)),
    ("a refused screen that writes a flow number", |done| refused_leaves(done, "screen", flow_number)),
    ("a refused screen that writes a table byte", |done| refused_leaves(done, "screen", table_byte)),
    ("a refused outage that writes a book byte", |done| refused_leaves(done, "out", book_byte)),
    ("a refused outage that writes a flow number", |done| refused_leaves(done, "out", flow_number)),
    ("a refused outage that writes a table byte", |done| refused_leaves(done, "out", table_byte)),
    ("a refused read that writes a book byte", |done| refused_leaves(done, "read", book_byte)),
    ("a refused read that writes a flow number", |done| refused_leaves(done, "read", flow_number)),
    ("a refused read that writes a table byte", |done| refused_leaves(done, "read", table_byte)),
    ("a refused read that writes an injection", |done| refused_prints(done, "read", "injections")),
    ("a refused read that writes a branch number", |done| refused_prints(done, "read", "branches")),
    ("a refused write that writes a book byte", |done| refused_leaves(done, "write", book_byte)),
    ("a refused write that writes a flow number", |done| refused_leaves(done, "write", flow_number)),
    ("a refused write that writes a table byte", |done| refused_leaves(done, "write", table_byte)),
    ("a refused write that sets the length", |done| refused_leaves(done, "write", other_length)),
    ("a refused write that writes an injection", |done| refused_leaves(done, "write", |left| left.injections[100] ^= 1)),
    ("a refused write that writes a branch number", |done| refused_leaves(done, "write", |left| left.numbers[1_000] ^= 1)),
    ("a refused reading of meters that writes a book byte", |done| refused_leaves(done, "meters", book_byte)),
    ("a refused reading of meters that writes a flow number", |done| refused_leaves(done, "meters", flow_number)),
    ("a refused reading of meters that writes a table byte", |done| refused_leaves(done, "meters", table_byte)),
    ("a refused reading of meters that writes an injection", |done| refused_prints(done, "meters", "injections")),
    ("a number read wrongly", |done| read_numbers(done, 1)),
    ("a number read beyond the counts", |done| read_numbers(done, 128)),
    ("a branch number read wrongly", |done| line_with(done, "branches", |words| words[3].insert(0, '1'))),
    ("a register clamped to 0", |done| {
        matches!(done.command, Command::Meters { .. }) && line_with(done, "injections", |words| words[1] = "0".into())
    }),
    ("a record line left out", |done| {
        matches!(done.command, Command::Dump) && {
            done.lines.pop();
            true
        }
    }),
    ("a line printed twice", |done| {
        !done.lines.is_empty() && {
            done.lines.insert(0, done.lines[0].clone());
            true
        }
    }),
    ("a space at the end of a line", |done| {
        !done.lines.is_empty() && {
            done.lines[0].push(' ');
            true
        }
    }),
    ("capital hex digits", |done| line_with(done, "book", |words| words[2] = words[2].to_uppercase())),
];
