//! The part of the stored stream in which load moves between buses: every refusal of the call, often before others that hold as
//! well; moves there and back, mixed with outages and returns; of all that can be moved, and of nothing; from a table that isn't
//! true; and document 001's 5-bus system as its section 4.5.1 changes it.

use crate::books::loads::{far, parted, tight, two_ways_and_ring, FAR, TWO_WAYS_FLOW};
use crate::books::named::second_two;
use crate::books::plain::{struck, with_out};
use crate::books::sources::{five_bus, FIVE_FLOWS};
use crate::definitions::fields::Field;
use crate::definitions::load::Shift;
use crate::definitions::network::Verdict;
use crate::definitions::record::{self, SIZE};
use crate::streams::stored::{back, damaged_books, four, lend, load, out, put_record, WHOLE};
use crate::streams::stored_percentages::told;
use crate::streams::under_way::Stream;
use crate::trial::stream::{Command, TABLE};

pub fn add(stream: &mut Stream) {
    stream.add(Command::Spoil);
    bad_books(stream);
    in_order(stream);
    overloaded(stream);
    stream.add(Command::Spoil);
    on_five_bus(stream);
    all_there_is(stream);
    run(stream);
    untrue(stream);
}

/// 21 before a book of no bytes, then 1 to 7, 5 of a new book; each before 19, since both buses are the same.
fn bad_books(stream: &mut Stream) {
    stream.add_all([told(49), load(3, 3, 1), told(100)]);
    let damaged = damaged_books();
    for place in [2, 6, 7, 9] {
        stream.add(Command::Book(damaged[place].clone()));
        stream.add(load(3, 3, u32::MAX));
    }
    stream.add(Command::Book(struck(&second_two(), &[(3, Field::SecondKva, 0)])));
    stream.add(load(65_535, 0, u32::MAX));
    for bytes in &damaged[13..] {
        stream.add(Command::Book(bytes.clone()));
        stream.add(load(0, 0, 1));
    }
}

/// 8, 19, 20 and 11, each before those that come after it: no number of the flow fits, 4,294,967,295 kW are more than there can be,
/// and 999,960 kW are just not too many for bus 0, but more than any branch takes.
fn in_order(stream: &mut Stream) {
    stream.book(&four().0);
    stream.add(Command::Load { flow: 5, table: TABLE, shift: Shift { up: 1, down: 1, kw: u32::MAX } });
    stream.add_all([load(1, 1, u32::MAX), load(0, 4, u32::MAX), load(0, 1, u32::MAX), load(0, 3, 999_960)]);
}

/// 12: from one island to another, and by the normal limits where the second ones would do.
fn overloaded(stream: &mut Stream) {
    lend(stream, &parted(), &[10, 10]);
    stream.add(load(0, 2, 5));
    lend(stream, &tight(), &[10]);
    stream.add(load(0, 1, 5));
}

/// Bus 4 generates 30 MW less and bus 2 takes 30 MW less; then the loss of 4-3 carries.
fn on_five_bus(stream: &mut Stream) {
    lend(stream, &five_bus(), &FIVE_FLOWS[1].map(|kw| kw as i32));
    stream.add(load(1, 3, 30_000));
}

/// All that can be moved, in a new book at 50 percent, and the same the other way.
fn all_there_is(stream: &mut Stream) {
    lend(stream, &far(), &[-500_000, -500_000, 0]);
    stream.add_all([told(50), load(0, 1, FAR), load(1, 0, FAR)]);
}

/// At 90 percent, with 1-2 out: 40 kW make bus 0's injection 0 and turn bus 1's sign, and go back again. With 1-2 in service again 25
/// kW move from bus 0 to bus 2; a new screen agrees.
fn run(stream: &mut Stream) {
    stream.book(&four().0);
    stream.add_all([told(90), WHOLE, out(2), load(1, 0, 40), load(0, 1, 40), back(2), load(2, 0, 25), WHOLE, told(100)]);
}

/// Nothing moves between two buses without an injection: records of byte 0 = 1 are kept, with bits beyond the count too, and all
/// others are written anew, that of a branch out of service among them. Then 5 kW move from bus 3 to bus 0: of those that name a
/// branch of either way none is kept, and the flow of the ring stays.
fn untrue(stream: &mut Stream) {
    lend(stream, &with_out(two_ways_and_ring(), 7), &TWO_WAYS_FLOW.map(|kw| kw as i32));
    let mut kept = record::bytes(Verdict::Carries, &[6]);
    kept[51] = 1;
    let names = record::bytes(Verdict::Carries, &[0, 1, 2, 3]);
    let mut other = [0xEE; SIZE];
    other[0] = 7;
    let records = [names, names, names, names, other, kept, [0; SIZE], kept];
    records.iter().enumerate().for_each(|(branch, bytes)| put_record(stream, branch, bytes));
    stream.add_all([load(1, 2, 0), load(0, 3, 5)]);
}
