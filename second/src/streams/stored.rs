//! The stored stream: every refusal number 1 to 16, accepted screens, runs of outages, untrue tables, lent space too
//! short, document 001's systems and the largest book, in one fixed order; then what later requests brought, so that all
//! before it keeps its bytes. After every refused call all spaces that the call doesn't print itself are dumped.

use crate::books::named::{largest, second_book, too_long, triangle};
use crate::books::plain::plain;
use crate::books::sources;
use crate::definitions::bits;
use crate::definitions::book::{pack, Book};
use crate::definitions::form::{Form, HEADER};
use crate::definitions::load::Shift;
use crate::definitions::network::Verdict;
use crate::definitions::record;
use crate::definitions::switching::Way;
use crate::streams::under_way::Stream;
use crate::streams::{
    stored_forms, stored_islands, stored_loads, stored_orders, stored_percentages, stored_places, stored_ratings, stored_returns,
};
use crate::trial::stream::{Command, BOOK, FLOWS, INJECTIONS, NUMBERS, TABLE};

/// Calls that are lent all the space there is: a screen, a read, an outage, a return, a move of load.
pub const WHOLE: Command = Command::Screen { flow: FLOWS, table: TABLE };
pub const READ_WHOLE: Command = Command::Read { injections: INJECTIONS, branches: NUMBERS };

pub fn out(branch: usize) -> Command {
    Command::Switch { way: Way::Out, flow: FLOWS, table: TABLE, branch }
}

pub fn back(branch: usize) -> Command {
    Command::Switch { way: Way::Back, flow: FLOWS, table: TABLE, branch }
}

pub fn load(up: usize, down: usize, kw: u32) -> Command {
    Command::Load { flow: FLOWS, table: TABLE, shift: Shift { up, down, kw } }
}

/// A write in a form: buses, branches, factor, and the room of the injections, the branch numbers and the output.
pub fn written(form: Form, [buses, count, factor, injections, branches, room]: [usize; 6]) -> Command {
    Command::Write { form, buses, count, factor, injections, branches, room }
}

pub fn stream() -> Vec<u8> {
    ended(begun())
}

/// The stored stream with the part on the order of switchings, which is not stored yet.
pub fn stream_with_orders() -> Vec<u8> {
    let mut stream = begun();
    stored_orders::add(&mut stream);
    ended(stream)
}

fn begun() -> Stream {
    let mut stream = Stream::new(0);
    stream.dump_each_refused = true;
    stream.add(Command::Spoil);
    marked(&mut stream);
    damaged(&mut stream);
    tables(&mut stream);
    registers(&mut stream);
    untrue(&mut stream);
    systems(&mut stream);
    stream.add(Command::Spoil);
    stream.book(&largest());
    stream.add(WHOLE);
    stream.add(out(130));
    stream.add(out(7));
    stored_returns::add(&mut stream);
    stored_forms::add(&mut stream);
    stored_ratings::add(&mut stream);
    stored_places::add(&mut stream);
    stored_percentages::add(&mut stream);
    stored_islands::add(&mut stream);
    stored_loads::add(&mut stream);
    stream
}

/// A bad command stops a stream, so it stays the last.
fn ended(mut stream: Stream) -> Vec<u8> {
    stream.bytes.extend(b"F\x01\x00");
    stream.bytes
}

/// Marked examples (a) to (k), with refusals 8 to 12 of the outage call.
fn marked(stream: &mut Stream) {
    let lent_out = |flow, table, branch| Command::Switch { way: Way::Out, flow, table, branch };
    stream.book(&triangle(30));
    stream.add(Command::Screen { flow: 2, table: TABLE });
    stream.add(Command::Screen { flow: FLOWS, table: 155 });
    stream.add(Command::Screen { flow: 3, table: 156 });
    stream.add(out(3));
    stream.add(lent_out(3, 156, 0));
    stream.add(out(1));
    stream.add(out(0));
    stream.add(lent_out(2, 156, 1));
    stream.add(lent_out(3, 155, 1));
    for (branch, kw) in [(0, 0), (1, 30), (2, -9)] {
        stream.add(Command::Flow(branch, kw));
    }
    stream.add(out(2));
    stream.add(Command::Flow(2, -31));
    stream.add(out(2));
    for book in [triangle(20), triangle(19), second_book(25)] {
        stream.book(&book);
        stream.add(WHOLE);
    }
    stream.book(&second_book(15));
    stream.add(WHOLE);
    stream.book(&plain(&[0], &[]));
    stream.add(Command::Screen { flow: 0, table: 0 });
    stream.add(lent_out(0, 0, 0));
}

/// Books refused with 1 to 7, before each call that reads a book.
fn damaged(stream: &mut Stream) {
    for bytes in damaged_books() {
        stream.add(Command::Book(bytes));
        stream.add(WHOLE);
        stream.add(out(0));
        stream.add(READ_WHOLE);
    }
}

/// Books with one thing wrong each, in the order of the refusals 1 to 7.
pub fn damaged_books() -> Vec<Vec<u8>> {
    let good = pack(&triangle(30));
    let two = |branches: &[(usize, usize, u32)]| pack(&plain(&[0, 0], branches));
    vec![
        Vec::new(),
        good[..3].to_vec(),
        good[..24].to_vec(),
        [&good[..], &[0]].concat(),
        too_long(&good),
        [&[0], &good[1..]].concat(),
        [&[129], &good[1..]].concat(),
        bits::with(&good, HEADER - 1, true),
        pack(&plain(&[1_000_001, -1, -1], &[])),
        bits::with(&two(&[]), HEADER, true),
        two(&[(0, 2, 1)]),
        two(&[(1, 1, 1)]),
        two(&[(0, 1, 1_000_001)]),
        bits::with(&two(&[(0, 1, 1)]), 8 * two(&[(0, 1, 1)]).len() - 1, true),
        pack(&plain(&[5, -4], &[(0, 1, 1)])),
    ]
}

/// Reading and writing, with the writer's refusals in its order.
fn tables(stream: &mut Stream) {
    stream.add(Command::Spoil);
    stream.book(&triangle(30));
    stream.add(Command::Read { injections: 2, branches: 12 });
    stream.add(Command::Read { injections: 3, branches: 11 });
    stream.add(Command::Read { injections: 3, branches: 12 });
    let write =
        |buses, count, factor, injections, branches, room| written(Form::Old, [buses, count, factor, injections, branches, room]);
    stream.add(write(0, 3, 1000, 0, 0, 0));
    stream.add(write(3, 257, 1000, 0, 0, 0));
    stream.add(write(3, 3, 1001, 0, 0, 0));
    stream.add(write(3, 3, 1000, 2, 12, 0));
    stream.add(write(3, 3, 1000, 3, 11, 0));
    stream.add(write(4, 4, 1000, 4, 16, 0));
    stream.add(write(3, 4, 1000, 3, 16, 0));
    stream.add(Command::Injection(0, 31));
    stream.add(write(3, 3, 1000, 3, 12, 0));
    stream.add(Command::Injection(0, 30));
    stream.add(write(3, 3, 1000, 3, 12, 24));
    stream.add(write(3, 3, 999, 3, 12, 25));
    stream.bytes.push(b'D');
    stream.add(write(3, 3, 1000, INJECTIONS, NUMBERS, BOOK));
    stream.add(READ_WHOLE);
}

/// The register examples and refusals 13 to 16.
fn registers(stream: &mut Stream) {
    let meters = |export: &[(u32, u32)], lent, supply| {
        let zeros = vec![0; export.len()];
        let (starts, ends) = export.iter().copied().unzip();
        Command::Meters { lists: [zeros.clone(), zeros, starts, ends], lent, supply }
    };
    stream.add(meters(&[(4_294_967_290, 10), (3, 2)], 2, 1));
    stream.add(meters(&[(10, 9), (3, 2)], 2, 1));
    stream.add(meters(&[(0, 1), (0, 1)], 1, 1));
    stream.add(meters(&[], 128, 0));
    stream.add(meters(&[(0, 1); 129], 128, 0));
    stream.add(Command::Meters { lists: [vec![1], vec![2], vec![3, 4], vec![5]], lent: 128, supply: 0 });
    stream.add(meters(&[(0, 1), (0, 1)], 2, 2));
    stream.add(meters(&[(0, 1_000_000), (0, 1), (0, 0)], 3, 2));
    stream.add(meters(&[(0, 1_000_000), (7, 0)], 128, 1));
    stream.add(meters(&[(0, 7_874); 128], 128, 127));
}

/// Four buses and six branches, and a flow that fits them.
pub fn four() -> (Book, [i32; 6]) {
    let branches = [(0, 1, 40), (0, 2, 40), (1, 2, 30), (1, 3, 30), (2, 3, 30), (0, 3, 9)];
    (plain(&[40, -10, -10, -20], &branches), [20, 20, 0, 10, 10, 0])
}

/// Puts a book and a flow in place.
pub fn lend(stream: &mut Stream, book: &Book, flow: &[i32]) {
    stream.book(book);
    flow.iter().enumerate().for_each(|(branch, &kw)| stream.add(Command::Flow(branch, kw)));
}

/// Puts a record in place, byte by byte.
pub fn put_record(stream: &mut Stream, branch: usize, bytes: &[u8]) {
    bytes.iter().enumerate().for_each(|(place, &byte)| stream.add(Command::Table(record::SIZE * branch + place, byte)));
}

/// Outages from tables that are not true: an empty reroute, the branch itself, bits beyond the count, wrong verdicts.
fn untrue(stream: &mut Stream) {
    let (book, flow) = four();
    lend(stream, &book, &flow);
    for branch in 0..6 {
        let mut bytes = record::bytes(Verdict::Carries, &[]);
        bytes[20] = [0, 64, 0, 0b1000, 0, 0][branch];
        bytes[51] = 1;
        put_record(stream, branch, &bytes);
    }
    stream.add(out(2));
    stream.add(out(1));
    stream.add(Command::Table(3 * record::SIZE, 2));
    stream.add(Command::Table(5 * record::SIZE, 0));
    stream.add(out(5));
}

/// The 5-bus, 7-bus and 10-bus systems of source document 001.
fn systems(stream: &mut Stream) {
    stream.book(&sources::five_bus());
    stream.add(WHOLE);
    stream.add(out(sources::FIVE_3_4));
    stream.add(out(sources::FIVE_3_5));
    for book in [sources::five_bus_moved(), sources::five_bus_of_cuts_short(), sources::five_bus_of_cuts_carrying()] {
        stream.book(&book);
        stream.add(WHOLE);
    }
    stream.book(&sources::seven_bus());
    for (branch, kw) in sources::seven_bus_flow().into_iter().enumerate() {
        stream.add(Command::Flow(branch, kw as i32));
        put_record(stream, branch, &record::bytes(Verdict::Carries, &sources::seven_reroute(branch)));
    }
    stream.add(out(sources::SEVEN_2_1));
    stream.book(&sources::ten_bus(&sources::TEN_SPLIT));
    stream.add(WHOLE);
    stream.add(out(sources::TEN_1_4));
    assert_eq!(Form::Old.length(10, 11), stream.spaces.length);
}
