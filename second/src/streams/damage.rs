//! Parts of random streams that are mostly refused: damaged books of either form, arbitrary bytes, registers, bad commands.

use crate::books::random::Random;
use crate::books::random_books::{counts, strained};
use crate::definitions::bits;
use crate::definitions::book::pack_items;
use crate::definitions::form::{Form, HEADER, LAYOUT};
use crate::definitions::wrong::Wrong;
use crate::streams::aim::{self, Held};
use crate::streams::stored::{out, READ_WHOLE, WHOLE};
use crate::streams::under_way::Stream;
use crate::trial::stream::{Command, BOOK};

/// What is wrong with a book: fields of its buses or branches, its sum, or its bytes.
#[derive(Clone, Copy, Debug, PartialEq, Eq)]
pub enum Damage {
    Bus,
    Branch,
    Sum,
    Cut,
    Longer,
    OtherLength,
    Counts,
    Fill,
    Layout,
    Tail,
    Buses,
}

impl Damage {
    /// Every kind; those with many fields to spoil more than once.
    pub const ALL: [Damage; 14] = [
        Damage::Bus,
        Damage::Bus,
        Damage::Branch,
        Damage::Branch,
        Damage::Branch,
        Damage::Sum,
        Damage::Cut,
        Damage::Longer,
        Damage::OtherLength,
        Damage::Counts,
        Damage::Fill,
        Damage::Layout,
        Damage::Tail,
        Damage::Buses,
    ];
}

/// A damaged book or arbitrary bytes, before every call that reads a book.
pub fn damaged(stream: &mut Stream) {
    for _ in 0..6 {
        let damage = *stream.random.pick(&Damage::ALL);
        let bytes =
            if stream.random.once_in(4) { arbitrary(&mut stream.random) } else { spoilt_book(&mut stream.random, damage) };
        stream.add(Command::Book(bytes));
        lend_to_a_call(stream);
        if stream.dumps_left == 0 {
            return;
        }
    }
}

/// A screen, an outage or a read of whatever stands in the book space.
pub fn lend_to_a_call(stream: &mut Stream) {
    let branch = stream.random.below(300);
    let call = match stream.random.below(3) {
        0 => WHOLE,
        1 => out(branch),
        _ => READ_WHOLE,
    };
    stream.add(call);
}

/// Bytes of any length; half of those long enough have a header in range of either form and the length that goes with it.
fn arbitrary(random: &mut Random) -> Vec<u8> {
    let length = *random.pick(&[0, 1, 3, 4, 5, 30, 1460, 1461, BOOK]);
    let length = if random.once_in(2) { length } else { random.below(BOOK + 1) };
    let mut bytes: Vec<u8> = (0..length).map(|_| random.word() as u8).collect();
    if random.once_in(2) && length >= 4 {
        let (buses, count, factor) = (1 + random.below(128), random.below(257), 1 + random.below(1000) as u32);
        let form = *random.pick(&Form::BOTH);
        let header = (buses as u32) << 24 | (count as u32) << 15 | factor << 5 | form.layout_bit() << 4;
        bytes[..4].copy_from_slice(&header.to_be_bytes());
        bytes.resize(form.length(buses, count), random.word() as u8);
    }
    bytes
}

/// A random book that is damaged.
pub fn spoilt_book(random: &mut Random, damage: Damage) -> Vec<u8> {
    let (buses, count) = counts(random);
    let mut book = strained(random, buses, count);
    if damage == Damage::Sum {
        let bus = random.below(buses);
        book.injections[bus] += random.between(-3, 3);
    }
    let mut items = book.items();
    if matches!(damage, Damage::Bus | Damage::Branch) {
        let mut wrongs = Wrong::of_book(book.form);
        wrongs.retain(|wrong| wrong.field().of_bus() == (damage == Damage::Bus));
        let wrong = *random.pick(&wrongs);
        aim::damage(random, &mut items, Held::Book, wrong);
    }
    let mut bytes = pack_items(&items, book.factor);
    let other_length = book.length_in(book.form.other());
    match damage {
        Damage::Cut => bytes.truncate(random.below(bytes.len())),
        Damage::Longer => bytes.resize((bytes.len() + 1 + random.below(40)).min(BOOK), 0),
        Damage::OtherLength => bytes.resize(other_length, 0),
        Damage::Counts => flip(random, &mut bytes, 0, LAYOUT),
        Damage::Fill => flip(random, &mut bytes, LAYOUT + 1, HEADER),
        Damage::Layout => flip(random, &mut bytes, LAYOUT, LAYOUT + 1),
        Damage::Tail => *bytes.last_mut().expect("never empty") |= 1,
        Damage::Buses => bytes[0] = *random.pick(&[0, 129, 255]),
        Damage::Bus | Damage::Branch | Damage::Sum => {}
    }
    bytes
}

fn flip(random: &mut Random, bytes: &mut [u8], from: usize, to: usize) {
    let place = from + random.below(to - from);
    let turned = !bits::bit(bytes, place);
    bits::set(bytes, place, turned);
}

/// Registers with advances small and large, rolled over, and lists of every length.
pub fn registers(stream: &mut Stream) {
    for _ in 0..4 {
        let buses = *stream.random.pick(&[1, 2, 5, 5, 40, 40, 128, 128, 129, 0, 200]);
        let most = *stream.random.pick(&[10, 7_000, 500_000, 1_000_000, 1_000_000, 1_000_001, u32::MAX as i64]);
        let mut lists: [Vec<u32>; 4] = Default::default();
        for bus in 0..buses {
            for kind in 0..2 {
                let start = *stream.random.pick(&[0, 10, 4_294_967_290, stream.random.0 as u32]);
                let advance = if stream.random.once_in(3) { most } else { stream.random.between(0, most.min(100 + 10 * bus)) };
                lists[2 * kind].push(start);
                lists[2 * kind + 1].push(start.wrapping_add(advance as u32));
            }
        }
        if stream.random.once_in(6) {
            let list = stream.random.below(4);
            lists[list].pop();
        }
        let lent = if stream.random.once_in(6) { stream.random.below(128) } else { 128 };
        let supplies = if stream.random.once_in(6) { 256 } else { buses.max(1) as usize };
        let supply = stream.random.below(supplies);
        stream.add(Command::Meters { lists, lent, supply });
    }
}

/// An end that is no command: another byte, a number too large, or an end inside a command.
pub fn bad_command(stream: &mut Stream) {
    let bad: &[u8] = match stream.random.below(26) {
        0 => b"x",
        1 => b"F\x01\x00\x00\x00\x00\x00",
        2 => b"T\x34\x00\x00",
        3 => b"I\x00\x80\x00\x00\x00\x00",
        4 => b"N\x05\x00\x00\x00\x00\x00",
        5 => b"S\x01\x01\x00\x00",
        6 => b"O\x00\x00\x34\x01\x00\x00",
        7 => b"R\x00\x81\x00\x00",
        8 => b"B\x08\x35",
        9 => b"M\x00\x00\x00\x00\x81\x00",
        10 => b"W\x00\x01\x00\x00\x00\x01\x00\x01\x00\x01\x08\x35",
        11 => b"K\x01\x01\x00\x00\x00\x00",
        12 => b"K\x01\x00\x34\x01\x00\x00",
        13 => b"K\x01\x00\x34\x00\x00",
        14 => b"L\x02\x00\x00",
        15 => b"L\xff\x08\x34",
        16 => b"L\x00\x08\x35",
        17 => b"L\x01\x08",
        18 => b"X\x00\x01\x00\x00\x00\x01\x00\x01\x00\x01\x08\x35",
        19 => b"X\x00\x01\x00\x00\x00\x01\x00\x01\x05\x01\x00\x07",
        20 => b"Y",
        21 => b"V\x01\x01\x00\x00\x00\x00\x00\x01\x00\x00\x00\x00",
        22 => b"V\x01\x00\x34\x01\x00\x00\x00\x01\x00\x00\x00\x00",
        23 => b"V\x01\x00\x34\x00\x00\x00\x00\x01\x00\x00\x00",
        24 => b"V\x01\x00\x34\x00\xff",
        _ => b"B\x00\x05\x01\x02",
    };
    stream.bytes.extend(bad);
    if stream.random.once_in(2) {
        stream.bytes.extend(b"DDD");
    }
}
