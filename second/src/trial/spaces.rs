//! The spaces a trial keeps, what the plain commands do to them, and the lines that print them.

use crate::definitions::answer::Answer;
use crate::definitions::form::Form;
use crate::definitions::meters::{self, Registers};
use crate::definitions::moves;
use crate::definitions::percentage::{Percentage, NAMEPLATE};
use crate::definitions::record;
use crate::definitions::switching::Lent;
use crate::definitions::tables;
use crate::trial::stream::{Command, BOOK, FLOWS, INJECTIONS, NUMBERS, TABLE};
use std::fmt::Write;

#[derive(Clone, PartialEq, Eq)]
pub struct Spaces {
    pub book: Vec<u8>,
    pub length: usize,
    pub flow: Vec<i64>,
    pub table: Vec<u8>,
    pub injections: Vec<i64>,
    pub numbers: Vec<u32>,
    /// The second book space, which holds what a move wrote.
    pub shelf: Vec<u8>,
    /// No space, but kept beside them: the percentage of every call until it is told another.
    pub percentage: Percentage,
}

impl Default for Spaces {
    fn default() -> Spaces {
        Spaces {
            book: vec![0; BOOK],
            length: 0,
            flow: vec![0; FLOWS],
            table: vec![0; TABLE],
            injections: vec![0; INJECTIONS],
            numbers: vec![0; NUMBERS],
            shelf: vec![0; BOOK],
            percentage: NAMEPLATE,
        }
    }
}

impl Spaces {
    pub fn bytes(&self) -> &[u8] {
        &self.book[..self.length]
    }

    pub fn lent(&self, flow: usize, table: usize) -> Lent<'_> {
        Lent { percentage: self.percentage, book: self.bytes(), flow: &self.flow[..flow], table: &self.table[..table] }
    }

    /// Puts the book, the flow and the table that an accepted call left in their places.
    pub fn leave(&mut self, book: &[u8], flow: &[i64], table: &[u8]) {
        self.book[..book.len()].copy_from_slice(book);
        self.flow[..flow.len()].copy_from_slice(flow);
        self.table[..table.len()].copy_from_slice(table);
    }

    /// Whether book, flow and table are the same.
    pub fn same_lent(&self, other: &Spaces) -> bool {
        self.bytes() == other.bytes() && self.flow == other.flow && self.table == other.table
    }

    /// Spoils every space; the percentage is none and stays.
    fn spoil(&mut self) {
        self.book.fill(170);
        self.length = 0;
        self.flow.fill(7_777_777);
        self.table.fill(170);
        self.injections.fill(7_777_777);
        self.numbers.fill(7_777_777);
        self.shelf.fill(170);
    }

    /// Does a command whose whole effect the papers fix and answers its lines; not for `S`, `O`, `K`, `V` and
    /// `D`.
    pub fn run(&mut self, command: &Command) -> (Option<Answer>, Vec<String>) {
        match command {
            Command::Spoil => self.spoil(),
            Command::Book(bytes) => {
                self.book[..bytes.len()].copy_from_slice(bytes);
                self.length = bytes.len();
            }
            Command::Flow(k, v) => self.flow[*k] = *v as i64,
            Command::Table(k, v) => self.table[*k] = *v,
            Command::Injection(k, v) => self.injections[*k] = *v as i64,
            Command::Number(k, v) => self.numbers[*k] = *v,
            Command::Percentage(percentage) => self.percentage = *percentage,
            Command::Read { injections, branches } => return self.read(*injections, *branches),
            Command::Write { .. } => return self.write(command),
            Command::Move { form, room } => return self.move_book(*form, *room),
            Command::Meters { lists, lent, supply } => return self.meters(lists, *lent, *supply),
            Command::Screen { .. } | Command::Switch { .. } | Command::Load { .. } | Command::Dump => {
                unreachable!("left to the caller")
            }
        }
        (None, Vec::new())
    }

    fn read(&mut self, injections: usize, branches: usize) -> (Option<Answer>, Vec<String>) {
        let read = tables::read(self.bytes(), injections, branches);
        if let Ok(book) = &read {
            self.injections[..book.injections.len()].copy_from_slice(&book.injections);
            let numbers = tables::numbers(book);
            self.numbers[..numbers.len()].copy_from_slice(&numbers);
        }
        let answer = read.err().map_or(Answer::ACCEPTED, Answer::from);
        (Some(answer), vec![format!("read {answer}"), self.injections_line(), spaced("branches", &self.numbers)])
    }

    fn write(&mut self, command: &Command) -> (Option<Answer>, Vec<String>) {
        let Command::Write { form, buses, count, factor, injections, branches, room } = *command else {
            unreachable!("a write");
        };
        let (injections, numbers) = (&self.injections[..injections], &self.numbers[..branches]);
        let written = tables::write(form, buses, count, factor as u32, injections, numbers, room);
        if let Ok(bytes) = &written {
            self.book[..bytes.len()].copy_from_slice(bytes);
            self.length = bytes.len();
        }
        let answer = written.err().map_or(Answer::ACCEPTED, Answer::from);
        (Some(answer), vec![format!("write {answer}")])
    }

    fn move_book(&mut self, form: Form, room: usize) -> (Option<Answer>, Vec<String>) {
        let moved = moves::moved(self.bytes(), form, room);
        if let Ok(bytes) = &moved {
            self.shelf[..bytes.len()].copy_from_slice(bytes);
        }
        let answer = moved.err().map_or(Answer::ACCEPTED, Answer::from);
        (Some(answer), vec![format!("moved {answer}"), self.shelf_line()])
    }

    fn meters(&mut self, lists: &[Vec<u32>; 4], lent: usize, supply: usize) -> (Option<Answer>, Vec<String>) {
        let [import_start, import_end, export_start, export_end] = lists;
        let found = meters::injections(&Registers { import_start, import_end, export_start, export_end }, supply, lent);
        if let Ok(found) = &found {
            self.injections[..found.len()].copy_from_slice(found);
        }
        let answer = found.err().map_or(Answer::ACCEPTED, Answer::refused);
        (Some(answer), vec![format!("meters {answer}"), self.injections_line()])
    }

    fn injections_line(&self) -> String {
        spaced("injections", &self.injections)
    }

    pub fn book_line(&self) -> String {
        format!("book {} {}", self.length, hex(&self.book))
    }

    pub fn shelf_line(&self) -> String {
        format!("shelf {}", hex(&self.shelf))
    }

    pub fn flow_line(&self) -> String {
        spaced("flow", &self.flow)
    }

    pub fn record_line(&self, number: usize) -> String {
        format!("record {number} {}", hex(record::stretch(&self.table, number)))
    }

    /// The lines of a dump, which doesn't show the shelf.
    pub fn dump(&self) -> Vec<String> {
        let records = (0..FLOWS).map(|number| self.record_line(number));
        [self.book_line(), self.flow_line()].into_iter().chain(records).collect()
    }
}

/// A word and numbers, separated by one space.
pub fn spaced<T: std::fmt::Display>(word: &str, numbers: &[T]) -> String {
    let mut line = word.to_string();
    for number in numbers {
        write!(line, " {number}").expect("a string takes it");
    }
    line
}

/// Lower case, two digits a byte, nothing between.
pub fn hex(bytes: &[u8]) -> String {
    let mut line = String::with_capacity(2 * bytes.len());
    for byte in bytes {
        write!(line, "{byte:02x}").expect("a string takes it");
    }
    line
}

pub fn from_hex(digits: &str) -> Option<Vec<u8>> {
    let digit = |byte: u8| (byte as char).to_digit(16).filter(|_| !byte.is_ascii_uppercase());
    let pairs = digits.as_bytes().chunks(2);
    pairs.map(|pair| Some((digit(pair[0])? << 4 | digit(*pair.get(1)?)?) as u8)).collect()
}
