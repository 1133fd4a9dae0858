//! The commands of a trial stream: read from bytes and turned into bytes.

use crate::definitions::form::Form;
use crate::definitions::load::Shift;
use crate::definitions::percentage::Percentage;
use crate::definitions::switching::Way;

pub const BOOK: usize = 2_100;
pub const FLOWS: usize = 256;
pub const TABLE: usize = 13_312;
pub const INJECTIONS: usize = 128;
pub const NUMBERS: usize = 1_280;

#[derive(Clone, Debug, PartialEq, Eq)]
pub enum Command {
    Spoil,
    Book(Vec<u8>),
    Flow(usize, i32),
    Table(usize, u8),
    Injection(usize, i32),
    Number(usize, u32),
    Screen {
        flow: usize,
        table: usize,
    },
    Switch {
        way: Way,
        flow: usize,
        table: usize,
        branch: usize,
    },
    /// A move of load, which is no move of a book.
    Load {
        flow: usize,
        table: usize,
        shift: Shift,
    },
    Read {
        injections: usize,
        branches: usize,
    },
    Write {
        form: Form,
        buses: usize,
        count: usize,
        factor: usize,
        injections: usize,
        branches: usize,
        room: usize,
    },
    Move {
        form: Form,
        room: usize,
    },
    Meters {
        lists: [Vec<u32>; 4],
        lent: usize,
        supply: usize,
    },
    /// That of all later calls, until the next.
    Percentage(Percentage),
    Dump,
}

impl Command {
    /// The word that begins its answer; none where it makes no call.
    pub fn call(&self) -> Option<&'static str> {
        match self {
            Command::Screen { .. } => Some("screen"),
            Command::Switch { way, .. } => Some(way.name()),
            Command::Load { .. } => Some("move"),
            Command::Read { .. } => Some("read"),
            Command::Write { .. } => Some("write"),
            Command::Move { .. } => Some("moved"),
            Command::Meters { .. } => Some("meters"),
            _ => None,
        }
    }

    /// Whether it makes a call that rests on a limit, and so takes the percentage: a screen, an outage, a return, a
    /// move of load.
    pub fn takes_percentage(&self) -> bool {
        matches!(self, Command::Screen { .. } | Command::Switch { .. } | Command::Load { .. })
    }

    /// The number of its answer among the lines that it printed.
    pub fn answer_in(&self, lines: &[String]) -> Option<u32> {
        self.call()?;
        lines.first()?.split(' ').nth(1)?.parse().ok()
    }
}

/// A number above what its row allows, another command byte, or an end inside a command.
#[derive(Debug, PartialEq, Eq)]
pub struct Bad;

pub struct Commands<'a> {
    bytes: &'a [u8],
    at: usize,
}

pub fn commands(bytes: &[u8]) -> Commands<'_> {
    Commands { bytes, at: 0 }
}

impl Iterator for Commands<'_> {
    type Item = Result<Command, Bad>;

    fn next(&mut self) -> Option<Result<Command, Bad>> {
        if self.at >= self.bytes.len() {
            return None;
        }
        let command = self.command();
        if command.is_err() {
            self.at = self.bytes.len();
        }
        Some(command)
    }
}

impl Commands<'_> {
    fn take(&mut self, count: usize) -> Result<&[u8], Bad> {
        let taken = self.bytes.get(self.at..self.at + count).ok_or(Bad)?;
        self.at += count;
        Ok(taken)
    }

    fn number(&mut self, bytes: usize) -> Result<u32, Bad> {
        Ok(self.take(bytes)?.iter().fold(0, |value, &byte| value << 8 | byte as u32))
    }

    /// A number of two bytes that is at most `most`.
    fn two(&mut self, most: usize) -> Result<usize, Bad> {
        let number = self.number(2)? as usize;
        if number <= most {
            Ok(number)
        } else {
            Err(Bad)
        }
    }

    fn command(&mut self) -> Result<Command, Bad> {
        Ok(match self.number(1)? as u8 {
            b'P' => Command::Spoil,
            b'B' => {
                let count = self.two(BOOK)?;
                Command::Book(self.take(count)?.to_vec())
            }
            b'F' => Command::Flow(self.two(FLOWS - 1)?, self.number(4)? as i32),
            b'T' => Command::Table(self.two(TABLE - 1)?, self.number(1)? as u8),
            b'I' => Command::Injection(self.two(INJECTIONS - 1)?, self.number(4)? as i32),
            b'N' => Command::Number(self.two(NUMBERS - 1)?, self.number(4)?),
            b'S' => Command::Screen { flow: self.two(FLOWS)?, table: self.two(TABLE)? },
            b'O' => self.switch(Way::Out)?,
            b'K' => self.switch(Way::Back)?,
            b'V' => Command::Load { flow: self.two(FLOWS)?, table: self.two(TABLE)?, shift: self.shift()? },
            b'R' => Command::Read { injections: self.two(INJECTIONS)?, branches: self.two(NUMBERS)? },
            b'W' => self.write(Form::Old)?,
            b'X' => self.write(Form::New)?,
            b'L' => Command::Move { form: self.form()?, room: self.two(BOOK)? },
            b'M' => self.meters()?,
            b'Y' => Command::Percentage(Percentage(self.number(1)? as u8)),
            b'D' => Command::Dump,
            _ => return Err(Bad),
        })
    }

    fn switch(&mut self, way: Way) -> Result<Command, Bad> {
        Ok(Command::Switch { way, flow: self.two(FLOWS)?, table: self.two(TABLE)?, branch: self.two(65_535)? })
    }

    fn shift(&mut self) -> Result<Shift, Bad> {
        Ok(Shift { up: self.two(65_535)?, down: self.two(65_535)?, kw: self.number(4)? })
    }

    fn write(&mut self, form: Form) -> Result<Command, Bad> {
        Ok(Command::Write {
            form,
            buses: self.two(65_535)?,
            count: self.two(65_535)?,
            factor: self.two(65_535)?,
            injections: self.two(INJECTIONS)?,
            branches: self.two(NUMBERS)?,
            room: self.two(BOOK)?,
        })
    }

    fn form(&mut self) -> Result<Form, Bad> {
        Form::BOTH.get(self.number(1)? as usize).copied().ok_or(Bad)
    }

    fn meters(&mut self) -> Result<Command, Bad> {
        let lengths: [u8; 4] = self.take(4)?.try_into().map_err(|_| Bad)?;
        let lent = self.number(1)? as usize;
        let supply = self.number(1)? as usize;
        if lent > INJECTIONS {
            return Err(Bad);
        }
        let mut lists: [Vec<u32>; 4] = Default::default();
        for (list, length) in lists.iter_mut().zip(lengths) {
            for _ in 0..length {
                list.push(self.number(4)?);
            }
        }
        Ok(Command::Meters { lists, lent, supply })
    }
}

/// The bytes of a command.
pub fn bytes(command: &Command) -> Vec<u8> {
    let two = |number: &usize| (*number as u16).to_be_bytes();
    match command {
        Command::Spoil => vec![b'P'],
        Command::Book(book) => [&b"B"[..], &two(&book.len()), book].concat(),
        Command::Flow(k, v) => [&b"F"[..], &two(k), &v.to_be_bytes()].concat(),
        Command::Table(k, v) => [&b"T"[..], &two(k), &[*v]].concat(),
        Command::Injection(k, v) => [&b"I"[..], &two(k), &v.to_be_bytes()].concat(),
        Command::Number(k, v) => [&b"N"[..], &two(k), &v.to_be_bytes()].concat(),
        Command::Screen { flow, table } => [&b"S"[..], &two(flow), &two(table)].concat(),
        Command::Switch { way, flow, table, branch } => {
            let letter = if *way == Way::Out { b"O" } else { b"K" };
            [&letter[..], &two(flow), &two(table), &two(branch)].concat()
        }
        Command::Load { flow, table, shift } => {
            [&b"V"[..], [flow, table, &shift.up, &shift.down].map(two).as_flattened(), &shift.kw.to_be_bytes()].concat()
        }
        Command::Read { injections, branches } => [&b"R"[..], &two(injections), &two(branches)].concat(),
        Command::Write { form, buses, count, factor, injections, branches, room } => {
            let letter = if *form == Form::Old { b"W" } else { b"X" };
            let numbers = [buses, count, factor, injections, branches, room].map(two);
            [&letter[..], numbers.as_flattened()].concat()
        }
        Command::Move { form, room } => [&b"L"[..], &[form.layout_bit() as u8], &two(room)].concat(),
        Command::Meters { lists, lent, supply } => {
            let mut bytes = vec![b'M'];
            bytes.extend(lists.iter().map(|list| list.len() as u8));
            bytes.extend([*lent as u8, *supply as u8]);
            bytes.extend(lists.iter().flatten().flat_map(|reading| reading.to_be_bytes()));
            bytes
        }
        Command::Percentage(percentage) => vec![b'Y', percentage.0],
        Command::Dump => vec![b'D'],
    }
}
