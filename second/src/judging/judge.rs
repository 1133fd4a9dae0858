//! Judges the output of a trial: by equality where the papers fix it, flows and reroutes by the definitions.
//!
//! Flows and reroutes are the other program's own choice, so the judge takes them over from a dump. For that a `D`
//! must be the next command after each accepted `S`, `O`, `K` and `V`; a stream without it is answered as not to be judged. Every
//! other dump is due by equality: after a refused call it shows the spaces as they stood before the call.

use crate::definitions::answer::Answer;
use crate::definitions::book;
use crate::definitions::comeback;
use crate::definitions::load;
use crate::definitions::network::Network;
use crate::definitions::outage;
use crate::definitions::record;
use crate::definitions::screen;
use crate::definitions::switching::Way;
use crate::judging::accepted::{Call, Switch};
use crate::judging::forms;
use crate::judging::loads::{self, Moved};
use crate::judging::moved;
use crate::judging::percentages;
use crate::judging::ratings;
use crate::judging::run::Run;
use crate::judging::series::{Series, Switched};
use crate::judging::tally::Tally;
use crate::trial::spaces::{from_hex, Spaces};
use crate::trial::stream::{commands, Command, FLOWS};

/// An accepted call whose flow and table the next dump must show.
enum Pending {
    Screen(Network),
    Switch(Switch),
    Load(Moved),
}

impl Pending {
    /// The book that the call must leave: no bit of it is a choice.
    fn book(&self, before: &Spaces) -> Vec<u8> {
        match self {
            Pending::Screen(_) => before.bytes().to_vec(),
            Pending::Switch(switch) => book::with_status(before.bytes(), switch.branch, switch.way.serves()),
            Pending::Load(moved) => moved.shift.book(before.bytes()),
        }
    }
}

/// Such a call with its command.
type Accepted = (Command, Pending);

pub struct Judge<'a> {
    spaces: Spaces,
    lines: std::str::Lines<'a>,
    pending: Option<Accepted>,
    run: Run,
    series: Series,
    pub tally: Tally,
}

/// Judges a whole output; the error names the first fault.
pub fn judge(stream: &[u8], output: &str) -> (Tally, Result<(), String>) {
    let mut judge = Judge {
        spaces: Spaces::default(),
        lines: output.lines(),
        pending: None,
        run: Run::default(),
        series: Series::default(),
        tally: Tally::default(),
    };
    let verdict = judge.whole(stream, output);
    (judge.tally, verdict)
}

impl Judge<'_> {
    fn whole(&mut self, stream: &[u8], output: &str) -> Result<(), String> {
        if !output.is_empty() && !output.ends_with('\n') || output.contains('\r') {
            return Err("a line does not end in a newline alone".into());
        }
        for (place, command) in commands(stream).enumerate() {
            if self.pending.is_some() && command != Ok(Command::Dump) {
                return Err(format!("not to be judged: command {place} follows an accepted call and is no D"));
            }
            let judged = match command {
                Ok(command) => self.step(&command).map_err(|fault| format!("command {place} ({}): {fault}", word(&command))),
                Err(_) => {
                    self.tally.count("bad command");
                    self.due("bad command")
                }
            };
            judged?;
        }
        if self.pending.is_some() {
            return Err("not to be judged: the stream ends after an accepted call".into());
        }
        self.lines.next().map_or(Ok(()), |line| Err(format!("more output than commands: {}", cut(line))))
    }

    fn due(&mut self, due: &str) -> Result<(), String> {
        match self.lines.next() {
            Some(line) if line == due => Ok(()),
            Some(line) => Err(format!("printed `{}`, due is `{}`", cut(line), cut(due))),
            None => Err(format!("the output ends, due is `{}`", cut(due))),
        }
    }

    fn refused(&mut self, command: &Command, answer: Answer) {
        self.tally.count(&format!("refused {:>2}", answer.number));
        self.tally.count(&format!("{} refused {:>2}", word(command), answer.number));
        forms::refused(&mut self.tally, command, &self.spaces, answer.number);
        if answer.place.is_some() {
            self.tally.places.count(command, &self.spaces);
        }
    }

    fn step(&mut self, command: &Command) -> Result<(), String> {
        match command {
            Command::Screen { flow, table } => {
                let accepted = screen::screened(self.spaces.percentage, self.spaces.bytes(), *flow, *table);
                self.call(command, accepted.map(Pending::Screen))
            }
            Command::Switch { way, flow, table, branch } => {
                let accepted = self.switch(*way, *flow, *table, *branch);
                self.call(command, accepted.map(Pending::Switch))
            }
            &Command::Load { flow, table, shift } => {
                let accepted = load::allowed(&self.spaces.lent(flow, table), shift);
                self.call(command, accepted.map(|network| Pending::Load(Moved { network, flow, table, shift })))
            }
            Command::Dump => self.dump(),
            other => self.plain(other),
        }
    }

    /// A switching call as the papers answer it; a refused return is counted by how the table stood.
    fn switch(&mut self, way: Way, flow: usize, table: usize, branch: usize) -> Result<Switch, Answer> {
        let lent = self.spaces.lent(flow, table);
        let accepted = match way {
            Way::Out => outage::allowed(&lent, branch),
            Way::Back => comeback::allowed(&lent, branch),
        };
        if let (Way::Back, Err(answer)) = (way, &accepted) {
            let standing = self.run.standing(&self.spaces);
            self.tally.count(&format!("back refused {:>2}, {standing}", answer.number));
        }
        Ok(Switch { way, network: accepted?, flow, table, branch })
    }

    /// The answer of a call is due; what an accepted one left is for the next dump to show.
    fn call(&mut self, command: &Command, accepted: Result<Pending, Answer>) -> Result<(), String> {
        let answer = accepted.as_ref().err().copied().unwrap_or(Answer::ACCEPTED);
        self.due(&format!("{} {answer}", word(command)))?;
        percentages::called(&mut self.tally, &self.run, &self.spaces, command, answer);
        if !answer.accepted() {
            self.refused(command, answer);
            match (command, answer.number) {
                (Command::Screen { .. }, 12) => ratings::screen_refused_12(&mut self.tally, &self.spaces),
                (Command::Load { shift, .. }, _) => loads::refused(&mut self.tally, &self.run, &self.spaces, *shift, answer),
                (Command::Switch { .. }, 11) => ratings::refused_11(&mut self.tally, &self.spaces, word(command)),
                (Command::Switch { branch, .. }, 12) => self.refused_12(*branch, answer)?,
                _ => {}
            }
        }
        self.pending = accepted.ok().map(|pending| (command.clone(), pending));
        Ok(())
    }

    /// An outage of a branch in service that the changed book has an excess without.
    fn refused_12(&mut self, branch: usize, answer: Answer) -> Result<(), String> {
        let (network, held) = ratings::refused_12(&mut self.tally, &self.run, &self.spaces, branch, answer)?;
        let (before, left, midway) = (&self.spaces, &self.spaces, self.run.midway(self.spaces.percentage));
        let switched = Switched { network: &network, way: Way::Out, branch, accepted: false, before, left, held, midway };
        self.series.switched(&mut self.tally, switched)
    }

    fn plain(&mut self, command: &Command) -> Result<(), String> {
        let before = self.run.known().then(|| self.spaces.clone());
        let shelf = matches!(command, Command::Move { .. }).then(|| self.spaces.shelf.clone());
        let (answer, lines) = self.spaces.run(command);
        if let Some(before) = before {
            self.run.stored(&before, &self.spaces);
        }
        for line in &lines {
            self.due(line)?;
        }
        if let Some(answer) = answer {
            percentages::called(&mut self.tally, &self.run, &self.spaces, command, answer);
        }
        match answer {
            Some(Answer::ACCEPTED) => self.accepted(command, shelf),
            Some(answer) => {
                self.refused(command, answer);
                Ok(())
            }
            None => Ok(()),
        }
    }

    /// An accepted call whose effect is fixed; a move is held to its promises too, the shelf being the one before it.
    fn accepted(&mut self, command: &Command, shelf: Option<Vec<u8>>) -> Result<(), String> {
        self.tally.count(&format!("{} accepted", word(command)));
        let book = self.spaces.bytes();
        match (command, shelf) {
            (Command::Meters { .. }, _) => {}
            (Command::Move { form, room }, Some(shelf)) => {
                moved::promised(book, *form, &shelf, &self.spaces.shelf)?;
                forms::moved(&mut self.tally, book, *form, *room);
            }
            _ => forms::accepted(&mut self.tally, word(command), book),
        }
        Ok(())
    }

    fn dump(&mut self) -> Result<(), String> {
        self.tally.count("dumps");
        let mut left = self.spaces.clone();
        let pending = self.pending.take();
        if let Some((_, pending)) = &pending {
            left.leave(&pending.book(&self.spaces), &[], &[]);
        }
        self.due(&left.book_line()).map_err(|fault| format!("the book as it must be now, {} bytes: {fault}", left.length))?;
        let Some((command, pending)) = pending else {
            return left.dump()[1..].iter().try_for_each(|line| self.due(line));
        };
        self.take_over(&mut left)?;
        let mut call = Call { command: &command, before: &self.spaces, left: &left, run: &self.run, tally: &mut self.tally };
        let held = match &pending {
            Pending::Screen(network) => call.judge_screen(network).map(|()| None)?,
            Pending::Switch(switch) => Some(call.judge_switch(switch)?),
            Pending::Load(moved) => Some(call.judge_load(moved)?),
        };
        self.ordered(&pending, &left, held)?;
        match held {
            None => self.run.screened(self.spaces.percentage),
            Some(held) => self.run.changed(&command, &self.spaces, held),
        }
        forms::accepted(&mut self.tally, word(&command), self.spaces.bytes());
        self.spaces = left;
        Ok(())
    }

    /// A series of switchings goes on with another one, and ends with a screen or a move of load.
    fn ordered(&mut self, pending: &Pending, left: &Spaces, held: Option<bool>) -> Result<(), String> {
        let (Pending::Switch(Switch { way, network, branch, .. }), Some(held)) = (pending, held) else {
            self.series.end();
            return Ok(());
        };
        let (way, branch, midway) = (*way, *branch, self.run.midway(self.spaces.percentage));
        let switched = Switched { network, way, branch, accepted: true, before: &self.spaces, left, held, midway };
        self.series.switched(&mut self.tally, switched)
    }

    /// Reads the flow and the table that a dump shows; the line made again from them must be the line itself.
    fn take_over(&mut self, left: &mut Spaces) -> Result<(), String> {
        let line = self.lines.next().ok_or("the output ends before the flow")?;
        let numbers: Option<Vec<i64>> = line.split(' ').skip(1).map(|number| number.parse().ok()).collect();
        left.flow = numbers.filter(|numbers| numbers.len() == FLOWS).ok_or(format!("not a flow line: {}", cut(line)))?;
        if line != left.flow_line() {
            return Err(format!("not a flow line: {}", cut(line)));
        }
        for number in 0..FLOWS {
            let line = self.lines.next().ok_or("the output ends inside the records")?;
            let bytes = line.rsplit(' ').next().and_then(from_hex).filter(|bytes| bytes.len() == record::SIZE);
            let bytes = bytes.ok_or(format!("not a record line: {}", cut(line)))?;
            left.table[record::SIZE * number..record::SIZE * (number + 1)].copy_from_slice(&bytes);
            if line != left.record_line(number) {
                return Err(format!("not the line of record {number}: {}", cut(line)));
            }
        }
        Ok(())
    }
}

fn word(command: &Command) -> &'static str {
    command.call().unwrap_or(if *command == Command::Dump { "dump" } else { "store" })
}

fn cut(line: &str) -> String {
    line.chars().take(120).collect()
}
