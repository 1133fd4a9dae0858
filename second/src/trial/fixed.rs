//! What the papers fix of a trial's output: everything but `?` where a flow number or a table byte is left open.
//!
//! Open after an accepted screen, outage or move of load: the flow of every branch in service, and the reroute of every
//! carrying one. After an outage or a move from a table not known to be true at its percentage also every byte of a record
//! whose place on the shortlist may hang on the flow. A return and a move of 0 kW open no flow, and of a record only the
//! reroute of one that they write anew and that carries. Where an answer itself hangs on an open flow, the rest is left out.

use crate::definitions::answer::Answer;
use crate::definitions::book;
use crate::definitions::cuts;
use crate::definitions::limits::Limits;
use crate::definitions::load::{self, Shift};
use crate::definitions::network::{Line, Network, Verdict};
use crate::definitions::percentage::Percentage;
use crate::definitions::record::{self, SIZE};
use crate::definitions::screen;
use crate::definitions::switching::{self, Lent, Way};
use crate::trial::spaces::{hex, Spaces};
use crate::trial::stream::{commands, Command, FLOWS, TABLE};

struct Fixed {
    spaces: Spaces,
    open_flow: Vec<bool>,
    open_table: Vec<bool>,
    /// The least percentage at which the flow is known to fit the book, though its numbers may be open.
    fits_at: Option<Percentage>,
    /// The percentage at which the table is known to be true.
    true_at: Option<Percentage>,
}

/// A changed network without an excess; else 12. A return leaves none where a flow fitted before it.
fn not_overloaded(changed: Network) -> Result<Network, Answer> {
    let excess = cuts::base_excess(&changed);
    if excess.amount > 0 {
        Err(Answer::overloaded(excess))
    } else {
        Ok(changed)
    }
}

/// The fixed part of the output for a stream.
pub fn fixed(stream: &[u8]) -> String {
    let mut fixed = Fixed {
        spaces: Spaces::default(),
        open_flow: vec![false; FLOWS],
        open_table: vec![false; TABLE],
        fits_at: None,
        true_at: None,
    };
    let mut text = String::new();
    for command in commands(stream) {
        let lines = command.map_or(Some(vec!["bad command".into()]), |command| fixed.step(&command));
        let Some(lines) = lines else {
            return text + "? the rest hangs on a choice of the flow\n";
        };
        lines.iter().for_each(|line| text += &format!("{line}\n"));
    }
    text
}

impl Fixed {
    fn step(&mut self, command: &Command) -> Option<Vec<String>> {
        match command {
            Command::Screen { flow, table } => Some(vec![format!("screen {}", self.screen(*flow, *table))]),
            Command::Switch { way, flow, table, branch } => {
                let answer = self.switch(*way, *flow, *table, *branch)?;
                Some(vec![format!("{} {answer}", command.call()?)])
            }
            Command::Load { flow, table, shift } => Some(vec![format!("move {}", self.move_load(*flow, *table, *shift)?)]),
            Command::Dump => Some(self.dump()),
            other => Some(self.plain(other)),
        }
    }

    fn plain(&mut self, command: &Command) -> Vec<String> {
        match command {
            Command::Flow(k, _) => self.open_flow[*k] = false,
            Command::Table(k, _) => self.open_table[*k] = false,
            Command::Spoil => {
                self.open_flow.fill(false);
                self.open_table.fill(false);
            }
            _ => {}
        }
        let (_, lines) = self.spaces.run(command);
        let stores =
            matches!(command, Command::Table(..) | Command::Injection(..) | Command::Number(..) | Command::Percentage(_));
        let keeps_book = stores || matches!(command, Command::Read { .. } | Command::Move { .. } | Command::Meters { .. });
        self.fits_at = self.fits_at.filter(|_| keeps_book);
        self.true_at = self.true_at.filter(|_| keeps_book && !matches!(command, Command::Table(..)));
        lines
    }

    /// Sets the record of a branch as the book fixes it, its reroute open where it carries.
    fn set_record(&mut self, branch: usize, verdict: Verdict, count: usize) {
        let start = SIZE * branch;
        self.spaces.table[start..start + SIZE].copy_from_slice(&record::bytes(verdict, &[]));
        self.open_table[start..start + SIZE].fill(false);
        if verdict == Verdict::Carries {
            self.open_table[start + 20..start + 20 + count.div_ceil(8)].fill(true);
        }
    }

    fn screen(&mut self, flow: usize, table: usize) -> Answer {
        let percentage = self.spaces.percentage;
        let network = match screen::screened(percentage, self.spaces.bytes(), flow, table) {
            Ok(network) => network,
            Err(answer) => return answer,
        };
        self.open_flows(&network);
        for (branch, verdict) in screen::verdicts(&network).into_iter().enumerate() {
            self.set_record(branch, verdict, network.lines.len());
        }
        (self.fits_at, self.true_at) = (Some(percentage), Some(percentage));
        Answer::ACCEPTED
    }

    fn open_flows(&mut self, network: &Network) {
        for (branch, line) in network.lines.iter().enumerate() {
            self.open_flow[branch] = line.served;
            self.spaces.flow[branch] = 0;
        }
    }

    /// A number outside its normal limit makes a flow unfit, whatever the open ones are; and no flow fits a book with an excess.
    fn surely_unfit(&self, network: &Network) -> bool {
        let wrong = |(k, line): (usize, &Line)| {
            let most = if line.served { line.limit(Limits::Normal) } else { 0 };
            !self.open_flow[k] && self.spaces.flow[k].abs() > most
        };
        network.lines.iter().enumerate().any(wrong) || cuts::base_excess(network).amount > 0
    }

    /// The network lent to a call that looks at the flow next, or its refusal with 11; none where that hangs on an open flow.
    fn fitting(&self, lent: &Lent, network: Network) -> Option<Result<Network, Answer>> {
        let open = (0..network.lines.len()).any(|k| self.open_flow[k]);
        if !open {
            return Some(switching::fitted(network, lent));
        }
        // A flow that fits at a percentage fits at every larger one, whose limits are no less.
        if self.fits_at.is_some_and(|least| least <= lent.percentage) {
            return Some(Ok(network));
        }
        self.surely_unfit(&network).then(|| Err(Answer::refused(11)))
    }

    fn switch(&mut self, way: Way, flow: usize, table: usize, branch: usize) -> Option<Answer> {
        let lent = self.spaces.lent(flow, table);
        let network = match switching::switchable(way, &lent, branch).map(|network| self.fitting(&lent, network)) {
            Err(answer) => return Some(answer),
            Ok(fitting) => fitting?,
        };
        let changed = match network.and_then(|network| not_overloaded(network.with_status(branch, way.serves()))) {
            Err(answer) => return Some(answer),
            Ok(changed) => changed,
        };
        self.left(&book::with_status(self.spaces.bytes(), branch, way.serves()));
        match way {
            Way::Out => self.taken_out(&changed, branch),
            Way::Back => self.brought_back(&changed, branch),
        }
        Some(Answer::ACCEPTED)
    }

    fn move_load(&mut self, flow: usize, table: usize, shift: Shift) -> Option<Answer> {
        let lent = self.spaces.lent(flow, table);
        let network = match load::movable(&lent, shift).map(|network| self.fitting(&lent, network)) {
            Err(answer) => return Some(answer),
            Ok(fitting) => fitting?,
        };
        let changed = match network.and_then(|network| not_overloaded(shift.changed(&network))) {
            Err(answer) => return Some(answer),
            Ok(changed) => changed,
        };
        self.left(&shift.book(self.spaces.bytes()));
        if shift.kw > 0 {
            self.open_flows(&changed);
        }
        self.shortlisted(&changed, shift.kw > 0);
        Some(Answer::ACCEPTED)
    }

    /// An accepted call left this book, and a flow that fits it at the percentage in force.
    fn left(&mut self, book: &[u8]) {
        self.spaces.leave(book, &[], &[]);
        // A table true at another percentage needn't be true at this one.
        self.true_at = self.true_at.filter(|at| *at == self.spaces.percentage);
        self.fits_at = Some(self.spaces.percentage);
    }

    /// Whether a record's byte 0 is known, and is not 1.
    fn surely_not_1(&self, branch: usize) -> bool {
        !self.open_table[SIZE * branch] && self.spaces.table[SIZE * branch] != 1
    }

    fn taken_out(&mut self, changed: &Network, branch: usize) {
        if self.open_flow[branch] || self.spaces.flow[branch] != 0 {
            self.open_flows(changed);
        }
        self.shortlisted(changed, true);
    }

    /// Records as the shortlist leaves them, where some branch is touched or none is.
    fn shortlisted(&mut self, changed: &Network, touched: bool) {
        for (k, verdict) in screen::verdicts(changed).into_iter().enumerate() {
            let kept = !touched && !self.open_table[SIZE * k] && self.spaces.table[SIZE * k] == 1;
            if !changed.lines[k].served || self.surely_not_1(k) || self.true_at.is_some() && !kept {
                self.set_record(k, verdict, changed.lines.len());
            } else if !kept {
                self.open_table[SIZE * k..SIZE * (k + 1)].fill(true);
            }
        }
    }

    fn brought_back(&mut self, changed: &Network, branch: usize) {
        for (k, verdict) in screen::verdicts(changed).into_iter().enumerate() {
            if self.surely_not_1(k) {
                self.set_record(k, verdict, changed.lines.len());
            } else if self.open_table[SIZE * k] {
                // Kept or written anew, by what its byte 0 was chosen to be.
                self.open_table[SIZE * k..SIZE * (k + 1)].fill(true);
            }
        }
        // No branch stands below a count of 0, so the returned record's reroute is set with none of its bytes open.
        self.set_record(branch, Verdict::Carries, 0);
    }

    fn dump(&self) -> Vec<String> {
        let number = |k: usize| if self.open_flow[k] { " ?".into() } else { format!(" {}", self.spaces.flow[k]) };
        let flow: String = (0..FLOWS).map(number).collect();
        let byte = |k: usize| if self.open_table[k] { "??".into() } else { hex(&self.spaces.table[k..k + 1]) };
        let records = (0..FLOWS).map(|k| format!("record {k} {}", (SIZE * k..SIZE * (k + 1)).map(byte).collect::<String>()));
        [self.spaces.book_line(), format!("flow{flow}")].into_iter().chain(records).collect()
    }
}
