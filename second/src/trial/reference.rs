//! A whole trial output with our own choice of flows and reroutes: what another program may print otherwise.

use crate::definitions::answer::Answer;
use crate::definitions::book;
use crate::definitions::comeback;
use crate::definitions::cuts;
use crate::definitions::load::{self, Shift};
use crate::definitions::outage;
use crate::definitions::screen;
use crate::definitions::switching::Way;
use crate::trial::spaces::Spaces;
use crate::trial::stream::{commands, Command};

/// One command done: what was before and after it, the lines it printed, the command that follows, and the one that does and the one
/// that went before when dumps are passed over.
pub struct Done<'a> {
    pub command: &'a Command,
    pub earlier: Option<&'a Command>,
    pub next: Option<&'a Command>,
    pub then: Option<&'a Command>,
    pub before: &'a Spaces,
    pub after: &'a mut Spaces,
    pub lines: &'a mut Vec<String>,
}

/// The output for a stream.
pub fn output(stream: &[u8]) -> String {
    output_with(stream, &mut |_| {})
}

/// The output for a stream, where `meddle` may change what each command leaves and prints.
pub fn output_with(stream: &[u8], meddle: &mut dyn FnMut(Done)) -> String {
    let mut spaces = Spaces::default();
    let mut printed = Vec::new();
    let commands: Vec<_> = commands(stream).collect();
    for (place, command) in commands.iter().enumerate() {
        let Ok(command) = command else {
            printed.push("bad command".to_string());
            continue;
        };
        let before = spaces.clone();
        let mut lines = step(&mut spaces, command);
        let mut later = commands[place + 1..].iter().map_while(|later| later.as_ref().ok());
        let next = later.clone().next();
        let then = later.find(|later| **later != Command::Dump);
        let earlier = commands[..place].iter().rev().flatten().find(|earlier| **earlier != Command::Dump);
        meddle(Done { command, earlier, next, then, before: &before, after: &mut spaces, lines: &mut lines });
        printed.extend(lines);
    }
    printed.iter().map(|line| format!("{line}\n")).collect()
}

/// Does one command with our own choices and answers its lines.
pub fn step(spaces: &mut Spaces, command: &Command) -> Vec<String> {
    let answer = match command {
        Command::Screen { flow, table } => screen_once(spaces, *flow, *table),
        Command::Switch { way, flow, table, branch } => switch(spaces, *way, *flow, *table, *branch),
        Command::Load { flow, table, shift } => move_load(spaces, *flow, *table, *shift),
        Command::Dump => return spaces.dump(),
        other => return spaces.run(other).1,
    };
    vec![format!("{} {answer}", command.call().expect("a call"))]
}

fn screen_once(spaces: &mut Spaces, flow: usize, table: usize) -> Answer {
    let network = match screen::screened(spaces.percentage, spaces.bytes(), flow, table) {
        Ok(network) => network,
        Err(answer) => return answer,
    };
    let found = cuts::fitting_flow(&network).expect("the base excess is 0");
    let records = screen::own_table(&network, &found);
    spaces.leave(&[], &found, &records);
    Answer::ACCEPTED
}

fn switch(spaces: &mut Spaces, way: Way, flow: usize, table: usize, branch: usize) -> Answer {
    let lent = spaces.lent(flow, table);
    let left = match way {
        Way::Out => outage::allowed(&lent, branch).map(|network| outage::own_result(&network, &lent, branch)),
        Way::Back => comeback::allowed(&lent, branch).map(|network| comeback::own_result(&network, &lent, branch)),
    };
    let (after, records) = match left {
        Ok(left) => left,
        Err(answer) => return answer,
    };
    let book = book::with_status(lent.book, branch, way.serves());
    spaces.leave(&book, &after, &records);
    Answer::ACCEPTED
}

fn move_load(spaces: &mut Spaces, flow: usize, table: usize, shift: Shift) -> Answer {
    let lent = spaces.lent(flow, table);
    let (after, records) = match load::allowed(&lent, shift) {
        Ok(network) => load::own_result(&network, &lent, shift),
        Err(answer) => return answer,
    };
    let book = shift.book(lent.book);
    spaces.leave(&book, &after, &records);
    Answer::ACCEPTED
}
