//! Which switchings of a stream make a series (document 02, W13), and which two series tell of the same ones in another order.

use crate::definitions::network::Network;
use crate::definitions::switching::Way;
use crate::judging::orders::{self, Asked, Log, Standing};
use crate::judging::tally::Tally;
use crate::trial::spaces::Spaces;
use std::rc::Rc;

/// A series is followed up to so many calls.
const LONGEST: usize = 8;

/// The series of a stream so far.
#[derive(Default)]
pub struct Series {
    /// One for each true standing from which nothing but switchings of different branches came.
    under_way: Vec<Log>,
    /// Every series of two or more, and every longer one that it grew into.
    told: Vec<Log>,
}

/// A switching of a branch that could be switched: what it was answered, and the spaces before it and as it left them.
pub struct Switched<'a> {
    pub network: &'a Network,
    pub way: Way,
    pub branch: usize,
    pub accepted: bool,
    pub before: &'a Spaces,
    pub left: &'a Spaces,
    /// The table lent was true.
    pub held: bool,
    /// An outage, a return or a move of load was accepted before it since the screen.
    pub midway: bool,
}

impl Series {
    /// Something else than a switching was accepted.
    pub fn end(&mut self) {
        self.under_way.clear();
    }

    /// A switching goes on with each series that left all as it is lent now, and begins one; each is held to those told before.
    pub fn switched(&mut self, tally: &mut Tally, call: Switched) -> Result<(), String> {
        if !call.held {
            self.end();
            return Ok(());
        }
        let count = call.network.lines.len();
        let before = Rc::new(Standing::of(call.before, count));
        let left = if call.accepted { Rc::new(Standing::of(call.left, count)) } else { before.clone() };
        let goes_on = |log: &Log| log.asked.len() < LONGEST && log.asked.iter().all(|asked| asked.branch != call.branch);
        self.under_way.retain(|log| log.left == before && goes_on(log));
        self.under_way.push(Log { start: before.clone(), midway: call.midway, asked: Vec::new(), left: before });
        let mut longer = Vec::new();
        for log in &mut self.under_way {
            log.asked.push(Asked { way: call.way, branch: call.branch, accepted: call.accepted });
            log.left = left.clone();
            longer.extend((log.asked.len() > 1).then(|| log.clone()));
        }
        longer.into_iter().try_for_each(|log| self.tell(tally, log))
    }

    fn tell(&mut self, tally: &mut Tally, log: Log) -> Result<(), String> {
        for earlier in self.told.iter().filter(|earlier| log.another_order_of(earlier)) {
            orders::hold(earlier, &log)?;
            orders::count(tally, earlier, &log);
        }
        self.told.push(log);
        Ok(())
    }
}
