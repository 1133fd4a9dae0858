//! The second program's own output on a stream, judged: what is counted in it. A fault ends the test.

use second::judging::judge::judge;
use second::judging::tally::Tally;
use second::trial::reference::output;

pub fn tally_of(stream: &[u8]) -> Tally {
    let (tally, verdict) = judge(stream, &output(stream));
    assert_eq!(verdict, Ok(()));
    tally
}
