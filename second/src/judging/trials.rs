//! Many random streams through a program, each judged, and how many answers of each kind were compared.

use crate::judging::judge;
use crate::judging::tally::Tally;
use crate::trial::reference;
use std::io::Write;
use std::process::{Command, Stdio};

/// Tries the streams that are made of the seeds from `seed` on; true if no fault was found. `-` tries our own answers.
pub fn many(program: &str, made: fn(u64) -> Vec<u8>, count: u64, seed: u64) -> Result<bool, String> {
    let mut tally = Tally::default();
    let mut faults = 0;
    for seed in seed..seed + count {
        let stream = made(seed);
        let (output, ended_well) = if program == "-" { (reference::output(&stream), true) } else { output_of(program, &stream)? };
        let (compared, verdict) = judge::judge(&stream, &output);
        tally.join(&compared);
        let verdict = verdict.and(if ended_well { Ok(()) } else { Err("the program ended with a failure".into()) });
        if let Err(fault) = verdict {
            faults += 1;
            println!("fault at seed {seed}: {fault}");
        }
    }
    println!("{count} streams from seed {seed}, {faults} with a fault; compared:");
    print!("{tally}");
    Ok(faults == 0)
}

/// Runs a program (words before it, such as an emulator, are allowed) with the stream as its standard input: what it
/// printed, and whether it ended well.
pub fn output_of(program: &str, stream: &[u8]) -> Result<(String, bool), String> {
    let mut words = program.split_whitespace();
    let first = words.next().ok_or("no program")?;
    let problem = |problem: std::io::Error| format!("{program}: {problem}");
    let mut child = Command::new(first).args(words).stdin(Stdio::piped()).stdout(Stdio::piped()).spawn().map_err(problem)?;
    let mut input = child.stdin.take().ok_or("no standard input")?;
    let sent = stream.to_vec();
    // A program may stop reading at a bad command, so a failed write is no fault of its own.
    let sender = std::thread::spawn(move || drop(input.write_all(&sent)));
    let finished = child.wait_with_output().map_err(problem)?;
    sender.join().map_err(|_| "the sender failed")?;
    Ok((String::from_utf8_lossy(&finished.stdout).into_owned(), finished.status.success()))
}
