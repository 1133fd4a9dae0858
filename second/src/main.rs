//! The commands of the second opinion.

use second::books::{named, text};
use second::definitions::{book, list, tables};
use second::judging::{judge, selftest, trials};
use second::streams::{gate, make, make_orders, stored};
use second::trial::{fixed, reference};
use std::fs;
use std::io::Write;
use std::path::Path;
use std::process::ExitCode;

const USAGE: &str = "second outages FILE            document 01's list for a book file
second book TEXT FILE          makes a book file from its text form
second text FILE               prints the text form of a book file
second files DIR               writes DIR/books, DIR/expected and DIR/streams again
second store CRATES            writes what the gate gives its programs and expects of them, under CRATES; not the output of `trial`
second gate CRATES             holds those files to what this program makes, and judges the stored output of `trial`
second stream SEED             a random trial stream, to standard output
second order-stream SEED       a random trial stream in which switchings are asked in several orders, to standard output
second stored                  the stored stream, to standard output
second print STREAM            what the papers fix of the output, `?` where they leave a choice
second answer STREAM           a whole trial output with our own choice of flows and reroutes
second judge STREAM OUTPUT     judges the output of a trial
second try PROGRAM N [SEED]    judges PROGRAM on N random streams (`-` for our own answers)
second orders PROGRAM N [SEED] the same on N streams in which switchings are asked in several orders
second selftest                plants faults in copied outputs and shows that each is found";

fn main() -> ExitCode {
    let words: Vec<String> = std::env::args().skip(1).collect();
    match run(&words.iter().map(String::as_str).collect::<Vec<_>>()) {
        Ok(good) => ExitCode::from(!good as u8),
        Err(problem) => {
            eprintln!("{problem}");
            ExitCode::from(2)
        }
    }
}

fn read(path: &str) -> Result<Vec<u8>, String> {
    fs::read(path).map_err(|problem| format!("{path}: {problem}"))
}

fn write(path: &Path, bytes: &[u8]) -> Result<(), String> {
    fs::write(path, bytes).map_err(|problem| format!("{}: {problem}", path.display()))
}

fn run(words: &[&str]) -> Result<bool, String> {
    match words {
        ["outages", file] => print!("{}", list::list(&read(file)?)),
        ["book", from, file] => make_book(from, file)?,
        ["text", file] => print!("{}", text::print(&book::unpack(&read(file)?).map_err(|refusal| format!("refused {refusal}"))?)),
        ["files", dir] => files(Path::new(dir))?,
        ["store", crates] => gate::files().iter().try_for_each(|(name, bytes)| write(&Path::new(crates).join(name), bytes))?,
        ["gate", crates] => return held(crates),
        ["stream", seed] => put(&make::stream(number(seed)?))?,
        ["order-stream", seed] => put(&make_orders::stream(number(seed)?))?,
        ["stored"] => put(&stored::stream())?,
        ["print", stream] => print!("{}", fixed::fixed(&read(stream)?)),
        ["answer", stream] => print!("{}", reference::output(&read(stream)?)),
        ["judge", stream, output] => return judged(&read(stream)?, &read(output)?),
        ["selftest"] => return Ok(selftest::selftest()),
        ["try", program, rest @ ..] => return tried(program, make::stream, rest),
        ["orders", program, rest @ ..] => return tried(program, make_orders::stream, rest),
        _ => return Err(USAGE.into()),
    }
    Ok(true)
}

/// A program judged on so many streams, from seed 1 on where none is named.
fn tried(program: &str, made: fn(u64) -> Vec<u8>, words: &[&str]) -> Result<bool, String> {
    match words {
        [count] => trials::many(program, made, number(count)?, 1),
        [count, seed] => trials::many(program, made, number(count)?, number(seed)?),
        _ => Err(USAGE.into()),
    }
}

fn number(word: &str) -> Result<u64, String> {
    word.parse().map_err(|_| format!("not a number: {word}"))
}

fn put(bytes: &[u8]) -> Result<(), String> {
    std::io::stdout().write_all(bytes).map_err(|problem| problem.to_string())
}

fn judged(stream: &[u8], output: &[u8]) -> Result<bool, String> {
    let (tally, verdict) = judge::judge(stream, &String::from_utf8_lossy(output));
    print!("{tally}");
    match &verdict {
        Ok(()) => println!("good"),
        Err(fault) => println!("fault: {fault}"),
    }
    Ok(verdict.is_ok())
}

fn held(crates: &str) -> Result<bool, String> {
    let stored = |name: &str| read(&format!("{crates}/{name}"));
    for (name, bytes) in gate::files() {
        if stored(name)? != bytes {
            println!("{crates}/{name} isn't what this program makes");
            return Ok(false);
        }
    }
    judged(&stored(gate::TRIAL_INPUT)?, &stored(gate::TRIAL_OUTPUT)?)
}

fn make_book(from: &str, file: &str) -> Result<(), String> {
    let words = String::from_utf8(read(from)?).map_err(|_| "not text".to_string())?;
    let made = text::parse(&words)?;
    let (buses, count, numbers) = (made.injections.len(), made.branches.len(), tables::numbers(&made));
    let bytes = tables::write(made.form, buses, count, made.factor, &made.injections, &numbers, usize::MAX);
    write(Path::new(file), &bytes.map_err(|refusal| format!("refused {refusal}"))?)
}

fn files(dir: &Path) -> Result<(), String> {
    for (name, bytes) in named::inputs() {
        write(&dir.join("books").join(format!("{name}.book")), &bytes)?;
        if let Ok(book) = book::unpack(&bytes) {
            write(&dir.join("books").join(format!("{name}.txt")), text::print(&book).as_bytes())?;
        }
        write(&dir.join("expected").join(format!("{name}.txt")), list::list(&bytes).as_bytes())?;
    }
    write(&dir.join("streams").join("stored.stream"), &stored::stream())
}
