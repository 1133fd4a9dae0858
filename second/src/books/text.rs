//! A book as plain text: `factor F`, `form new` where it is new, then `bus KW` lines and a `branch` line each, with one
//! kVA figure or two by the form; `#` starts a remark.

use crate::definitions::book::Book;
use crate::definitions::branch::Branch;
use crate::definitions::form::{Form, LARGEST};

/// The book that a text names; otherwise one sentence on what is wrong, with the number of its line where one is.
pub fn parse(text: &str) -> Result<Book, String> {
    let mut book = Book { form: Form::Old, factor: 1000, injections: Vec::new(), branches: Vec::new() };
    let mut branch_lines = Vec::new();
    for (place, line) in text.lines().enumerate() {
        let at = |problem: String| format!("Line {}: {problem}.", place + 1);
        let words: Vec<&str> = line.split('#').next().unwrap_or("").split_whitespace().collect();
        match words[..] {
            [] => {}
            ["factor", factor] => book.factor = number("a power factor", factor, 1, 1000).map_err(at)? as u32,
            ["form", "new"] if book.branches.is_empty() => book.form = Form::New,
            ["form", "new"] => return Err(at("'form new' has to stand before the branches".into())),
            ["bus", kw] => book.injections.push(number("an injection in kW", kw, -LARGEST, LARGEST).map_err(at)?),
            ["branch", ref words @ ..] if words.len() == book.form.numbers() => {
                book.branches.push(branch(words).map_err(at)?);
                branch_lines.push(place + 1);
            }
            _ => return Err(at(format!("it is none of {}", lines_of(book.form)))),
        }
    }
    whole(&book, &branch_lines)?;
    Ok(book)
}

/// The lines that a text of a book of this form may have.
fn lines_of(form: Form) -> &'static str {
    match form {
        Form::Old => "'factor F', 'form new', 'bus KW', 'branch FIRST SECOND KVA in|out'",
        Form::New => "'factor F', 'form new', 'bus KW', 'branch FIRST SECOND KVA SECOND-KVA in|out'",
    }
}

fn number(what: &str, word: &str, least: i64, most: i64) -> Result<i64, String> {
    let found = word.parse().ok().filter(|found| (least..=most).contains(found));
    found.ok_or_else(|| format!("'{word}' is not {what} from {least} to {most}"))
}

/// A branch from its words: two buses, one rating or two, and its state.
fn branch(words: &[&str]) -> Result<Branch, String> {
    let [first, second, kva, others @ .., state] = words else { unreachable!("as many words as numbers") };
    let first = number("a bus", first, 0, 127)? as usize;
    let second = number("a bus", second, 0, 127)? as usize;
    let kva = number("a rating in kVA", kva, 0, LARGEST)? as u32;
    if first == second {
        return Err(format!("both ends of the branch are bus {first}"));
    }
    if !["in", "out"].contains(state) {
        return Err(format!("'{state}' is neither 'in' nor 'out'"));
    }
    let mut branch = Branch::rated(first, second, kva, *state == "in");
    if let [second_kva] = others {
        branch.second_kva = number("a second rating in kVA", second_kva, 0, LARGEST)? as u32;
    }
    if branch.second_kva < kva {
        return Err(format!("the second rating of {} kVA is below the first of {kva}", branch.second_kva));
    }
    Ok(branch)
}

/// What no line shows alone: the counts, that every end is a bus, the sum.
fn whole(book: &Book, branch_lines: &[usize]) -> Result<(), String> {
    let (buses, count) = (book.injections.len(), book.branches.len());
    if !(1..=128).contains(&buses) || count > 256 {
        return Err(format!("A book has 1 to 128 buses and up to 256 branches, this text {buses} and {count}."));
    }
    for (branch, line) in book.branches.iter().zip(branch_lines) {
        let last = branch.first.max(branch.second);
        if last >= buses {
            return Err(format!("Line {line}: there is no bus {last}, since the {buses} buses are numbered from 0."));
        }
    }
    match book.injections.iter().sum::<i64>() {
        0 => Ok(()),
        sum => Err(format!("The injections of the buses sum to {sum} kW, not to 0.")),
    }
}

pub fn print(book: &Book) -> String {
    let mut text = format!("factor {}\n", book.factor);
    if book.form == Form::New {
        text += "form new\n";
    }
    for injection in &book.injections {
        text += &format!("bus {injection}\n");
    }
    for branch in &book.branches {
        let row = branch.row(book.form);
        let figures: String = row[..row.len() - 1].iter().map(|figure| format!("{figure} ")).collect();
        text += &format!("branch {figures}{}\n", if branch.served { "in" } else { "out" });
    }
    text
}
