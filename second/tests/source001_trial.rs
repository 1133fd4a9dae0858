//! What source document 001 says of its systems, read out of the stored output of `trial` (SOURCES.md says where each number stands).

use second::books::plain::with_out;
use second::books::sources::*;
use second::definitions::book::{pack, Book};
use second::definitions::network::Verdict;
use second::definitions::record::{self, SIZE};

const OUTPUT: &str = "../crates/trial/stdout";

/// One dump of the stored output: the answer before it, the book, the flow, the records, the answer after it.
struct Dump {
    answer: String,
    book: String,
    flow: Vec<i64>,
    records: Vec<String>,
    next: String,
}

fn hex(bytes: &[u8]) -> String {
    bytes.iter().map(|byte| format!("{byte:02x}")).collect()
}

fn dumps() -> Vec<Dump> {
    let output = std::fs::read_to_string(OUTPUT).expect("the stored output");
    let mut dumps: Vec<Dump> = Vec::new();
    let mut answer = String::new();
    for line in output.lines() {
        let words: Vec<&str> = line.split(' ').collect();
        match words[0] {
            "screen" | "out" | "back" | "move" => {
                answer = line.to_string();
                if let Some(dump) = dumps.last_mut().filter(|dump| dump.next.is_empty()) {
                    dump.next = answer.clone();
                }
            }
            "book" => {
                let length: usize = words[1].parse().expect("a length");
                let book = words[2][..2 * length].to_string();
                dumps.push(Dump { answer: answer.clone(), book, flow: Vec::new(), records: Vec::new(), next: String::new() });
            }
            "flow" => dumps.last_mut().expect("a book").flow = words[1..].iter().map(|word| word.parse().expect("kW")).collect(),
            "record" => dumps.last_mut().expect("a book").records.push(words[2].to_string()),
            _ => {}
        }
    }
    dumps
}

/// The first dump of a book.
fn first(book: &Book) -> Dump {
    let book = hex(&pack(book));
    dumps().into_iter().find(|dump| dump.book == book).expect("the book is in the stored stream")
}

/// A short record's bytes by the document's numbers: kW, and buses from 1.
fn short(kw: u32, buses_from_1: &[usize]) -> String {
    let mut bytes = [0; SIZE];
    bytes[0] = 2;
    bytes[1..4].copy_from_slice(&kw.to_be_bytes()[1..]);
    buses_from_1.iter().for_each(|bus| bytes[4 + (bus - 1) / 8] |= 128 >> ((bus - 1) % 8));
    hex(&bytes)
}

fn carries(record: &str) -> bool {
    record.starts_with("01")
}

#[test]
fn five_bus_loss_of_3_4_is_short_30_mw_and_refused_so() {
    let screened = first(&five_bus());
    assert_eq!(screened.answer, "screen 0 0 0");
    assert_eq!(screened.records[FIVE_3_4], short(30_000, &[4, 5]));
    assert!(carries(&screened.records[FIVE_3_5]));
    assert_eq!(screened.next, "out 12 30000 2 3 4");
}

#[test]
fn five_bus_after_the_loss_of_5_3_branch_4_3_is_short_210_mw() {
    let after = first(&with_out(five_bus(), FIVE_3_5));
    assert_eq!(after.answer, "out 0 0 0");
    assert_eq!(after.records[FIVE_3_4], short(210_000, &[4, 5]));
}

#[test]
fn five_bus_once_5_3_is_back_branch_4_3_is_short_30_mw_again() {
    let dumps = dumps();
    let (out, whole) = (hex(&pack(&with_out(five_bus(), FIVE_3_5))), hex(&pack(&five_bus())));
    let place = dumps.iter().position(|dump| dump.book == out && dump.next == "back 0 0 0").expect("5-3 comes back");
    let (before, after) = (&dumps[place], &dumps[place + 1]);
    assert_eq!((&after.answer[..], &after.book), ("back 0 0 0", &whole));
    assert_eq!(after.flow, before.flow);
    assert_eq!(before.records[FIVE_3_4], short(210_000, &[4, 5]));
    assert_eq!(after.records[FIVE_3_4], short(30_000, &[4, 5]));
    assert_eq!(after.records[FIVE_3_5], hex(&record::bytes(Verdict::Carries, &[])));
}

#[test]
fn five_bus_after_the_redispatch_branch_4_3_carries() {
    assert!(carries(&first(&five_bus_moved()).records[FIVE_3_4]));
}

#[test]
fn five_bus_of_section_3_6_short_31_mw_and_carrying() {
    assert_eq!(first(&five_bus_of_cuts_short()).records[FIVE_3_4], short(31_000, &[4, 5]));
    assert!(carries(&first(&five_bus_of_cuts_carrying()).records[FIVE_3_4]));
}

#[test]
fn ten_bus_loss_of_4_1_is_short_35_86_mw_and_refused_so() {
    let screened = first(&ten_bus(&TEN_SPLIT));
    assert_eq!(screened.records[TEN_1_4], short(35_860, &[4, 5, 6, 10]));
    assert_eq!(screened.next, "out 12 35860 4 3 4 5 9");
}

#[test]
fn seven_bus_loss_of_2_1_moves_flow_on_the_documents_way_and_writes_its_shortlist() {
    let after = first(&with_out(seven_bus(), SEVEN_2_1));
    assert_eq!(after.answer, "out 0 0 0");
    let before = seven_bus_flow();
    let moved: Vec<usize> = (0..12).filter(|&k| after.flow[k] != before[k]).collect();
    let mut way = [(2, 1), (2, 3), (3, 6), (6, 1)].map(|(one, other)| seven_branch(one, other));
    way.sort();
    assert_eq!(moved, way);
    // The document's six, and the branch taken out itself.
    let listed = [(1, 6), (3, 2), (3, 1), (3, 6), (4, 3), (4, 6), (2, 1)].map(|(one, other)| seven_branch(one, other));
    for branch in (0..12).filter(|branch| !listed.contains(branch)) {
        let kept = record::bytes(Verdict::Carries, &seven_reroute(branch));
        assert_eq!(after.records[branch], hex(&kept));
    }
    assert!(after.records[SEVEN_2_1].chars().all(|digit| digit == '0'));
}
