//! Places in a trial: how the answers end, that the judge wants them so, what is counted, and what the streams hold.

mod judged;

use judged::tally_of;
use second::books::named::{second_book, triangle};
use second::books::plain::{moved_up, struck};
use second::definitions::fields::Field;
use second::definitions::form::Form;
use second::definitions::wrong::Wrong;
use second::judging::judge::judge;
use second::judging::places::{possible, Places, Seen, CALLS};
use second::streams::stored::{self, back, out, written, READ_WHOLE, WHOLE};
use second::streams::{make, stored_places};
use second::trial::reference::{output, output_with};
use second::trial::stream::{bytes, Command, BOOK};

fn stream(commands: &[Command]) -> Vec<u8> {
    commands.iter().flat_map(bytes).collect()
}

/// The second book in the new form: its last branch ends at no bus, and its kVA is too large besides.
fn no_bus() -> Command {
    Command::Book(struck(&moved_up(second_book(25)), &[(3, Field::SecondBus, 4), (3, Field::Kva, 1_000_001)]))
}

/// The triangle with a bus and a branch wrong.
fn bus_large() -> Command {
    Command::Book(struck(&triangle(30), &[(1, Field::Size, 1_000_001), (0, Field::Kva, 1_000_001)]))
}

/// The answers in a stream's output.
fn answers(text: &str) -> Vec<&str> {
    text.lines().filter(|line| CALLS.iter().any(|call| line.split(' ').next() == Some(call))).collect()
}

#[test]
fn an_answer_of_4_or_5_ends_with_its_item_and_field() {
    let room = Command::Move { form: Form::Old, room: BOOK };
    let calls = [READ_WHOLE, room, WHOLE, out(0), back(0)];
    let text = output(&stream(&[&[no_bus()], &calls[..], &[bus_large()], &calls[..]].concat()));
    let due = ["read 5", "moved 5", "screen 5", "out 5", "back 5", "read 4", "moved 4", "screen 4", "out 4", "back 4"];
    let due: Vec<String> =
        due.iter().map(|due| format!("{due} 0 0 {}", if due.ends_with('5') { "3 2" } else { "1 2" })).collect();
    assert_eq!(answers(&text), due);
}

#[test]
fn a_write_ends_with_the_place_in_the_form_it_is_asked_for() {
    let numbers = |numbers: &[u32]| numbers.iter().enumerate().map(|(k, &v)| Command::Number(k, v)).collect::<Vec<_>>();
    let write = |form, count| written(form, [2, count, 1000, 2, 10, 0]);
    let commands =
        [numbers(&[0, 1, 9, 0, 2, 0, 1, 9, 1, 1]), vec![write(Form::New, 1), write(Form::New, 2), write(Form::Old, 2)]].concat();
    // Of the new form the second figure 0 is below 9; of the old one row 1 begins with 2, which is no bus.
    assert_eq!(answers(&output(&stream(&commands))), ["write 5 0 0 0 4", "write 5 0 0 0 4", "write 5 0 0 1 1"]);
    let status = [&commands[..], &[Command::Number(3, 9), write(Form::New, 2), write(Form::Old, 1)]].concat();
    assert_eq!(answers(&output(&stream(&status)))[3..], ["write 5 0 0 0 5", "write 5 0 0 0 4"]);
    let injections =
        [Command::Injection(1, i32::MIN), write(Form::New, 2), Command::Injection(0, 1_000_001), write(Form::Old, 2)];
    let text = output(&stream(&[&status[..], &injections].concat()));
    assert_eq!(answers(&text)[5..], ["write 4 0 0 1 2", "write 4 0 0 0 2"]);
}

#[test]
fn the_judge_wants_the_place_and_no_other() {
    let stream = stream(&[no_bus(), WHOLE]);
    let verdict = |line: &str| judge(&stream, &format!("{line}\n")).1;
    assert_eq!(verdict("screen 5 0 0 3 2"), Ok(()));
    for line in ["screen 5 0 0", "screen 5 0 0 3 3", "screen 5 0 0 2 2", "screen 5 0 0 3 2 0", "screen 5 3 2", "screen 5 0 0 3"] {
        assert!(verdict(line).is_err(), "{line}");
    }
}

#[test]
fn places_are_counted_by_what_is_wrong_and_what_else_is() {
    let tally = tally_of(&stream(&[no_bus(), READ_WHOLE, WHOLE, bus_large(), READ_WHOLE, READ_WHOLE]));
    let of = |call, form, wrong| {
        let seen = [Seen::All, Seen::BeyondItem0, Seen::LastOfSeveral, Seen::LaterField, Seen::LaterItem, Seen::BranchToo];
        seen.map(|seen| tally.places.of(call, form, wrong, seen))
    };
    assert_eq!(of("read", Form::New, Wrong::SecondNotBelow), [1, 1, 1, 1, 0, 0]);
    assert_eq!(of("screen", Form::New, Wrong::SecondNotBelow), [1, 1, 1, 1, 0, 0]);
    assert_eq!(of("read", Form::Old, Wrong::SizeAbove), [2, 2, 0, 0, 0, 2]);
    assert_eq!(of("read", Form::New, Wrong::KvaAbove), [0; 6]);
    let text = tally.to_string();
    assert!(
        text.contains("\n| read, old | 2 | 0 | 0 | 0 | 0 | 0 | | | |\n| read, new | 0 | 0 | 0 | 1 | 0 | 0 | 0 | 0 | |\n"),
        "{text}"
    );
    assert!(
        text.contains("\n| read, old | 2 | 0 | 0 | 2 | 0 | 0 | 0 | 0 |\n| read, new | 0 | 0 | 0 | 0 | 1 | 1 | 1 | 0 |\n"),
        "{text}"
    );
    assert!(!tally_of(&stream(&[Command::Book(Vec::new()), WHOLE])).to_string().contains('|'));
}

/// Whether something is counted of a call in a form, over all that is wrong with buses, or with branches.
fn any(places: &Places, call: &str, form: Form, on_bus: bool, seen: Seen) -> usize {
    let wrongs = Wrong::ALL.into_iter().filter(|wrong| wrong.field().of_bus() == on_bus);
    wrongs.map(|wrong| places.of(call, form, wrong, seen)).sum()
}

#[test]
fn the_stored_stream_holds_every_field_at_fault() {
    let places = tally_of(&stored::stream()).places;
    for form in Form::BOTH {
        for call in ["read", "write"] {
            for wrong in possible(call, form) {
                assert!(places.of(call, form, wrong, Seen::All) > 0, "{call} {form} {wrong}");
            }
            for seen in [Seen::BeyondItem0, Seen::LastOfSeveral, Seen::LaterItem] {
                assert!(
                    any(&places, call, form, true, seen) > 0 && any(&places, call, form, false, seen) > 0,
                    "{call} {form} {seen}"
                );
            }
            assert!(any(&places, call, form, false, Seen::LaterField) > 0 && any(&places, call, form, true, Seen::BranchToo) > 0);
        }
        for call in CALLS.into_iter().filter(|call| *call != "move") {
            assert!(
                any(&places, call, form, true, Seen::All) > 0 && any(&places, call, form, false, Seen::All) > 0,
                "{call} {form}"
            );
        }
    }
    // A move of load has one of each, so that the stored output stays small; random streams have all.
    assert!(any(&places, "move", Form::Old, true, Seen::All) > 0 && any(&places, "move", Form::New, false, Seen::All) > 0);
}

#[test]
fn the_stored_stream_moves_books_with_either_second_figure_at_fault() {
    let places = tally_of(&stored::stream()).places;
    for wrong in [Wrong::SecondKvaBelow, Wrong::SecondKvaAbove] {
        assert!(places.of("moved", Form::New, wrong, Seen::All) > 0, "{wrong}");
    }
}

#[test]
fn the_stored_stream_grew_by_45_refusals_with_a_place() {
    let (mut placed, mut others) = (0, 0);
    let whole = stored::stream();
    let first = stored_places::damaged_books(Form::Old)[0].0;
    let start = bytes(&Command::Book(struck(&stored_places::target(Form::Old), first)));
    let from = whole.windows(start.len()).position(|window| window == start).unwrap();
    // The stream of then had 44,145 bytes, its last 3 a bad command.
    output_with(&whole[from..44_142], &mut |done| match done.command.answer_in(done.lines) {
        Some(4 | 5) => placed += 1,
        Some(number) => others += (number != 0) as usize,
        None => {}
    });
    assert_eq!((placed, others), (45, 0));
}

#[test]
fn random_streams_hold_every_field_at_fault() {
    let mut places = Places::default();
    for seed in 1..=1_100 {
        output_with(&make::stream(seed), &mut |done| {
            if matches!(done.command.answer_in(done.lines), Some(4 | 5)) {
                places.count(done.command, done.before);
            }
        });
    }
    for form in Form::BOTH {
        for call in CALLS {
            // A hundred in 5,000 streams for the reader and the writer, and some for the others.
            let asked = match call {
                "read" | "write" => 16,
                "moved" => 2,
                _ => 0,
            };
            for wrong in possible(call, form) {
                assert!(places.of(call, form, wrong, Seen::All) > asked, "{call} {form} {wrong}\n{places}");
            }
            for seen in [Seen::BeyondItem0, Seen::LastOfSeveral, Seen::LaterItem] {
                assert!(
                    any(&places, call, form, true, seen) > 0 && any(&places, call, form, false, seen) > 0,
                    "{call} {form}\n{places}"
                );
            }
            assert!(any(&places, call, form, true, Seen::BranchToo) > 0 && any(&places, call, form, false, Seen::LaterField) > 0);
        }
    }
}
