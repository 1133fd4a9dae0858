//! Percentages in a trial: the command `Y`, 21 in its place, what the judge holds a run to, what is counted, what the streams hold.

mod judged;

use judged::tally_of;
use second::books::named::{second_two, triangle};
use second::books::percentages::*;
use second::books::plain::with_out;
use second::books::ratings::pair;
use second::definitions::book::{pack, Book};
use second::definitions::form::Form;
use second::definitions::percentage::{Percentage, NAMEPLATE};
use second::definitions::record::SIZE;
use second::judging::judge::judge;
use second::judging::misread::Misreading;
use second::judging::tally::Tally;
use second::streams::make;
use second::streams::stored::{self, back, four, out, written, READ_WHOLE, WHOLE};
use second::streams::stored_percentages::told;
use second::trial::fixed::fixed;
use second::trial::reference::{output, output_with};
use second::trial::spaces::Spaces;
use second::trial::stream::{bytes, commands, Command, BOOK};

const D: Command = Command::Dump;
const MIXED: &str = "back accepted, in a run mixed with outages, from a true table";
const PAIR: &str = "back accepted, out and back with nothing else between, all as it was";

fn book(book: &Book) -> Command {
    Command::Book(pack(book))
}

fn stream(commands: &[Command]) -> Vec<u8> {
    commands.iter().flat_map(bytes).collect()
}

fn answers(commands: &[Command]) -> Vec<String> {
    let calls = ["screen", "out", "back", "read", "write", "moved", "meters"];
    let text = output(&stream(commands));
    text.lines().filter(|line| calls.contains(&line.split(' ').next().unwrap())).map(String::from).collect()
}

fn counted(commands: &[Command]) -> Tally {
    tally_of(&stream(commands))
}

#[test]
fn y_takes_any_byte_and_prints_nothing() {
    for percentage in 0..=255 {
        assert_eq!(bytes(&told(percentage)), [b'Y', percentage]);
        assert_eq!(commands(&[b'Y', percentage]).collect::<Vec<_>>(), [Ok(told(percentage))]);
        assert_eq!(output(&[b'Y', percentage]), "");
    }
    assert_eq!(output(b"Y"), "bad command\n");
    assert_eq!(Spaces::default().percentage, NAMEPLATE);
}

#[test]
fn the_percentage_is_that_of_all_later_calls_until_the_next() {
    let (enough, short) = (summer(1, 762), summer(1, 763));
    let calls = [
        book(&short),
        WHOLE,
        D,
        told(80),
        WHOLE,
        WHOLE,
        D,
        book(&enough),
        WHOLE,
        D,
        told(79),
        WHOLE,
        told(101),
        WHOLE,
        told(80),
        WHOLE,
        D,
    ];
    let due = [
        "screen 0 0 0",
        "screen 12 1 1 0",
        "screen 12 1 1 0",
        "screen 0 0 0",
        "screen 12 10 1 0",
        "screen 21 0 0",
        "screen 0 0 0",
    ];
    assert_eq!(answers(&calls), due);
}

#[test]
fn p_leaves_the_percentage() {
    assert_eq!(answers(&[told(49), Command::Spoil, WHOLE, out(0), back(0)]), ["screen 21 0 0", "out 21 0 0", "back 21 0 0"]);
    assert_eq!(answers(&[Command::Spoil, WHOLE]), ["screen 1 0 0"]);
    assert_eq!(answers(&[told(80), Command::Spoil, book(&summer(1, 763)), WHOLE]), ["screen 12 1 1 0"]);
}

#[test]
fn other_calls_take_no_percentage() {
    let meters = |supply| Command::Meters { lists: [vec![0, 0], vec![0, 0], vec![0, 3], vec![16, 2]], lent: 2, supply };
    let calls = [
        book(&second_two()),
        READ_WHOLE,
        Command::Move { form: Form::Old, room: BOOK },
        Command::Move { form: Form::New, room: BOOK },
        written(Form::New, [4, 4, 1000, 4, 20, 42]),
        written(Form::Old, [4, 4, 0, 4, 20, 42]),
        meters(1),
        meters(2),
        Command::Book(vec![0; 9]),
        READ_WHOLE,
    ];
    let printed = output(&stream(&calls));
    for percentage in [0, 49, 50, 99, 101, 255] {
        assert_eq!(output(&stream(&[&[told(percentage)], &calls[..]].concat())), printed, "{percentage}");
    }
}

#[test]
fn the_judge_wants_21_first_and_nothing_with_it() {
    let bad = stream(&[told(49), Command::Book(vec![1, 2]), back(0)]);
    let verdict = |line: &str| judge(&bad, &format!("{line}\n")).1;
    assert_eq!(verdict("back 21 0 0"), Ok(()));
    for line in ["back 1 0 0", "back 21 1 0", "back 21 0 1 0", "back 21 0 0 0 1", "back 0 0 0", "back 21"] {
        assert!(verdict(line).is_err(), "{line}");
    }
}

/// The book whose table is true at 100 percent and not at 50, with that table.
fn lend_stale() -> Vec<Command> {
    let flow = STALE_FLOW.iter().enumerate().map(|(branch, kw)| Command::Flow(branch, *kw));
    let table = stale_table().concat().into_iter().enumerate().map(|(place, byte)| Command::Table(place, byte));
    [book(&stale())].into_iter().chain(flow).chain(table).collect()
}

#[test]
fn a_stale_table_keeps_its_records_until_a_new_screen() {
    let calls = [told(50), out(2), D, back(2), D, WHOLE, D];
    let text = output(&stream(&[lend_stale(), calls.to_vec()].concat()));
    let hex = |bytes: &[u8]| bytes.iter().map(|byte| format!("{byte:02x}")).collect::<String>();
    let lines = |record: usize| {
        let start = format!("record {record} ");
        text.lines().filter_map(|line| line.strip_prefix(&start)).map(String::from).collect::<Vec<_>>()
    };
    let short = format!("02000005a0{}", "0".repeat(94));
    for branch in [0, 1] {
        let kept = hex(&stale_table()[branch]);
        assert_eq!(lines(branch), [kept.clone(), kept, short.clone()]);
    }
    assert_eq!(lines(2), [hex(&[0; SIZE]), hex(&stale_table()[2]), hex(&stale_table()[2])]);
    let tally = counted(&[lend_stale(), calls.to_vec()].concat());
    assert_eq!(tally.of("out accepted, from an untrue table"), 1);
    assert_eq!(tally.of("out accepted, from a table true at 100 percent and not at its own"), 1);
    assert_eq!(tally.of("back accepted, from a table true at 100 percent and not at its own"), 1);
    // At 100 the same table is true, and found so.
    let tally = counted(&[lend_stale(), vec![out(2), D, back(2), D]].concat());
    assert_eq!((tally.of("out accepted, from a true table"), tally.of("back accepted, from a true table")), (1, 1));
}

#[test]
fn whether_a_table_is_true_is_decided_at_the_percentage_of_the_call() {
    // A program that writes the stale records anew is wrong at 50.
    let calls = stream(&[lend_stale(), vec![told(50), out(2), D]].concat());
    let afresh = output_with(&calls, &mut |done| {
        if *done.command == out(2) {
            done.after.table[..5].copy_from_slice(&[2, 0, 0, 5, 128]);
            done.after.table[20..52].fill(0);
        }
    });
    assert!(judge(&calls, &afresh).1.unwrap_err().contains("record 0 is not to be written anew"));
    // The table is true again when the percentage is told again that it was left at.
    let of = |commands: &[Command]| {
        let tally = counted(&[&[book(&four().0), told(80), WHOLE, D, out(2), D], commands].concat());
        [tally.of("back accepted"), tally.of(MIXED), tally.of(PAIR)]
    };
    assert_eq!(of(&[back(2), D]), [1, 1, 1]);
    assert_eq!(of(&[told(49), back(2), told(80), back(2), D]), [1, 1, 1]);
    assert_eq!(of(&[told(100), told(80), back(2), D]), [1, 1, 1]);
    // Out at one percentage and back at another is no pair, and another run.
    assert_eq!(of(&[told(100), back(2), D]), [1, 0, 0]);
}

#[test]
fn changes_of_the_percentage_are_counted() {
    let of = |commands: &[Command]| {
        let tally = counted(commands);
        let kinds = [
            "out accepted, after the percentage rose, the table still true",
            "out accepted, after the percentage rose, the table no longer true",
            "out accepted, after the percentage fell, the table still true",
            "out accepted, after the percentage fell, the table no longer true",
            "out refused 11, after the percentage fell",
            "out refused 12, after the percentage rose",
        ];
        kinds.map(|kind| tally.of(kind))
    };
    let screened = |percentage: u8, rest: &[Command]| of(&[&[book(&stale()), told(percentage), WHOLE, D], rest].concat());
    // At 50 both branches are short; at 100 they carry, so that what the screen at 50 left is no longer true.
    assert_eq!(screened(50, &[told(100), out(2), D]), [0, 1, 0, 0, 0, 0]);
    assert_eq!(screened(99, &[told(100), out(2), D]), [0, 1, 0, 0, 0, 0]);
    assert_eq!(screened(100, &[told(50), told(100), out(2), D]), [0; 6]);
    assert_eq!(screened(100, &[told(50), out(0), out(2)]), [0, 0, 0, 0, 2, 0]);
    let slack = summer(2, 0);
    assert_eq!(of(&[book(&slack), told(50), WHOLE, D, told(99), out(0), D]), [1, 0, 0, 0, 0, 0]);
    assert_eq!(of(&[book(&slack), WHOLE, D, told(50), out(0), D]), [0, 0, 1, 0, 0, 0]);
    assert_eq!(of(&[book(&pair()), told(80), WHOLE, D, told(100), out(0)]), [0, 0, 0, 0, 0, 1]);
}

#[test]
fn what_21_hides_is_counted() {
    let out_0 = with_out(triangle(30), 0);
    let tally = counted(&[
        book(&out_0),
        WHOLE,
        D,
        told(101),
        out(0),
        back(1),
        out(1),
        out(3),
        back(0),
        WHOLE,
        Command::Book(vec![]),
        WHOLE,
    ]);
    for kind in [
        "out refused 21, hiding 10",
        "back refused 21, hiding 17",
        "out refused 21, hiding 12",
        "out refused 21, hiding  9",
        "back refused 21, hiding none",
        "screen refused 21, hiding none",
        "screen refused 21, hiding  1",
        "back refused 21, from a table true before the book, the flow or the percentage was changed",
    ] {
        assert!(tally.of(kind) > 0, "{kind}\n{tally}");
    }
    assert_eq!((tally.percentages.of(101), tally.percentages.of(100)), (7, 1));
    let text = tally.to_string();
    assert!(
        text.contains("        7  calls at 101 percent\n")
            && text.contains("        0  calls at 0 percent, the least of 0 to 255\n")
    );
}

#[test]
fn misreadings_that_would_tell_are_counted() {
    let tally =
        counted(&[told(80), book(&summer(1, 762)), WHOLE, D, book(&summer(2, 762)), WHOLE, D, book(&pair()), WHOLE, D, out(0)]);
    for (kind, due) in [
        ("screen answered otherwise if limits were rounded twice", 1),
        ("screen shows otherwise if limits were rounded twice", 1),
        ("screen shows otherwise if the percentage were on the first rating alone", 1),
        ("screen shows otherwise if the percentage were ignored", 1),
        ("screen answered otherwise if the percentage were on the second rating alone", 0),
        ("out answered otherwise if the percentage were on the second rating alone", 1),
        ("out answered otherwise if limits were rounded twice", 0),
    ] {
        assert_eq!(tally.of(kind), due, "{kind}\n{tally}");
    }
}

#[test]
fn a_misread_network_is_what_its_name_says() {
    let limits = |reading: Misreading| {
        let network = reading.network(&summer_two(1004, 0), Percentage(80));
        (network.lines[0].normal_limit, network.lines[0].second_limit)
    };
    assert_eq!(Misreading::ALL.map(limits), [(761, 762), (763, 764), (762, 953), (952, 763), (952, 953)]);
}

/// What the stored stream and the random ones have to hold.
fn kinds() -> Vec<String> {
    let mut kinds: Vec<String> = Vec::new();
    for call in ["screen", "out", "back"] {
        kinds.extend(
            ["at 100 percent", "at 50 to 99 percent", "at a percentage out of range"].map(|range| format!("{call} {range}")),
        );
        kinds.extend([format!("{call} accepted, at 50 to 99 percent"), format!("{call} refused 21, hiding none")]);
        kinds.extend(["1", "5", "8"].map(|number| format!("{call} refused 21, hiding {number:>2}")));
    }
    kinds.extend([9, 10, 11, 12].map(|number| format!("out refused 21, hiding {number:>2}")));
    kinds.extend([9, 17, 11].map(|number| format!("back refused 21, hiding {number:>2}")));
    for call in ["out", "back"] {
        kinds.push(format!("{call} accepted, in a run under one percentage below 100"));
        kinds.push(format!("{call} accepted, from a table true at 100 percent and not at its own"));
        kinds.push(format!("{call} accepted, after the percentage rose, the table no longer true"));
        kinds.push(format!("{call} refused 11, after the percentage fell"));
    }
    kinds.extend(["read", "write", "moved", "meters"].map(|call| format!("{call} accepted, at a percentage out of range")));
    kinds.extend(["read", "write", "moved", "meters"].map(|call| format!("{call} refused, at a percentage out of range")));
    kinds.extend(["outages", "returns", "both"].map(|kind| format!("runs under one percentage below 100, with {kind}")));
    kinds.extend(
        Misreading::ALL
            .map(|reading| format!("screen answered otherwise if {reading}"))
            .into_iter()
            .filter(|kind| !kind.contains("first rating")),
    );
    kinds.extend(
        Misreading::ALL
            .into_iter()
            .filter(|reading| reading.shows())
            .map(|reading| format!("screen shows otherwise if {reading}")),
    );
    kinds.push("out answered otherwise if limits were rounded twice".into());
    kinds
}

#[test]
fn the_stored_stream_holds_every_kind_of_percentage() {
    let tally = tally_of(&stored::stream());
    for kind in kinds() {
        assert!(tally.of(&kind) > 0, "{kind}");
    }
    for percentage in [0, 49, 50, 75, 80, 99, 100, 101, 255] {
        assert!(tally.percentages.of(percentage) > 0, "{percentage}");
    }
}

#[test]
fn random_streams_hold_every_kind_of_percentage() {
    let mut tally = Tally::default();
    (1..=650).for_each(|seed| tally.join(&tally_of(&make::stream(seed))));
    for kind in kinds() {
        assert!(tally.of(&kind) >= 2, "{kind}\n{tally}");
    }
    for kind in [
        "out accepted, after the percentage rose, the table still true",
        "out accepted, after the percentage fell, the table still true",
        "out accepted, after the percentage fell, the table no longer true",
        "back accepted, after the percentage fell, the table still true",
        "out refused 12, after the percentage fell",
        "out refused 12, after the percentage rose",
    ] {
        assert!(tally.of(kind) > 0, "{kind}\n{tally}");
    }
    // 100 stays common, and most of the others are in range.
    let of = |range: &str| ["screen", "out", "back"].map(|call| tally.of(&format!("{call} {range}"))).iter().sum::<usize>();
    let (whole, below, beyond) = (of("at 100 percent"), of("at 50 to 99 percent"), of("at a percentage out of range"));
    assert!(whole > below && whole + below > 4 * beyond, "{whole} {below} {beyond}");
}

#[test]
fn random_streams_tell_every_percentage() {
    let mut times = [0; 256];
    for seed in 1..=2500 {
        for command in commands(&make::stream(seed)).map_while(Result::ok) {
            if let Command::Percentage(percentage) = command {
                times[percentage.0 as usize] += 1;
            }
        }
    }
    assert!(times.iter().all(|&times| times > 0), "{times:?}");
    for edge in [0, 49, 50, 51, 99, 100, 101, 255] {
        assert!(times[edge] > 50, "{edge}: {}", times[edge]);
    }
}

#[test]
fn nothing_changes_the_percentage_but_y() {
    for seed in 1..=100 {
        output_with(&make::stream(seed), &mut |done| {
            let due = if let Command::Percentage(told) = done.command { *told } else { done.before.percentage };
            assert_eq!(done.after.percentage, due);
            if !done.before.percentage.in_range() && done.command.takes_percentage() {
                assert_eq!(done.lines[..], [format!("{} 21 0 0", done.command.call().unwrap())]);
                assert!(done.after == done.before);
            }
        });
    }
}

#[test]
fn what_is_fixed_knows_at_which_percentage_a_flow_fits() {
    let hangs = |commands: &[Command]| fixed(&stream(commands)).contains("hangs on a choice");
    let screened = |percentage| [book(&four().0), told(percentage), WHOLE, D];
    // At a larger percentage every choice fits, at a smaller one some may.
    assert!(!hangs(&[&screened(80)[..], &[told(100), out(2), D]].concat()));
    assert!(hangs(&[&screened(100)[..], &[told(80), out(2), D]].concat()));
    assert!(!hangs(&[&screened(100)[..], &[told(80), told(100), out(2), D]].concat()));
    assert!(!hangs(&[&screened(100)[..], &[told(49), out(2)]].concat()));
    // None fits a book with an excess.
    assert!(!hangs(&[book(&pair()), WHOLE, D, told(50), out(0)]));
}
