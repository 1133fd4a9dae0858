//! The trial stream: commands come back from their bytes, good outputs are taken, what is fixed is the same for all.

use second::books::random::Random;
use second::definitions::book::unpack;
use second::definitions::cuts::{fitting_flow, Cutter};
use second::definitions::load;
use second::definitions::network::Network;
use second::definitions::record;
use second::definitions::screen;
use second::definitions::switching::Lent;
use second::judging::judge::judge;
use second::judging::selftest;
use second::streams::{make, stored};
use second::trial::fixed;
use second::trial::reference::{output, output_with, Done};
use second::trial::stream::{bytes, commands, Command, FLOWS, TABLE};

#[test]
fn commands_come_back_from_their_bytes() {
    for seed in 0..40 {
        let stream = make::stream(seed);
        let again: Vec<u8> = commands(&stream).map_while(Result::ok).flat_map(|command| bytes(&command)).collect();
        assert!(stream.starts_with(&again));
        assert_eq!(again.len() < stream.len(), commands(&stream).any(|command| command.is_err()));
    }
}

#[test]
fn bad_commands_stop_the_stream() {
    let too_large = [&b"F\x01\x00\0\0\0\0"[..], b"T\x34\x00\0", b"S\x01\x01\0\0", b"B\x08\x35", b"M\0\0\0\0\x81\0"];
    let returns = [&b"K\x01\x01\0\0\0\0"[..], b"K\0\0\x34\x01\0\0", b"k\0\0\0\0\0\0", b"y\x64"];
    let moves = [&b"L\x02\0\0"[..], b"L\xff\0\0", b"L\0\x08\x35", b"L\x01\xff\xff", b"l\0\0\0"];
    let writes =
        [&b"X\0\x01\0\0\0\x01\0\x81\0\0\0\0"[..], b"X\0\x01\0\0\0\x01\0\0\x05\x01\0\0", b"X\0\x01\0\0\0\x01\0\0\0\0\x08\x35"];
    let loads = [&b"V\x01\x01\0\0\0\0\0\x01\0\0\0\0"[..], b"V\0\0\x34\x01\0\0\0\x01\0\0\0\0", b"v\0\0\0\0\0\0\0\0\0\0\0\0"];
    for bad in [&b"x"[..]].into_iter().chain(too_large).chain(returns).chain(moves).chain(writes).chain(loads) {
        assert_eq!(output(bad), "bad command\n");
        assert_eq!(output(&[bad, b"D"].concat()), "bad command\n");
    }
    for cut_short in [
        &b"B\x00\x02\x01"[..],
        b"O\0\0\0\0\0",
        b"K\0\0\0\0\0",
        b"K",
        b"M\x01\x01\x01\x01\x01\0\0\0\0\x05",
        b"L",
        b"L\0\0",
        b"X\0\x01\0\0\0\x01\0\0\0\0\0",
        b"Y",
        b"Y\x32Y",
        b"V",
        b"V\x01\0\x34\0\0\0\0\x01\0\0\0",
    ] {
        assert_eq!(output(cut_short), "bad command\n");
    }
    assert_eq!(output(b""), "");
}

#[test]
fn lines_have_the_form_of_the_table() {
    let stream = [&b"B\x00\x02\xab\x0cF\x00\x01\xff\xff\xff\xfeT\x00\x34\x0fD"[..], b"S\0\0\0\0"].concat();
    let printed = output(&stream);
    let lines: Vec<&str> = printed.lines().collect();
    assert!(lines[0].starts_with("book 2 ab0c0000") && lines[0].len() == 7 + 4200);
    assert!(lines[1].starts_with("flow 0 -2 0 0"));
    assert_eq!(lines[1].split(' ').count(), 257);
    assert!(lines[2].starts_with("record 0 000000") && lines[3].starts_with("record 1 0f0000"));
    assert_eq!((lines.len(), lines[258]), (259, "screen 1 0 0"));
}

#[test]
fn the_stored_stream_visits_every_refusal() {
    let stream = stored::stream();
    let (tally, verdict) = judge(&stream, &output(&stream));
    assert_eq!(verdict, Ok(()));
    for number in 1..=21 {
        assert!(tally.of(&format!("refused {number:>2}")) > 0, "{number}");
    }
    for number in [21, 1, 2, 3, 4, 5, 6, 7, 8, 9, 17, 11] {
        assert!(tally.of(&format!("back refused {number:>2}")) > 0, "{number}");
    }
    assert_eq!((tally.of("back refused 10"), tally.of("back refused 12")), (0, 0));
    for number in [21, 1, 2, 3, 4, 5, 6, 7, 8, 19, 20, 11, 12] {
        assert!(tally.of(&format!("move refused {number:>2}")) > 0, "{number}");
    }
    for kind in [
        "screen accepted, with 128 buses and 256 branches",
        "out accepted, with 128 buses and 256 branches",
        "out accepted, that fell back to all branches",
        "out accepted, from an untrue table, its record names the branch itself",
        "out accepted, from an untrue table, its record names bits beyond the count",
        "out accepted, from an untrue table, with records kept",
        "back accepted, with 128 buses and 256 branches",
        "back accepted, in a run mixed with outages, from a true table",
        "back accepted, out and back with nothing else between, all as it was",
        "back accepted, that turned short records into carrying",
        "back accepted, from an untrue table, with a record of byte 0 = 1 kept out of service",
        "back accepted, from an untrue table, with a record kept that names the returned branch",
        "back accepted, from an untrue table, its own record not all zeros",
        "read accepted",
        "write accepted",
        "meters accepted",
        "bad command",
    ] {
        assert!(tally.of(kind) > 0, "{kind}");
    }
}

#[test]
fn every_refused_call_of_the_stored_stream_is_followed_by_a_dump() {
    let mut refused = 0;
    output_with(&stored::stream(), &mut |done| {
        if done.command.answer_in(done.lines).is_some_and(|number| number != 0) {
            assert_eq!(done.next, Some(&Command::Dump), "{:?}", done.command);
            refused += 1;
        }
    });
    assert!(refused > 100, "{refused}");
}

/// Another flow that a screen or a move of load may leave: the branches are taken in another order.
fn other_flow(done: &Done, network: &Network, random: &mut Random) -> Vec<i64> {
    let mut order: Vec<usize> = (0..network.lines.len()).collect();
    for k in (1..order.len()).rev() {
        order.swap(k, random.below(k + 1));
    }
    let mut shuffled = network.clone();
    shuffled.lines = order.iter().map(|&k| network.lines[k].clone()).collect();
    let found = match *done.command {
        Command::Load { shift, .. } => {
            let flow: Vec<i64> = order.iter().map(|&k| done.before.flow[k]).collect();
            let lent = Lent { flow: &flow, ..done.before.lent(FLOWS, TABLE) };
            load::own_result(&shift.turned().changed(&shuffled), &lent, shift).0
        }
        _ => fitting_flow(&shuffled).unwrap(),
    };
    let mut flow = vec![0; found.len()];
    order.iter().zip(found).for_each(|(&k, kw)| flow[k] = kw);
    flow
}

/// After a screen or a move of load such a flow and its records are put in place.
fn other_choice(done: &mut Done, random: &mut Random) {
    let free = matches!(done.command, Command::Screen { .. } | Command::Load { .. });
    if !free || done.command.answer_in(done.lines) != Some(0) {
        return;
    }
    let network = Network::of(&unpack(done.after.bytes()).unwrap(), done.after.percentage);
    let count = network.lines.len();
    let after = other_flow(done, &network, random);
    let anew = match done.command {
        Command::Load { .. } => load::shortlist(&network, &done.before.table, &done.before.flow[..count], &after),
        _ => vec![true; count],
    };
    let mut cutter = Cutter::new(&network);
    for k in 0..count {
        let kept = || record::stretch(&done.before.table, k).try_into().unwrap();
        let bytes = if anew[k] { screen::own_record(&mut cutter, &after, k) } else { kept() };
        done.after.table[52 * k..52 * (k + 1)].copy_from_slice(&bytes);
    }
    done.after.flow[..count].copy_from_slice(&after);
}

#[test]
fn other_choices_are_taken_too() {
    let mut random = Random(5);
    let mut differing = 0;
    for stream in std::iter::once(stored::stream()).chain((100..220).map(make::stream)) {
        let other = output_with(&stream, &mut |mut done| other_choice(&mut done, &mut random));
        assert_eq!(judge(&stream, &other).1, Ok(()));
        differing += (other != output(&stream)) as usize;
    }
    assert!(differing > 20, "{differing}");
}

/// Whether a line agrees with its fixed part.
fn agrees(fixed: &str, line: &str) -> bool {
    let (due, words): (Vec<&str>, Vec<&str>) = (fixed.split(' ').collect(), line.split(' ').collect());
    let word = |(due, word): (&&str, &&str)| {
        *due == "?" || due.len() == word.len() && due.chars().zip(word.chars()).all(|(due, digit)| due == '?' || due == digit)
    };
    due.len() == words.len() && due.iter().zip(&words).all(word)
}

#[test]
fn what_is_fixed_agrees_with_every_choice() {
    let mut random = Random(6);
    let mut whole = 0;
    for stream in std::iter::once(stored::stream()).chain((300..420).map(make::stream)) {
        let other = output_with(&stream, &mut |mut done| other_choice(&mut done, &mut random));
        let due = fixed::fixed(&stream);
        let mut lines = other.lines();
        for fixed in due.lines().filter(|line| !line.starts_with('?')) {
            let line = lines.next().unwrap();
            assert!(agrees(fixed, line), "{fixed}\n{line}");
        }
        whole += lines.next().is_none() as usize;
    }
    assert!(whole > 80, "{whole}");
}

#[test]
fn no_answer_of_the_stored_stream_hangs_on_a_choice() {
    assert!(!fixed::fixed(&stored::stream()).lines().any(|line| line.starts_with('?')));
}

#[test]
fn planted_faults_are_found() {
    assert!(selftest::selftest());
}
