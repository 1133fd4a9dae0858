//! What the stored stream and the random streams of orders hold, and that the comparison of orders finds planted faults by itself.

mod judged;

use judged::tally_of;
use second::definitions::book::unpack;
use second::definitions::network::Network;
use second::judging::faults::Plant;
use second::judging::faults_orders::ORDER_FAULTS;
use second::judging::series::{Series, Switched};
use second::judging::tally::Tally;
use second::streams::{make_orders, stored};
use second::trial::reference::{output_with, Done};
use second::trial::stream::{commands, Command};

/// What the stored stream has to hold, and 8,000 random ones so often.
const KINDS: [(&str, usize); 17] = [
    ("two outages: compared", 5_000),
    ("two outages: on new books whose ratings differ", 1_000),
    ("two outages: below 100 percent", 1_000),
    ("two outages: midway in a run", 1_000),
    ("two outages: from another flow or table", 300),
    ("two outages: accepted in full both ways", 2_000),
    ("two outages: accepted in full both ways, flows left differ", 300),
    ("two outages: accepted in full both ways, reroutes left differ", 300),
    ("two outages: accepted in full neither way, refused at the second call both ways", 500),
    ("two outages: accepted in full neither way, refused at the first call and at the second", 500),
    ("three or more outages: accepted in full both ways", 500),
    ("three or more outages: accepted in full neither way, refused at different places", 500),
    ("two returns: compared", 1_000),
    ("three or more returns: compared", 200),
    ("an outage and a return: accepted in full both ways", 500),
    ("an outage and a return: accepted in full one way alone", 500),
    ("three or more outages and returns: accepted in full one way alone", 50),
];

/// What only the random ones have to hold.
const RANDOM: [(&str, usize); 10] = [
    ("two outages: above 64 buses", 500),
    ("two outages: accepted in full both ways, flows and reroutes left the same", 1_000),
    ("two outages: accepted in full neither way, refused at the first call both ways", 300),
    ("three or more outages: compared", 2_000),
    ("three or more outages: accepted in full both ways, flows left differ", 100),
    ("three or more outages: accepted in full neither way, refused at the same place", 300),
    ("two returns: accepted in full both ways, reroutes left differ", 50),
    ("two returns: midway in a run", 300),
    ("an outage and a return: accepted in full neither way", 200),
    ("three or more outages and returns: accepted in full both ways", 200),
];

#[test]
fn the_stored_stream_holds_every_kind_of_order() {
    let tally = tally_of(&stored::stream_with_orders());
    for (kind, _) in KINDS {
        assert!(tally.of(&format!("orders of {kind}")) > 0, "{kind}\n{tally}");
    }
}

#[test]
fn random_streams_hold_every_kind_of_order() {
    let mut tally = Tally::default();
    (1..=320).for_each(|seed| tally.join(&tally_of(&make_orders::stream(seed))));
    for (kind, asked) in KINDS.into_iter().chain(RANDOM) {
        assert!(tally.of(&format!("orders of {kind}")) * 25 > asked, "{kind}\n{tally}");
    }
    for list in ["two returns", "three or more returns"] {
        let of = |kind: &str| tally.of(&format!("orders of {list}: {kind}"));
        assert_eq!((of("accepted in full both ways"), of("accepted in full both ways, flows left differ")), (of("compared"), 0));
    }
}

#[test]
fn the_stored_stream_grew_by_46_dumps() {
    // The stream of then had 58,454 bytes, its last 3 a bad command.
    let whole = stored::stream_with_orders();
    let added: Vec<Command> = commands(&whole[58_451..]).map_while(Result::ok).collect();
    let count = |wanted: &dyn Fn(&Command) -> bool| added.iter().filter(|command| wanted(command)).count();
    let calls = ["screen", "out", "back"].map(|call| count(&|command| command.call() == Some(call)));
    assert_eq!((calls, count(&|command| *command == Command::Dump)), ([11, 26, 9], 46));
}

/// What the comparison of orders by itself says of our own output with a fault planted once, if it could be: no call of it is
/// held to anything else.
fn compared_alone(stream: &[u8], plant: Plant) -> Option<Result<(), String>> {
    let (mut series, mut tally, mut said, mut planted) = (Series::default(), Tally::default(), Ok(()), false);
    output_with(stream, &mut |mut done: Done| {
        planted = planted || plant(&mut done);
        let number = done.command.answer_in(done.lines);
        let (Command::Switch { way, branch, .. }, Some(number @ (0 | 12))) = (done.command, number) else {
            return if done.command.takes_percentage() && number == Some(0) {
                series.end()
            };
        };
        let network = &Network::of(&unpack(done.before.bytes()).unwrap(), done.before.percentage);
        let (way, branch, accepted, before, left) = (*way, *branch, number == 0, done.before, &*done.after);
        let switched = Switched { network, way, branch, accepted, before, left, held: true, midway: false };
        said = said.clone().and(series.switched(&mut tally, switched));
    });
    planted.then_some(said)
}

#[test]
fn the_comparison_by_itself_takes_our_own_answers() {
    for seed in 1..=30 {
        assert_eq!(compared_alone(&make_orders::stream(seed), |done| *done.command == Command::Dump), Some(Ok(())));
    }
}

/// What it leaves to the other demands: that an outage and a return are accepted in one order alone, which may be; and what a refused
/// call leaves, since only orders that are accepted in full leave the same.
const LEFT_OPEN: [&str; 2] = [
    "an outage after a return answered as if the return were not",
    "the second of two outages, refused, that brings the first back",
];

#[test]
fn the_comparison_by_itself_finds_planted_faults() {
    let streams: Vec<Vec<u8>> = (1..=40).map(make_orders::stream).collect();
    for (name, plant) in ORDER_FAULTS {
        let said: Vec<Result<(), String>> = streams.iter().filter_map(|stream| compared_alone(stream, *plant)).collect();
        let found = said.iter().filter(|said| said.is_err()).count();
        assert!(!said.is_empty(), "{name}");
        assert_eq!(found > 0, !LEFT_OPEN.contains(name), "{name}: {found} of {}", said.len());
    }
}
