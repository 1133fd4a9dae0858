//! Every group tried against the max-flow, on many random small books; reroutes against all whole flows.

use second::books::random::Random;
use second::books::random_books::{counts, served, strained};
use second::books::random_ratings::heavy;
use second::definitions::book::{pack, unpack};
use second::definitions::form::Form;
use second::definitions::limits::Limits;
use second::definitions::network::{Network, Verdict};
use second::definitions::percentage::NAMEPLATE;
use second::definitions::reroutes::{confined, exactly, Exactly};
use second::definitions::tables::{numbers, write};
use second::definitions::{cuts, groups};

#[test]
fn both_methods_agree_on_small_books() {
    let mut random = Random(1);
    let (mut overloaded, mut shorts, mut islanding, mut carries) = (0, 0, 0, 0);
    for round in 0..6000 {
        let buses = 1 + random.below(if round % 10 == 0 { 12 } else { 7 });
        let count = random.below(2 * buses + 3);
        let book = match round % 4 {
            0 => strained(&mut random, buses, count),
            1 => heavy(&mut random, NAMEPLATE, buses, count).0,
            _ => served(&mut random, buses, count),
        };
        let network = Network::of(&book, NAMEPLATE);
        let excess = groups::base_excess(&network);
        assert_eq!(excess, cuts::base_excess(&network), "{book:?}");
        assert_eq!(excess.amount == 0, cuts::fitting_flow(&network).is_some_and(|flow| network.fits(&flow)));
        if excess.amount > 0 {
            overloaded += 1;
            continue;
        }
        for branch in 0..network.lines.len() {
            let verdict = groups::verdict(&network, branch);
            assert_eq!(verdict, cuts::verdict(&network, branch), "branch {branch} of {book:?}");
            assert_eq!(verdict, cuts::Cutter::new(&network).verdict_afresh(branch), "branch {branch} of {book:?}");
            match verdict {
                Verdict::Carries => carries += 1,
                Verdict::Short(_) => shorts += 1,
                Verdict::Islands(_) => islanding += 1,
                Verdict::Out => {}
            }
        }
    }
    let enough = overloaded > 300 && shorts > 1000 && islanding > 2000 && carries > 3000;
    assert!(enough, "{overloaded} {shorts} {islanding} {carries}");
}

#[test]
fn both_ways_to_cut_agree_on_large_books() {
    let mut random = Random(4);
    for _ in 0..60 {
        let book = served(&mut random, 128, 256);
        let network = Network::of(&book, NAMEPLATE);
        let (mut one, mut other) = (cuts::Cutter::new(&network), cuts::Cutter::new(&network));
        for branch in 0..network.lines.len() {
            assert_eq!(one.verdict(branch), other.verdict_afresh(branch));
        }
    }
}

#[test]
fn books_come_back_from_their_bytes() {
    let mut random = Random(2);
    let mut new = 0;
    for _ in 0..2000 {
        let (buses, count) = counts(&mut random);
        let book = strained(&mut random, buses, count);
        let bytes = pack(&book);
        assert_eq!(unpack(&bytes).as_ref(), Ok(&book));
        let written = |room| write(book.form, buses, book.branches.len(), book.factor, &book.injections, &numbers(&book), room);
        assert_eq!(written(bytes.len()).as_ref(), Ok(&bytes));
        assert_eq!(written(bytes.len() - 1), Err(8.into()));
        new += (book.form == Form::New) as usize;
    }
    assert!((800..1200).contains(&new), "{new}");
}

/// Every whole flow of a network without `branch` that fits by these limits, one by one.
fn all_flows(network: &Network, limits: Limits, branch: usize) -> Vec<Vec<i64>> {
    let without = network.without(branch);
    let mut flows: Vec<Vec<i64>> = vec![Vec::new()];
    for line in &without.lines {
        let most = if line.served { line.limit(limits) } else { 0 };
        flows = flows.into_iter().flat_map(|flow| (-most..=most).map(move |kw| [&flow[..], &[kw]].concat())).collect();
    }
    flows.retain(|flow| without.fits_within(limits, flow));
    flows
}

/// A tiny book with limits of at most 2, the second at times above the normal one, and a random flow that fits it.
fn tiny(random: &mut Random, buses: usize, count: usize) -> (Network, Vec<i64>) {
    let mut book = served(random, buses, count);
    for branch in &mut book.branches {
        branch.kva = branch.kva.min(2);
        branch.second_kva = random.between(branch.kva as i64, 2) as u32;
    }
    book.factor = 1000;
    book.injections = vec![0; buses];
    let mut flow = Vec::new();
    for branch in &book.branches {
        let most = if branch.served { branch.kva as i64 } else { 0 };
        let kw = random.between(-most, most);
        book.injections[branch.first] += kw;
        book.injections[branch.second] -= kw;
        flow.push(kw);
    }
    (Network::of(&book, NAMEPLATE), flow)
}

#[test]
fn reroutes_are_decided_as_all_whole_flows_decide_them() {
    let mut random = Random(3);
    let (mut yes, mut no, mut only_confined, mut second_only) = (0, 0, 0, 0);
    for _ in 0..1500 {
        let (buses, count) = (2 + random.below(4), 1 + random.below(6));
        let (network, flow) = tiny(&mut random, buses, count);
        assert!(network.fits(&flow));
        let branch = random.below(count);
        if !network.lines[branch].served {
            continue;
        }
        let [flows, normal] = [Limits::Second, Limits::Normal].map(|limits| all_flows(&network, limits, branch));
        let differs = |other: &Vec<i64>| (0..count).filter(|&k| k != branch && other[k] != flow[k]).collect::<Vec<_>>();
        for mask in 0..1usize << count {
            let named: Vec<usize> = (0..count).filter(|k| mask >> k & 1 == 1).collect();
            let within = |other: &Vec<i64>| differs(other).iter().all(|k| named.contains(k));
            let [found, kept] = [(Limits::Second, &flows), (Limits::Normal, &normal)].map(|(limits, flows)| {
                let found = confined(&network, limits, &flow, branch, &named);
                assert_eq!(found.is_some(), flows.iter().any(within));
                assert!(found.as_ref().is_none_or(|found| flows.contains(found) && within(found)));
                found
            });
            second_only += (found.is_some() && kept.is_none()) as usize;
            let due = flows.iter().any(|other| differs(other) == named);
            match exactly(&network, &flow, branch, &named) {
                Exactly::Yes(witness) => assert!(due && flows.contains(&witness) && differs(&witness) == named),
                Exactly::No => assert!(!due, "{named:?} of {branch}, {flow:?}, {network:?}"),
                Exactly::Undecided => panic!("undecided on a small book"),
            }
            (yes, no) = (yes + due as usize, no + !due as usize);
            only_confined += (!due && found.is_some()) as usize;
        }
    }
    assert!(yes > 1000 && no > 1000 && only_confined > 100 && second_only > 100, "{yes} {no} {only_confined} {second_only}");
}
