//! Compares the archive with the reference on pseudo-random inputs from fixed
//! seeds: comparison [PERCENT OF THE ROUNDS] [CANARIES ON EACH SIDE OF A LIST]
//! A run of all rounds fails where a case of rare.rs, rare_level.rs, rare_dearer.rs, rare_classes.rs, rare_step.rs or
//! rare_job2.rs was never met.

mod brute;
mod classes;
mod compare;
mod compare_classes;
mod compare_dearer;
mod compare_job;
mod compare_job2;
mod compare_level;
mod compare_state;
mod compare_step;
mod ffi;
mod generate;
mod generate_classes;
mod generate_job;
mod generate_job2;
mod generate_level;
mod generate_state;
mod job;
mod job2;
mod lent;
mod level;
mod margin;
mod rare;
mod rare_classes;
mod rare_dearer;
mod rare_job2;
mod rare_level;
mod rare_step;
mod reference;
mod report;
mod rng;
mod state;
mod step;
mod table;
mod table_classes;
mod table_job2;
mod table_step;
mod tally;

use compare::Network;
use compare_job::JobLists;
use job::{Job, ONE};
use margin::Branch;
use reference::{Tree, ARCS};
use rng::Rng;
use std::sync::atomic::Ordering;
use tally::Tally;

/// Rounds on trees with a number of arcs from a range.
struct Phase {
    seed: u64,
    rounds: u64,
    fewest: usize,
    most: usize,
}

#[rustfmt::skip]
const PHASES: [Phase; 4] = [
    Phase { seed: 0x1000_0000, rounds: 15_000, fewest: 1, most: 14 },
    Phase { seed: 0x2000_0000, rounds: 4_000, fewest: 1, most: 90 },
    Phase { seed: 0x3000_0000, rounds: 150, fewest: 91, most: ARCS },
    Phase { seed: 0x4000_0000, rounds: 60, fewest: ARCS, most: ARCS },
];

fn main() {
    let mut numbers = std::env::args()
        .skip(1)
        .map(|a| a.parse().expect("a number"));
    let percent = numbers.next().unwrap_or(100);
    if let Some(margin) = numbers.next() {
        lent::MARGIN.store(margin as usize, Ordering::Relaxed);
    }
    let mut tally = Tally::default();
    table::compare(&mut tally);
    compare_longest(&mut tally);
    compare_job2::longest(&mut tally);
    compare_leftovers(&mut tally);
    compare_classes::largest(&mut tally);
    compare_step::all_lists(&mut tally);
    compare_step::round(&mut tally, percent);
    compare_level::small_trees(&mut tally, percent);
    for phase in PHASES {
        for round in 0..(phase.rounds * percent).div_ceil(100) {
            tally.seed = phase.seed + round;
            let mut rng = Rng::new(tally.seed);
            let arcs = phase.fewest + rng.below(phase.most - phase.fewest + 1);
            compare_round(&mut tally, &mut rng, arcs);
        }
    }
    let mut total = 0;
    for (entry, refusals) in &tally.cases {
        let count: u64 = refusals.values().sum();
        let parts = refusals.iter().filter(|(&number, _)| number != 0);
        let parts: String = parts.map(|(number, n)| format!(" {number}:{n}")).collect();
        let refused = if parts.is_empty() { "" } else { ", refused" };
        println!("{entry} {count}{refused}{parts}");
        total += count;
    }
    let unmet = if percent < 100 {
        Vec::new()
    } else {
        rare::unmet(&tally)
    };
    for case in &unmet {
        println!("never met: {case}");
    }
    let differences = tally.differences;
    println!("comparison: {total} cases, {differences} differences");
    std::process::exit(i32::from(differences > 0 || !unmet.is_empty()));
}

/// Every entry on one tree and on a damaged copy of it.
fn compare_round(tally: &mut Tally, rng: &mut Rng, arcs: usize) {
    let parents = generate::parents(rng, arcs);
    let marks = generate::marks(rng, &parents);
    let costs = generate::costs(rng, &parents, &marks);
    let mut network = Network {
        parents,
        costs,
        marks,
    };
    let tree = network.tree().expect("generated trees are accepted");
    rare::note_tree(tally, &tree);
    let state_rng = &mut Rng::new(!tally.seed);
    compare_state::round(tally, state_rng, &network);
    compare_job2::round(tally, &mut Rng::new(tally.seed | 1 << 32), &network);
    compare_classes::round(tally, &mut Rng::new(tally.seed | 1 << 33), &network);
    compare_dearer::round(tally, &mut Rng::new(tally.seed | 1 << 34), &network, &tree);
    compare_tree(tally, rng, &network, &tree);
    compare_lists(tally, rng, &network, &tree, 3);
    compare_level::round(tally, rng, &network, &tree, 3);
    compare_branches(tally, rng, &network, &tree, 3);
    let branch = generate::one_branch(&network);
    let branch_tree = branch.tree().expect("generated trees are accepted");
    compare_level::round(tally, rng, &branch, &branch_tree, 2);
    compare_branches(tally, rng, &branch, &branch_tree, 2);
    let mut job = generate_job::valid(rng, &network.parents, &network.costs);
    let length = job.write().len();
    compare_jobs(tally, rng, &job);
    compare_writer(tally, rng, &job, length);
    compare_definitions(tally, rng, &tree);
    compare_margins(tally, &tree);
    compare_margins(tally, &branch_tree);
    generate_job::damage_lists(rng, &mut job);
    compare_writer(tally, rng, &job, length);
    generate::damage_tree(rng, &mut network);
    rare::note_faults(tally, &network.faults());
    compare_tree(tally, rng, &network, &tree);
    compare_lists(tally, rng, &network, &tree, 1);
    compare_level::round(tally, rng, &network, &tree, 1);
    compare_branches(tally, rng, &network, &tree, 1);
    compare_state::round(tally, state_rng, &network);
    job.fillers.resize(network.parents.len(), 0);
    (job.parents, job.costs) = (network.parents, network.costs);
    compare_writer(tally, rng, &job, length);
}

fn filled<T>(rng: &mut Rng, length: usize, entry: impl Fn(u64) -> T) -> Vec<T> {
    (0..length).map(|_| entry(rng.next())).collect()
}

/// The entries that take a tree alone, the output lists of varied lengths.
fn compare_tree(tally: &mut Tally, rng: &mut Rng, network: &Network, tree: &Tree) {
    network.check_tree(tally);
    let length = generate::length(rng, tree.arcs());
    network.mark_dead_ends(tally, &filled(rng, length, |n| n as u16));
    network.count_members(tally);
    let members = tree.members.len();
    let length = generate::length(rng, members);
    network.list_members(tally, &filled(rng, length, |n| n as u16));
    let length = generate::length(rng, tree.arcs());
    network.list_needs(tally, &filled(rng, length, |n| n));
    let length = generate::length(rng, members);
    network.split_by_arc(tally, &filled(rng, length, |n| n));
}

/// The entries that take a list or a group, on lists made for the tree.
fn compare_lists(tally: &mut Tally, rng: &mut Rng, network: &Network, tree: &Tree, times: usize) {
    let members = tree.members.len();
    for _ in 0..times {
        network.group_cost(tally, &generate::group(rng, members));
        let mut proposal = generate::proposal(rng, tree);
        compare_proposal(tally, network, members, &proposal);
        generate::damage_proposal(rng, &mut proposal);
        compare_proposal(tally, network, members, &proposal);
        let mut caps = generate::caps(rng, tree);
        let length = generate::length(rng, tree.arcs());
        let sums = filled(rng, length, |n| n);
        network.list_cap_sums(tally, &caps, &sums);
        compare::check_caps(tally, members, &caps);
        generate::damage_caps(rng, &mut caps);
        network.list_cap_sums(tally, &caps, &sums);
        compare::check_caps(tally, members, &caps);
    }
    let count = rng.pick(&[0, 1, 1_023, 1_024, 65_536 + members, usize::MAX]);
    compare::check_caps(tally, count, &vec![0; members]);
    compare::check_proposal(tally, count, &vec![0; members]);
}

/// The margin in branches of the tree, and on numbers that are no branch's.
fn compare_branches(
    tally: &mut Tally,
    rng: &mut Rng,
    network: &Network,
    tree: &Tree,
    times: usize,
) {
    for _ in 0..times {
        let arc = generate::branch(rng, tree);
        let users = tree.users.get(arc).map_or(0, Vec::len);
        let length = generate::length(rng, users);
        let expected = network.split_margin(tally, arc, &filled(rng, length, |n| n));
        match network.tree() {
            Ok(tree) => rare::note_branch(tally, &tree, (arc, length), expected.margin),
            Err(r) => rare::note_branch_refused(tally, r, &network.parents, arc),
        }
    }
}

/// The entries that take a proposal.
fn compare_proposal(tally: &mut Tally, network: &Network, members: usize, proposal: &[i64]) {
    let total = network.check_total(tally, proposal);
    let search = network.find_group(tally, proposal);
    if total.refusal == 0 {
        let found = (search.size, proposal.len());
        rare::note_proposal(tally, rare::ARCHIVE, total.difference, found);
    }
    compare::check_proposal(tally, members, proposal);
}

/// The job reader and the report on a valid job, on damaged copies and on arbitrary bytes.
fn compare_jobs(tally: &mut Tally, rng: &mut Rng, valid: &Job) {
    compare_job(tally, rng, &valid.write());
    let mut rows = valid.clone();
    for _ in 0..1 + rng.below(2) {
        generate_job::damage_rows(rng, &mut rows);
    }
    compare_job(tally, rng, &rows.write());
    let mut bytes = if rng.one_in(4) {
        rows.write()
    } else {
        valid.write()
    };
    generate_job::damage_bytes(rng, &mut bytes, &ONE);
    compare_job(tally, rng, &bytes);
    let bytes = generate_job::arbitrary(rng, &ONE);
    compare_job(tally, rng, &bytes);
}

/// The job writer on a job's note and lists, the output most often of the given length.
fn compare_writer(tally: &mut Tally, rng: &mut Rng, job: &Job, length: usize) {
    let length = generate::length(rng, length);
    compare_job::write_job(tally, job, &filled(rng, length, |n| n as u8));
}

/// The entries that read or write a job on stars, at the greatest length and one row or byte past it.
fn compare_longest(tally: &mut Tally) {
    let mut rng = Rng::new(tally.seed);
    let most = reference::AMOUNT as i64;
    for (arcs, note, share) in [
        (ARCS, 255, -most),
        (ARCS, 255, most),
        (ARCS, 256, most),
        (ARCS + 1, 0, most),
        (ARCS + 1, 231, most),
    ] {
        let job = Job {
            note: vec![0xFF; note],
            parents: vec![0; arcs],
            fillers: vec![0; arcs],
            costs: vec![reference::COST; arcs],
            caps: vec![reference::AMOUNT; arcs],
            proposals: vec![share; arcs],
        };
        for _ in 0..20 {
            compare_job(tally, &mut rng, &job.write());
            compare_writer(tally, &mut rng, &job, job.write().len());
        }
    }
}

/// The by-arc split on chains that end in some members, with as many leftover units as can be.
fn compare_leftovers(tally: &mut Tally) {
    for members in [2, 3, 32, 33, 512, ARCS - 1] {
        let chain = ARCS - members;
        let parents: Vec<u16> = (0..ARCS).map(|above| above.min(chain) as u16).collect();
        let network = Network {
            costs: vec![members as u32 - 1; ARCS],
            marks: reference::dead_ends(&parents),
            parents,
        };
        network.split_by_arc(tally, &vec![77; members]);
    }
}

fn compare_job(tally: &mut Tally, rng: &mut Rng, bytes: &[u8]) {
    let [parents, costs, caps, proposals] = generate_job::lent_lengths(rng);
    let lists = JobLists {
        parents: filled(rng, parents, |n| n as u16),
        costs: filled(rng, costs, |n| n as u32),
        caps: filled(rng, caps, |n| n),
        proposals: filled(rng, proposals, |n| n as i64),
    };
    compare_job::read_job(tally, bytes, lists);
    let text = compare_job::report(tally, bytes);
    rare::note_report(tally, &text);
}

/// The reference against the definitions, where the network is small.
fn compare_definitions(tally: &mut Tally, rng: &mut Rng, tree: &Tree) {
    if tree.arcs() > 40 || tree.members.len() > 10 {
        return;
    }
    let costs = brute::group_costs(tree);
    for _ in 0..3 {
        let proposal = generate::proposal(rng, tree);
        compare_judgement(tally, tree, &costs, &proposal);
    }
    let mut case = |name, agree| tally.case(name, 0, [agree, true], true);
    case(
        "definition of the whole cost",
        brute::whole(tree) == tree.whole(),
    );
    case("definition of needs", brute::needs(tree) == tree.needs());
    let right = |g: usize| tree.group_cost(&brute::group(tree, g)) == costs[g];
    case("definition of group costs", (0..costs.len()).all(right));
    for _ in 0..3 {
        let caps = generate::caps(rng, tree);
        case(
            "definition of the cap sums",
            brute::cap_sums(tree, &caps) == tree.cap_sums(&caps),
        );
    }
    if tree.whole() > 2_000 {
        return;
    }
    case(
        "definition of the by-arc split",
        brute::by_arc(tree) == tree.by_arc(),
    );
    compare_level::definitions(tally, rng, tree, &costs);
}

/// The total and the group search, on a proposal of any total.
fn compare_judgement(tally: &mut Tally, tree: &Tree, costs: &[u64], proposal: &[i64]) {
    let difference = brute::difference(tree, costs, proposal);
    let (amount, groups) = brute::greatest_overpayment(tree, costs, proposal);
    let (greatest, smallest) = tree.greatest_overpayment(proposal);
    let found = (smallest.len(), proposal.len());
    rare::note_proposal(tally, rare::DEFINITION, difference, found);
    let mut case = |name, agree| tally.case(name, 0, [agree, true], true);
    case(
        "definition of the total",
        tree.difference(proposal) == difference,
    );
    case(
        "definition of the group search",
        greatest == amount && groups == [smallest],
    );
}

/// The branches with two users or more, where the network is small.
fn compare_margins(tally: &mut Tally, tree: &Tree) {
    if tree.arcs() > 40 {
        return;
    }
    let from_source = (1..=tree.arcs()).filter(|&arc| tree.parent[arc] == 0);
    for arc in from_source.filter(|&arc| (2..=10).contains(&tree.users[arc].len())) {
        compare_margin(tally, tree, arc);
    }
}

/// The margin and the split of a branch: no group has less, and no split gives
/// all groups more.
fn compare_margin(tally: &mut Tally, tree: &Tree, arc: usize) {
    let branch = Branch::new(tree, arc);
    let (margin, need) = (branch.widest(), branch.need());
    let shares = branch.shares(margin);
    let own = brute::own_costs(tree, arc);
    let adds_up = shares.iter().sum::<u64>() == need;
    let mut case = |name, agree| tally.case(name, 0, [agree, true], true);
    case(
        "definition of the margin",
        adds_up && brute::least_margin(&own, &shares) == margin as i64,
    );
    case(
        "definition of the widest margin",
        brute::asked(&own, margin + 1) > need,
    );
    if (need + 1).saturating_pow(shares.len() as u32 - 1) <= 5_000 {
        case(
            "definition of the margin over all splits",
            brute::widest_margin(&own, need) == margin as i64,
        );
    }
    if need <= 2_000 {
        case(
            "definition of the margin split",
            brute::margin_split(tree, arc, margin) == shares,
        );
    }
}
