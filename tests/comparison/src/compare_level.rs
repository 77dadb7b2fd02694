//! The level split on caps and floors of every kind, and the reference against
//! the definitions where the network is small.

use crate::brute;
use crate::compare::Network;
use crate::compare_dearer;
use crate::filled;
use crate::generate;
use crate::generate_level;
use crate::level;
use crate::rare_level;
use crate::reference::{Answer, Tree};
use crate::rng::Rng;
use crate::tally::Tally;

/// The number of small trees.
const SMALL: u64 = 8_000;

fn split(tally: &mut Tally, network: &Network, caps: &[u64], floors: &[u64], out: &[u64]) {
    network.split_level(tally, caps, floors, out);
    match network.tree() {
        Ok(tree) => rare_level::note_call(tally, &tree, caps, floors, out.len()),
        Err(r) => rare_level::note_refused(tally, r, caps, floors),
    }
}

/// Lists made for the tree: with no floors, with floors, and damaged.
pub fn round(tally: &mut Tally, rng: &mut Rng, network: &Network, tree: &Tree, times: usize) {
    let members = tree.members.len();
    for _ in 0..times {
        let mut caps = generate_level::caps(rng, tree);
        let mut floors = generate_level::floors(rng, tree, &caps);
        let length = generate::length(rng, members);
        let out = filled(rng, length, |n| n);
        split(tally, network, &caps, &vec![0; members], &out);
        split(tally, network, &caps, &floors, &out);
        generate_level::damage(rng, &mut caps, &mut floors);
        split(tally, network, &caps, &floors, &out);
    }
}

/// Trees on which all lists can be tried: the definitions, and the archive.
pub fn small_trees(tally: &mut Tally, percent: u64) {
    for round in 0..(SMALL * percent).div_ceil(100) {
        tally.seed = 0x5000_0000 + round;
        let mut rng = Rng::new(tally.seed);
        let network = generate_level::small(&mut rng);
        let tree = network.tree().expect("generated trees are accepted");
        self::round(tally, &mut rng, &network, &tree, 1);
        definitions(tally, &mut rng, &tree, &brute::group_costs(&tree));
        compare_dearer::round(tally, &mut rng, &network, &tree);
    }
}

fn squares(list: &[u64]) -> u64 {
    list.iter().map(|share| share * share).sum()
}

/// Refused by 9, 27 or 28 where no list is kept; else one of the lists, with the
/// least sum of squares.
fn is_least(answer: &Answer<Vec<u64>>, kept: &[Vec<u64>]) -> bool {
    match answer {
        Ok(shares) => {
            let least = kept.iter().map(|list| squares(list)).min();
            kept.contains(shares) && Some(squares(shares)) == least
        }
        Err(r) => [9, 27, 28].contains(&r.number) && kept.is_empty(),
    }
}

/// The definitions of the level split, the costs being those of all groups; and
/// that a refusal 9 is the one without floors.
fn compare_definition(tally: &mut Tally, tree: &Tree, costs: &[u64], caps: &[u64], floors: &[u64]) {
    let members = caps.len();
    let answer = level::split(tree, caps, floors, members);
    let number = answer.as_ref().err().map_or(0, |r| r.number);
    let mut case = |name, agree| tally.case(name, number, [agree, true], true);
    if number != 27 && level::adjusted(tree, floors)[0] <= 4_000 {
        case(
            "definition of the level split",
            brute::level(tree, caps, floors) == answer,
        );
    }
    if number == 9 {
        let plain = level::split(tree, caps, &vec![0; members], members);
        case("level split refused 9 with floors", plain == answer);
    }
    let lists = (tree.whole() + 1).saturating_pow(members as u32 - 1);
    if lists <= 5_000 {
        let kept = brute::kept_lists(costs, caps, floors);
        case(
            "definition of the level split over all lists",
            is_least(&answer, &kept),
        );
    }
}

/// With no floors, then with some.
pub fn definitions(tally: &mut Tally, rng: &mut Rng, tree: &Tree, costs: &[u64]) {
    for turn in 0..6 {
        let caps = generate_level::caps(rng, tree);
        let floors = match turn {
            0 => vec![0; caps.len()],
            _ => generate_level::floors(rng, tree, &caps),
        };
        compare_definition(tally, tree, costs, &caps, &floors);
    }
}
