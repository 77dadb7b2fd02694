//! The level split on a tree, and on the same tree with one arc or several
//! dearer: what the lists that the archive gives have to do with each other.

use crate::compare::Network;
use crate::generate_level;
use crate::rare_dearer;
use crate::reference::{Tree, COST};
use crate::rng::Rng;
use crate::tally::Tally;

/// One dearer arc, without floors and with some, then several.
pub fn round(tally: &mut Tally, rng: &mut Rng, network: &Network, tree: &Tree) {
    let arc = 1 + rng.below(tree.arcs());
    let mut dear = network.clone();
    raise(rng, &mut dear, arc);
    for floored in [false, true] {
        let (caps, floors) = bounds(rng, [network, &dear], floored);
        let Some(lists) = lists(tally, [network, &dear], &caps, &floors) else {
            continue;
        };
        let rise = u64::from(dear.costs[arc - 1] - network.costs[arc - 1]);
        rare_dearer::note_rises(tally, tree, (arc, rise), &lists, [&caps, &floors]);
        let holds = rises_of_one(tree, (arc, rise), &lists);
        tally.case("level split, a dearer arc", 0, [holds, true], true);
    }
    for _ in 0..1 + rng.below(3) {
        let arc = 1 + rng.below(tree.arcs());
        raise(rng, &mut dear, arc);
    }
    let (caps, floors) = bounds(rng, [network, &dear], true);
    if let Some(lists) = lists(tally, [network, &dear], &caps, &floors) {
        let dear = dear.tree().expect("costs within the limit are accepted");
        let holds = rises_of_branches([tree, &dear], &lists);
        tally.case("level split, dearer arcs", 0, [holds, true], true);
    }
}

/// Raises the cost of an arc: not at all, by a little, or up to the limit.
fn raise(rng: &mut Rng, network: &mut Network, arc: usize) {
    let cost = &mut network.costs[arc - 1];
    let room = u64::from(COST - *cost);
    *cost += match rng.below(8) {
        0 => 0,
        1 | 2 => room.min(1),
        3 | 4 => rng.up_to(room.min(20)),
        5 => rng.up_to(room),
        6 => room,
        _ => rng.up_to(room) >> rng.below(30),
    } as u32;
}

/// Caps and floors made for one of the two, most often the dearer.
fn bounds(rng: &mut Rng, networks: [&Network; 2], floored: bool) -> (Vec<u64>, Vec<u64>) {
    let network = networks[usize::from(!rng.one_in(3))];
    let tree = network.tree().expect("costs within the limit are accepted");
    let caps = generate_level::caps(rng, &tree);
    let floors = if floored {
        generate_level::floors(rng, &tree, &caps)
    } else {
        vec![0; caps.len()]
    };
    (caps, floors)
}

/// The lists that the archive gives, where it refuses neither.
fn lists(
    tally: &mut Tally,
    networks: [&Network; 2],
    caps: &[u64],
    floors: &[u64],
) -> Option<[Vec<u64>; 2]> {
    let out = vec![77; caps.len()];
    let [first, second] = networks.map(|n| n.split_level(tally, caps, floors, &out));
    Some([first?, second?])
}

/// The members' rises, where no share falls.
pub fn rises(lists: &[Vec<u64>; 2]) -> Option<Vec<u64>> {
    let [before, after] = lists;
    before
        .iter()
        .zip(after)
        .map(|(b, a)| a.checked_sub(*b))
        .collect()
}

/// No share falls, none rises by more than the arc's cost, the rises add up to
/// it, and no share changes on the other branches. An arc without users raises
/// nobody's share.
fn rises_of_one(tree: &Tree, (arc, rise): (usize, u64), lists: &[Vec<u64>; 2]) -> bool {
    let Some(rises) = rises(lists) else {
        return false;
    };
    let counted = if tree.users[arc].is_empty() { 0 } else { rise };
    let mut top = arc;
    while tree.parent[top] != 0 {
        top = tree.parent[top];
    }
    let mut others = (0..rises.len()).filter(|j| !tree.users[top].contains(j));
    rises.iter().all(|&r| r <= counted)
        && rises.iter().sum::<u64>() == counted
        && others.all(|j| rises[j] == 0)
}

/// No share falls, and the rises of the users of each arc from the source add
/// up to what its need rises by.
fn rises_of_branches(trees: [&Tree; 2], lists: &[Vec<u64>; 2]) -> bool {
    let Some(rises) = rises(lists) else {
        return false;
    };
    let [tree, _] = trees;
    let [before, after] = trees.map(Tree::needs);
    let mut from_source = (1..=tree.arcs()).filter(|&arc| tree.parent[arc] == 0);
    from_source.all(|arc| {
        let users = tree.users[arc].iter();
        users.map(|&j| rises[j]).sum::<u64>() == after[arc - 1] - before[arc - 1]
    })
}
