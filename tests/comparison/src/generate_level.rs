//! Pseudo-random caps, and floors for them; and small trees to try them on.

use crate::compare::Network;
use crate::generate::{self, core_shares, damage_caps};
use crate::reference::{dead_ends, Tree, AMOUNT};
use crate::rng::Rng;

/// A tree of few arcs with small costs, those of the dead ends smaller.
pub fn small(rng: &mut Rng) -> Network {
    let arcs = 3 + rng.below(5);
    let parent = |k: usize| match k {
        1 => 0,
        _ if rng.one_in(5) => 0,
        _ => 1 + rng.below((k - 1).min(3)),
    };
    let parents: Vec<u16> = (1..=arcs).map(parent).map(|p| p as u16).collect();
    let ends = dead_ends(&parents);
    let cost = |&end: &u16| rng.up_to(if end == 1 { 2 } else { 6 }) as u32;
    let costs = ends.iter().map(cost).collect();
    let marks = if rng.one_in(4) {
        generate::marks(rng, &parents)
    } else {
        ends
    };
    Network {
        parents,
        costs,
        marks,
    }
}

/// Caps in range, more often ample than those of the other entries.
pub fn caps(rng: &mut Rng, tree: &Tree) -> Vec<u64> {
    if rng.one_in(3) {
        return vec![AMOUNT; tree.members.len()];
    }
    generate::caps(rng, tree)
}

/// Floors in range, most often none above its cap: none at all, small ones, the
/// caps or near them, or those of a list in the core, or a little off it.
pub fn floors(rng: &mut Rng, tree: &Tree, caps: &[u64]) -> Vec<u64> {
    let kind = rng.below(10);
    let shares = core_shares(rng, tree);
    let floor = |(&cap, &share): (&u64, &u64)| match kind {
        0 => 0,
        1 => rng.up_to(3),
        2 => cap,
        3 => cap - rng.up_to(cap.min(2)),
        4 => rng.up_to(cap),
        5 | 6 => share,
        7 | 8 => share - rng.up_to(share),
        _ => share + rng.up_to(2),
    };
    let mut floors: Vec<u64> = caps.iter().zip(&shares).map(floor).collect();
    thin_out(rng, &mut floors);
    for (floor, &cap) in floors.iter_mut().zip(caps) {
        *floor = (*floor).min(cap);
    }
    if rng.one_in(6) {
        raise_one(rng, &mut floors, caps);
    }
    floors
}

/// Keeps all floors, about half of them, or some few.
fn thin_out(rng: &mut Rng, floors: &mut [u64]) {
    let odds = rng.pick(&[1, 1, 2, 6]);
    for floor in floors {
        if !rng.one_in(odds) {
            *floor = 0;
        }
    }
}

/// Raises one floor by at most its cap, or past it.
fn raise_one(rng: &mut Rng, floors: &mut [u64], caps: &[u64]) {
    let j = rng.below(floors.len());
    floors[j] = match rng.below(5) {
        0 => (caps[j] + 1 + rng.up_to(2)).min(AMOUNT),
        1 => caps[j],
        2 => (floors[j] + rng.up_to(3)).min(caps[j]),
        _ => (floors[j] + 1).min(caps[j]),
    };
}

/// Damages the caps, the floors, or both.
pub fn damage(rng: &mut Rng, caps: &mut Vec<u64>, floors: &mut Vec<u64>) {
    let kind = rng.below(3);
    if kind != 0 {
        damage_caps(rng, caps);
    }
    if kind != 1 {
        damage_caps(rng, floors);
    }
}
