//! Pseudo-random costs in classes: valid, at the limit of their sum and past it.

use crate::classes::{Classed, CLASSES};
use crate::compare::Network;
use crate::generate;
use crate::reference::COST;
use crate::rng::Rng;

/// A cost in so many parts, which add up to it or to less.
fn parts(rng: &mut Rng, kind: usize, cost: u32, classes: usize) -> Vec<u32> {
    let (mut parts, number) = (vec![0; classes], classes as u32);
    match kind {
        // All of it in one class, at every arc in the same or not.
        0 => parts[classes - 1] = cost,
        1 => parts[rng.below(classes)] = cost,
        2 => parts.fill(cost / number),
        3 => {
            parts.fill(cost / number);
            parts[rng.below(classes)] += cost % number;
        }
        _ => {
            let mut left = cost;
            for part in &mut parts[1..] {
                *part = rng.up_to(u64::from(left)) as u32;
                left -= *part;
            }
            parts[0] = left;
            parts.rotate_left(rng.below(classes));
        }
    }
    parts
}

/// Writes an arc's costs, as far as the list has them.
fn put(call: &mut Classed, arc: usize, costs: &[u32]) {
    let arcs = call.arcs();
    for (class, &cost) in costs.iter().enumerate() {
        if let Some(entry) = call.lists.costs.get_mut(class * arcs + arc - 1) {
            *entry = cost;
        }
    }
}

/// The network with its costs in classes, or with others.
pub fn classed(rng: &mut Rng, network: &Network) -> Classed {
    let classes = 1 + rng.below(CLASSES);
    let mut lists = network.clone();
    lists.costs = vec![0; classes * lists.parents.len()];
    let mut call = Classed { lists, classes };
    let kind = rng.below(8);
    if kind == 7 {
        let most = COST / classes as u32;
        let fresh = |_| generate::costs(rng, &network.parents, &network.marks);
        let costs = (0..classes).flat_map(fresh);
        call.lists.costs = costs.map(|cost| cost.min(most)).collect();
        return call;
    }
    for (i, &cost) in network.costs.iter().enumerate() {
        let parts = parts(rng, kind, cost, classes);
        put(&mut call, i + 1, &parts);
    }
    call
}

/// Numbers outside 1 to 4, some of which have a number of classes in their low bits.
fn outside(rng: &mut Rng) -> usize {
    let any = 1 + rng.below(CLASSES);
    let huge = CLASSES + 1 + rng.next() as usize / 2;
    let above = rng.pick(&[1 << 16, 1 << 32, 1 << 63]);
    rng.pick(&[0, 5, 5, 6, above + any, above + any, huge, usize::MAX])
}

/// Costs of an arc in two classes or more, whose sum is small in its last 32 bits.
fn wrapped(rng: &mut Rng, classes: usize) -> Vec<u32> {
    let (sum, number) = ((1 << 32) + rng.up_to(9), classes as u64);
    if rng.one_in(2) {
        let mut costs = vec![0; classes];
        costs[0] = u32::MAX;
        costs[classes - 1] = (sum - u64::from(u32::MAX)) as u32;
        return costs;
    }
    let mut costs = vec![(sum / number) as u32; classes];
    costs[0] += (sum % number) as u32;
    costs
}

/// Costs of an arc with a sum at the limit or past it.
fn dear(rng: &mut Rng, classes: usize) -> Vec<u32> {
    let kind = rng.below(8);
    let mut costs = vec![0; classes];
    let one = rng.below(classes);
    match rng.below(8) {
        0 => costs = parts(rng, kind, COST, classes),
        1 | 2 => costs = parts(rng, kind, COST + 1, classes),
        3 => costs[one] = rng.pick(&[COST + 1, u32::MAX]),
        4 => costs.fill(u32::MAX),
        5 | 6 if classes > 1 => costs = wrapped(rng, classes),
        _ => costs.fill(COST),
    }
    costs
}

/// Damages the lists or the number so that most calls are refused.
pub fn damage(rng: &mut Rng, call: &mut Classed) {
    for _ in 0..1 + rng.below(2) {
        match rng.below(8) {
            0 => damage_number(rng, call),
            1 => damage_length(rng, call),
            2 => generate::damage_tree(rng, &mut call.lists),
            _ => damage_arc(rng, call),
        }
    }
}

/// Another number of classes, with the costs as they are or as many as it asks for.
fn damage_number(rng: &mut Rng, call: &mut Classed) {
    call.classes = outside(rng);
    if rng.one_in(2) {
        let length = call.arcs() * call.classes.min(CLASSES + 2);
        call.lists.costs.resize(length, 0);
    }
}

/// The costs of another number of classes, or an entry less or more.
fn damage_length(rng: &mut Rng, call: &mut Classed) {
    let length = match rng.below(3) {
        0 => call.lists.costs.len().saturating_sub(1),
        1 => call.lists.costs.len() + 1,
        _ => call.arcs() * rng.below(CLASSES + 2),
    };
    call.lists.costs.resize(length, 1);
}

/// A dear arc, and half the time another fault at it or at the next one.
fn damage_arc(rng: &mut Rng, call: &mut Classed) {
    let lengths = [call.arcs(), call.lists.costs.len(), call.lists.marks.len()];
    let arcs = lengths.into_iter().min().unwrap();
    if arcs == 0 || call.classes == 0 {
        return;
    }
    let arc = 1 + rng.below(arcs);
    let costs = dear(rng, call.classes.min(CLASSES));
    put(call, arc, &costs);
    if rng.one_in(2) {
        let other = rng.pick(&[arc.saturating_sub(1).max(1), arc, arc, arc + 1]);
        generate::put_fault(rng, &mut call.lists, other.min(arcs));
    }
}
