//! The level split under caps and floors.

use crate::job::Fault;
use crate::reference::{check_caps, check_output, raise, refusal, Answer, Refusal, Tree};

/// The adjusted need of each arc; entry 0 is the sum over the arcs from the source.
pub fn adjusted(tree: &Tree, floors: &[u64]) -> Vec<u64> {
    let needs = tree.needs();
    let mut asked = vec![0; tree.arcs() + 1];
    for (&vertex, &floor) in tree.members.iter().zip(floors) {
        asked[vertex] = floor;
    }
    for arc in tree.used() {
        asked[arc] = asked[arc].max(needs[arc - 1]);
        asked[tree.parent[arc]] += asked[arc];
    }
    asked
}

/// The shares, where nothing is refused.
pub fn shares(tree: &Tree, caps: &[u64], floors: &[u64]) -> Vec<u64> {
    let adjusted = adjusted(tree, floors);
    let mut units = adjusted.clone();
    for arc in 1..=tree.arcs() {
        units[tree.parent[arc]] -= adjusted[arc];
    }
    let mut shares = vec![0; tree.members.len()];
    for arc in tree.used() {
        raise(&mut shares, &tree.users[arc], caps, units[arc]);
    }
    shares
}

/// 9 and 28 at all arcs, from the last down.
fn arc_faults(tree: &Tree, caps: &[u64], floors: &[u64]) -> Vec<Fault> {
    let (needs, sums, adjusted) = (tree.needs(), tree.cap_sums(caps), adjusted(tree, floors));
    let mut faults = Vec::new();
    for arc in (1..=tree.arcs()).rev() {
        let shortfall = adjusted[arc].saturating_sub(sums[arc - 1]);
        if shortfall > 0 {
            let short = refusal(9, arc);
            faults.push(("arc", Refusal { shortfall, ..short }));
        }
        if tree.parent[arc] == 0 && adjusted[arc] > needs[arc - 1] {
            faults.push(("arc", refusal(28, arc)));
        }
    }
    faults
}

/// What is at fault beside the tree, in the order of the refusals. The arcs are
/// looked at where 6 and 7 do not stand.
pub fn faults(tree: &Tree, caps: &[u64], floors: &[u64], length: usize) -> Vec<Fault> {
    let members = tree.members.len();
    let other_length = |list: &[u64]| (list.len() != members).then(|| refusal(6, 0));
    let outside = |list: &[u64]| check_caps(list.len(), list).err();
    let above = caps.iter().zip(floors).position(|(cap, floor)| floor > cap);
    let checks = [
        ("caps", other_length(caps)),
        ("caps", outside(caps)),
        ("floors", other_length(floors)),
        ("floors", outside(floors)),
        ("floors", above.map(|member| refusal(27, member))),
        ("output", check_output(length, members).err()),
    ];
    let found = |(list, check): (_, Option<Refusal>)| Some((list, check?));
    let mut faults: Vec<Fault> = checks.into_iter().filter_map(found).collect();
    let of_list = |(_, fault): &Fault| [6, 7].contains(&fault.number);
    if !faults.iter().any(of_list) {
        faults.extend(arc_faults(tree, caps, floors));
    }
    faults
}

/// The answer on an accepted tree.
pub fn split(tree: &Tree, caps: &[u64], floors: &[u64], length: usize) -> Answer<Vec<u64>> {
    match faults(tree, caps, floors, length).first() {
        Some(&(_, fault)) => Err(fault),
        None => Ok(shares(tree, caps, floors)),
    }
}

pub fn split_level(
    tree: Answer<Tree>,
    caps: &[u64],
    floors: &[u64],
    length: usize,
) -> Answer<Vec<u64>> {
    split(&tree?, caps, floors, length)
}
