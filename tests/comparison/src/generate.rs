//! Pseudo-random trees, groups and lists: valid, at the limits and past them.

use crate::compare::Network;
use crate::level;
use crate::reference::{dead_ends, Tree, AMOUNT, ARCS, COST};
use crate::rng::Rng;

/// The parents of a tree of one of many shapes.
pub fn parents(rng: &mut Rng, arcs: usize) -> Vec<u16> {
    let shape = rng.below(14);
    let most = rng.pick(&[arcs.min(4), arcs]);
    let width = 1 + rng.below(most);
    let chain = arcs - rng.below(arcs.min(12));
    let parent = |k: usize| match shape {
        0 => 0,
        1 => k - 1,
        // A caterpillar: a spine of odd vertices, each with one member.
        2 => k.saturating_sub(if k % 2 == 1 { 2 } else { 1 }),
        // A broom: a chain that ends in many members.
        3 => (k - 1).min(width),
        4 => (k - 1) / 2,
        5 => (k - 1) / width,
        // Chains side by side.
        6 => k.saturating_sub(width),
        7 => rng.below(k),
        8 => k - 1 - rng.below(k.min(3)),
        9 => rng.below(k.min(width)),
        // Long unbranched runs.
        10 if rng.one_in(5) => rng.below(k),
        10 => k - 1,
        // A long chain with few members, at its end or anywhere along it.
        11 | 12 if k <= chain => k - 1,
        11 => chain,
        12 => rng.below(chain + 1),
        _ => k - 1 - rng.below(k.min(width)),
    };
    (1..=arcs).map(parent).map(|p| p as u16).collect()
}

/// The number of users of each arc, entry 0 being arc 1's.
fn user_counts(parents: &[u16], marks: &[u16]) -> Vec<u32> {
    let mut counts = vec![0; parents.len() + 1];
    for (i, &parent) in parents.iter().enumerate().rev() {
        counts[i + 1] += u32::from(marks[i]);
        counts[usize::from(parent)] += counts[i + 1];
    }
    counts.split_off(1)
}

/// Costs in range. Small ones leave units over at many arcs of the by-arc split.
pub fn costs(rng: &mut Rng, parents: &[u16], marks: &[u16]) -> Vec<u32> {
    let kind = rng.below(12);
    let cost = |users: u32| match kind {
        0 => rng.up_to(1) as u32,
        1 => rng.up_to(3) as u32,
        2 | 3 => rng.up_to(20) as u32,
        4 => rng.up_to(u64::from(COST)) as u32,
        5 => COST,
        6 if rng.one_in(4) => rng.up_to(100) as u32,
        6 => 0,
        7 => COST - rng.up_to(2) as u32,
        8 => rng.up_to(9) as u32,
        9 => rng.up_to(u64::from(users)) as u32,
        // As many units left over as can be.
        10 => users.saturating_sub(1),
        _ => (rng.up_to(u64::from(COST)) >> rng.below(30)) as u32,
    };
    let users = user_counts(parents, marks);
    users.into_iter().map(cost).collect()
}

/// Marks that are accepted: of all dead ends, or of some of them.
pub fn marks(rng: &mut Rng, parents: &[u16]) -> Vec<u16> {
    let mut marks = dead_ends(parents);
    let ends: Vec<usize> = (0..marks.len()).filter(|&i| marks[i] == 1).collect();
    match rng.below(8) {
        0..=2 => (),
        3 | 4 => {
            let spare = rng.pick(&[1, 4, 7]);
            let cleared = ends.iter().filter(|_| rng.below(8) < spare);
            cleared.for_each(|&i| marks[i] = 0);
        }
        5 => marks.fill(0),
        // A run of vertices without members.
        6 => {
            let from = rng.below(marks.len());
            let to = from + rng.below(marks.len() - from);
            marks[from..=to].fill(0);
        }
        _ => clear_branches(rng, parents, &mut marks),
    }
    if !marks.contains(&1) {
        marks[rng.pick(&ends)] = 1;
    }
    marks
}

/// Clears the marks at and below some vertices.
fn clear_branches(rng: &mut Rng, parents: &[u16], marks: &mut [u16]) {
    let mut bare = vec![false; parents.len() + 1];
    for _ in 0..1 + rng.below(3) {
        bare[1 + rng.below(parents.len())] = true;
    }
    for (i, &parent) in parents.iter().enumerate() {
        bare[i + 1] |= bare[usize::from(parent)];
        if bare[i + 1] {
            marks[i] = 0;
        }
    }
}

/// Damages a tree's lists so that most of them are refused.
pub fn damage_tree(rng: &mut Rng, n: &mut Network) {
    for _ in 0..1 + rng.below(3) {
        let lengths = [n.parents.len(), n.costs.len(), n.marks.len()];
        let arcs = lengths.into_iter().min().unwrap();
        match rng.below(8) {
            0 | 1 => damage_lengths(rng, n),
            2 => n.marks.fill(0),
            _ if arcs > 0 => {
                let k = 1 + rng.below(arcs);
                put_fault(rng, n, k);
                if rng.one_in(2) {
                    let next = rng.pick(&[k, k + 1]);
                    put_fault(rng, n, next.min(arcs));
                }
            }
            _ => n.parents.push(0),
        }
    }
}

fn damage_lengths(rng: &mut Rng, n: &mut Network) {
    let arcs = n.parents.len();
    match rng.below(12) {
        0 => n.parents.clear(),
        1 => n.costs.clear(),
        2 => n.marks.clear(),
        3 | 4 => {
            let lengths = [
                ARCS + 1,
                ARCS + 2,
                1100,
                2048,
                65_536,
                65_537,
                65_536 + arcs,
            ];
            n.parents.resize(rng.pick(&lengths), 0);
            if rng.one_in(2) {
                n.costs.resize(n.parents.len(), 1);
                n.marks.resize(n.parents.len(), 1);
            }
        }
        5 => n.costs.push(rng.next() as u32),
        6 => drop(n.costs.pop()),
        7 => n.marks.push(rng.pick(&[0, 1, 2])),
        8 => drop(n.marks.pop()),
        9 => n.marks.resize(65_536 + arcs, 0),
        10 => drop(n.parents.pop()),
        _ => n.parents.push(0),
    }
}

/// Puts a fault with one of four refusal numbers at arc k, which all lists have.
pub fn put_fault(rng: &mut Rng, n: &mut Network, k: usize) {
    let arcs = n.parents.len();
    match rng.pick(&[3, 4, 16, 17]) {
        3 => n.parents[k - 1] = rng.pick(&[k, k, k + 1, 65_535, k + arcs]) as u16,
        4 => {
            let above = COST + 1 + rng.up_to(1_000_000_000) as u32;
            n.costs[k - 1] = rng.pick(&[COST + 1, u32::MAX, above]);
        }
        16 => n.marks[k - 1] = rng.pick(&[2, 3, 256, 257, 32_768, 65_535]),
        _ => {
            n.marks[k - 1] = 1;
            // A child, which may be the last vertex.
            if k < arcs && !n.parents.contains(&(k as u16)) {
                let later = k + rng.below(arcs - k);
                n.parents[rng.pick(&[later, arcs - 1])] = k as u16;
            }
        }
    }
}

/// A length for an output list, most often the right one.
pub fn length(rng: &mut Rng, right: usize) -> usize {
    let any = rng.below(1_100);
    let wrong = [0, right.saturating_sub(1), right + 1, any, right + 65_536];
    if rng.one_in(5) {
        rng.pick(&wrong)
    } else {
        right
    }
}

/// The tree with all of it below its first arc.
pub fn one_branch(n: &Network) -> Network {
    let below = n.parents.iter().skip(1).map(|&parent| parent.max(1));
    let parents: Vec<u16> = n.parents[..1].iter().copied().chain(below).collect();
    let ends = dead_ends(&parents);
    let mut marks: Vec<u16> = n.marks.iter().zip(ends).map(|(&a, b)| a.min(b)).collect();
    if !marks.contains(&1) {
        *marks.last_mut().unwrap() = 1;
    }
    Network {
        parents,
        costs: n.costs.clone(),
        marks,
    }
}

/// A number for a branch's arc, most often that of an arc from the source with
/// two users or more.
pub fn branch(rng: &mut Rng, tree: &Tree) -> usize {
    let arcs = tree.arcs();
    let from_source = || (1..=arcs).filter(|&arc| tree.parent[arc] == 0);
    let good: Vec<usize> = from_source()
        .filter(|&arc| tree.users[arc].len() > 1)
        .collect();
    let any = rng.pick(&from_source().collect::<Vec<_>>());
    let huge = rng.next() as usize;
    match rng.below(10) {
        0 => any,
        1 => 1 + rng.below(arcs),
        2 => rng.pick(&[0, arcs + 1, ARCS + 1, 65_535, huge, usize::MAX]),
        // The low bits are the number of an arc from the source.
        3 => any + rng.pick(&[1 << 10, 1 << 16, 1 << 32, 1 << 63]),
        _ if good.is_empty() => any,
        _ => rng.pick(&good),
    }
}

/// A group of members, now and then with bits at or beyond their number.
pub fn group(rng: &mut Rng, members: usize) -> [u64; 16] {
    let mut words = [0u64; 16];
    let mut set = |bit: usize| words[bit / 64] |= 1 << (bit % 64);
    match rng.below(6) {
        0 => set(rng.below(members)),
        1 => (0..members).for_each(&mut set),
        kind => {
            let odds = [2, 2, 8, 64][kind - 2];
            (0..members).filter(|_| rng.one_in(odds)).for_each(&mut set);
        }
    }
    match rng.below(12) {
        0 => set(members),
        1 => set(1023),
        2 => (0..1 + rng.below(3)).for_each(|_| set(rng.below(1024))),
        3 => (members..1024).for_each(set),
        _ => (),
    }
    words
}

/// Shares in the core: each arc's cost is paid by one or two of its users.
pub fn core_shares(rng: &mut Rng, tree: &Tree) -> Vec<u64> {
    let mut shares = vec![0; tree.members.len()];
    for arc in tree.used() {
        let part = rng.up_to(tree.cost[arc]);
        shares[rng.pick(&tree.users[arc])] += part;
        shares[rng.pick(&tree.users[arc])] += tree.cost[arc] - part;
    }
    shares
}

/// Some list in the core.
fn fair_shares(rng: &mut Rng, tree: &Tree) -> Vec<u64> {
    let members = tree.members.len();
    match rng.below(3) {
        0 => tree.by_arc(),
        1 => level::shares(tree, &vec![AMOUNT; members], &vec![0; members]),
        _ => core_shares(rng, tree),
    }
}

/// Caps in range: ample, just enough, just short, or anything.
pub fn caps(rng: &mut Rng, tree: &Tree) -> Vec<u64> {
    let members = tree.members.len();
    let most = match rng.below(9) {
        0 => return vec![AMOUNT; members],
        kind @ 1..=5 => {
            let mut caps = fair_shares(rng, tree);
            let extra = [0, 0, 3, tree.whole(), tree.whole() / members as u64][kind - 1];
            caps.iter_mut().for_each(|cap| *cap += rng.up_to(extra));
            if rng.one_in(3) {
                let j = rng.below(members);
                caps[j] -= rng.up_to(caps[j].min(2));
            }
            caps.iter_mut().for_each(|cap| *cap = (*cap).min(AMOUNT));
            return caps;
        }
        6 => AMOUNT,
        7 => 3,
        _ => 3 * tree.whole() / members as u64,
    };
    let cap = |_| match rng.below(8) {
        0 => 0,
        1 => most.min(AMOUNT),
        _ => rng.up_to(most.min(AMOUNT)),
    };
    (0..members).map(cap).collect()
}

/// Makes the list add up to the whole cost, within the range.
fn settle(rng: &mut Rng, list: &mut [i64], whole: u64) {
    let most = AMOUNT as i64;
    let mut left = whole as i64 - list.iter().sum::<i64>();
    list.rotate_left(rng.below(list.len()));
    for share in list {
        let moved = (*share + left).clamp(-most, most) - *share;
        *share += moved;
        left -= moved;
    }
}

/// Changes the total, within the range: one share, or each of them upward or
/// downward by the same or by any amount.
fn unsettle(rng: &mut Rng, list: &mut [i64], whole: u64) {
    let most = AMOUNT as i64;
    let step = rng.pick(&[1, 3, 1_000, whole]);
    let kind = rng.below(5);
    let one = rng.below(list.len());
    for (j, share) in list.iter_mut().enumerate() {
        let change = match kind {
            0 if j == one => rng.pick(&[-1, 1, 1_000]),
            0 => 0,
            1 => step as i64,
            2 => rng.up_to(step) as i64,
            3 => -(step as i64),
            _ => -(rng.up_to(step) as i64),
        };
        *share = (*share + change).clamp(-most, most);
    }
}

/// A proposal in range: in the core, near it, far from it, or of a wrong total.
pub fn proposal(rng: &mut Rng, tree: &Tree) -> Vec<i64> {
    let members = tree.members.len();
    let most = AMOUNT as i64;
    let kind = rng.below(10);
    let mut list: Vec<i64> = match kind {
        0..=6 => fair_shares(rng, tree).iter().map(|&s| s as i64).collect(),
        7 => vec![0; members],
        8 => (0..members).map(|_| rng.pick(&[-most, most])).collect(),
        _ => (0..members)
            .map(|_| rng.up_to(2 * AMOUNT) as i64 - most)
            .collect(),
    };
    // Units moved from one member to another.
    let unit = [0, 1, 1, 3, 10, 1_000_000, tree.whole() + 1][kind.min(6)];
    for _ in 0..rng.below(1 + members.min(6)) {
        let (from, to) = (rng.below(members), rng.below(members));
        let moved = rng.up_to(unit) as i64;
        if kind < 7 && list[from] - moved >= -most && list[to] + moved <= most {
            list[from] -= moved;
            list[to] += moved;
        }
    }
    if kind >= 7 && !rng.one_in(3) {
        settle(rng, &mut list, tree.whole());
    }
    if rng.one_in(3) {
        unsettle(rng, &mut list, tree.whole());
    }
    list
}

/// Damages a list with an entry a member: its length, or entries put to one
/// of the given values outside the range.
fn damage<T: Copy>(rng: &mut Rng, list: &mut Vec<T>, inside: T, outside: &[T]) {
    if rng.one_in(3) {
        let any = rng.below(1_100);
        let less = list.len().saturating_sub(1);
        let lengths = [0, less, list.len() + 1, any, list.len() + 65_536];
        list.resize(rng.pick(&lengths), inside);
    }
    for _ in 0..rng.below(4) {
        if !list.is_empty() {
            let j = rng.below(list.len());
            list[j] = rng.pick(outside);
        }
    }
}

pub fn damage_caps(rng: &mut Rng, caps: &mut Vec<u64>) {
    let above = AMOUNT + 1 + rng.up_to(u64::MAX - AMOUNT - 1);
    let outside = [AMOUNT + 1, u64::MAX, 1 << 63, i64::MAX as u64, above];
    damage(rng, caps, AMOUNT, &outside);
}

pub fn damage_proposal(rng: &mut Rng, proposal: &mut Vec<i64>) {
    let most = AMOUNT as i64;
    let outside = [
        most + 1,
        -most - 1,
        i64::MIN,
        i64::MAX,
        i64::MIN + 1,
        rng.next() as i64,
    ];
    damage(rng, proposal, -most, &outside);
}
