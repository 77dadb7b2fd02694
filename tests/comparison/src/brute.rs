//! The definitions of docs/SPECIFICATION.md word for word, for small networks: every group,
//! every arc of every path, every unit, every split.

use crate::reference::{refusal, refuse, Answer, Refusal, Tree};

/// Whether the arc lies on the way from the source to the vertex.
fn on_path(tree: &Tree, arc: usize, mut vertex: usize) -> bool {
    while vertex > arc {
        vertex = tree.parent[vertex];
    }
    vertex == arc
}

fn is_user(tree: &Tree, arc: usize, member: usize) -> bool {
    on_path(tree, arc, tree.members[member])
}

fn users(tree: &Tree, arc: usize) -> Vec<usize> {
    let members = 0..tree.members.len();
    members.filter(|&j| is_user(tree, arc, j)).collect()
}

/// What the arc costs: nothing where nobody uses it.
fn cost(tree: &Tree, arc: usize) -> u64 {
    if users(tree, arc).is_empty() {
        0
    } else {
        tree.cost[arc]
    }
}

pub fn whole(tree: &Tree) -> u64 {
    (1..=tree.arcs()).map(|arc| cost(tree, arc)).sum()
}

pub fn needs(tree: &Tree) -> Vec<u64> {
    let all = || 1..=tree.arcs();
    let below = |arc| all().filter(move |&other| on_path(tree, arc, other));
    all()
        .map(|arc| below(arc).map(|other| cost(tree, other)).sum())
        .collect()
}

/// The members of a group that is given as the bits of a number.
pub fn group(tree: &Tree, bits: usize) -> Vec<usize> {
    (0..tree.members.len())
        .filter(|j| bits >> j & 1 == 1)
        .collect()
}

/// The arcs that each member uses, as the bits of a number.
fn paths(tree: &Tree) -> Vec<u64> {
    let path = |member| {
        (1..=tree.arcs())
            .filter(|&arc| is_user(tree, arc, member))
            .fold(0, |bits, arc| bits | 1 << arc)
    };
    (0..tree.members.len()).map(path).collect()
}

/// The cost of every group, the group being the place in the list.
pub fn group_costs(tree: &Tree) -> Vec<u64> {
    let paths = paths(tree);
    let cost = |bits: usize| {
        let used = group(tree, bits).iter().fold(0, |all, &j| all | paths[j]);
        (1..=tree.arcs())
            .filter(|arc| used >> arc & 1 == 1)
            .map(|arc| tree.cost[arc])
            .sum()
    };
    (0..1 << tree.members.len()).map(cost).collect()
}

/// What a group pays less its cost.
fn overpayment(tree: &Tree, costs: &[u64], proposal: &[i64], bits: usize) -> i64 {
    let paid: i64 = group(tree, bits).iter().map(|&j| proposal[j]).sum();
    paid - costs[bits] as i64
}

/// The overpayment of all members together, who cost the whole cost.
pub fn difference(tree: &Tree, costs: &[u64], proposal: &[i64]) -> i64 {
    overpayment(tree, costs, proposal, costs.len() - 1)
}

/// The greatest overpayment over all groups, and the groups with fewest
/// members that reach it.
pub fn greatest_overpayment(
    tree: &Tree,
    costs: &[u64],
    proposal: &[i64],
) -> (u64, Vec<Vec<usize>>) {
    let over: Vec<i64> = (0..costs.len())
        .map(|g| overpayment(tree, costs, proposal, g))
        .collect();
    let greatest = *over.iter().max().unwrap();
    let reach = || (0..over.len()).filter(|&g| over[g] == greatest);
    let fewest = reach().map(|g| g.count_ones()).min().unwrap();
    let smallest = reach().filter(|g| g.count_ones() == fewest);
    (greatest as u64, smallest.map(|g| group(tree, g)).collect())
}

/// The cap of the member at the arc's end, or else the child arcs' sums added up.
fn cap_sum(tree: &Tree, caps: &[u64], arc: usize) -> u64 {
    if let Some(member) = tree.members.iter().position(|&vertex| vertex == arc) {
        return caps[member];
    }
    let children = (1..=tree.arcs()).filter(|&child| tree.parent[child] == arc);
    children.map(|child| cap_sum(tree, caps, child)).sum()
}

pub fn cap_sums(tree: &Tree, caps: &[u64]) -> Vec<u64> {
    let all = 1..=tree.arcs();
    all.map(|arc| cap_sum(tree, caps, arc)).collect()
}

/// An arc's adjusted need, and the sum of those of its child arcs.
fn adjusted_need(tree: &Tree, needs: &[u64], floors: &[u64], arc: usize) -> (u64, u64) {
    let need = needs[arc - 1];
    if let Some(member) = tree.members.iter().position(|&vertex| vertex == arc) {
        return (need.max(floors[member]), 0);
    }
    let children = (1..=tree.arcs()).filter(|&child| tree.parent[child] == arc);
    let sum = children
        .map(|child| adjusted_need(tree, needs, floors, child).0)
        .sum();
    (need.max(sum), sum)
}

/// The level split unit by unit: 9 where a unit is left and no user is below
/// their cap, 28 once an arc from the source has given out more than its need.
/// No floor is above its cap.
pub fn level(tree: &Tree, caps: &[u64], floors: &[u64]) -> Answer<Vec<u64>> {
    let needs = needs(tree);
    let mut shares = vec![0; tree.members.len()];
    for arc in (1..=tree.arcs()).rev() {
        let users = users(tree, arc);
        let (adjusted, sum) = adjusted_need(tree, &needs, floors, arc);
        for shortfall in (1..=adjusted - sum).rev() {
            let open = users.iter().filter(|&&j| shares[j] < caps[j]);
            let Some(&member) = open.min_by_key(|&&j| (shares[j], j)) else {
                let short = refusal(9, arc);
                return Err(Refusal { shortfall, ..short });
            };
            shares[member] += 1;
        }
        if tree.parent[arc] == 0 && adjusted > needs[arc - 1] {
            return refuse(28, arc);
        }
    }
    Ok(shares)
}

/// Whether no group pays more than its cost. All members together cost the
/// whole cost.
pub fn in_core(costs: &[u64], shares: &[u64]) -> bool {
    let pays = |group: usize| {
        let inside = (0..shares.len()).filter(|j| group >> j & 1 == 1);
        inside.map(|j| shares[j]).sum::<u64>()
    };
    let all = costs.len() - 1;
    pays(all) == costs[all] && (0..all).all(|group| pays(group) <= costs[group])
}

/// All lists in the core with every share from its floor to its cap. No floor is
/// below 0, so that the lists without a share below 0 are enough.
pub fn kept_lists(costs: &[u64], caps: &[u64], floors: &[u64]) -> Vec<Vec<u64>> {
    let between = |list: &Vec<u64>| {
        let mut places = 0..list.len();
        places.all(|j| (floors[j]..=caps[j]).contains(&list[j]))
    };
    let all = lists(costs[costs.len() - 1], caps.len()).into_iter();
    let kept = all.filter(|list| between(list) && in_core(costs, list));
    kept.collect()
}

/// The users to whom an arc's leftover units go: of all groups of as many users
/// the one in which everybody comes before everybody who is not in it.
fn served(users: &[usize], left: u32, tallies: &[u64]) -> Vec<usize> {
    let before = |i: usize, j: usize| tallies[i] < tallies[j] || tallies[i] == tallies[j] && i < j;
    let part = |bits: usize, bit: usize| {
        let places = (0..users.len()).filter(move |place| bits >> place & 1 == bit);
        places.map(|place| users[place])
    };
    let first = |&bits: &usize| part(bits, 1).all(|i| part(bits, 0).all(|j| before(i, j)));
    let mut groups = (0..1 << users.len()).filter(|bits: &usize| bits.count_ones() == left);
    part(groups.find(first).unwrap(), 1).collect()
}

/// The by-arc split: units to all users while there are enough, then one each to
/// some, who have that counted in their tallies.
pub fn by_arc(tree: &Tree) -> Vec<u64> {
    let mut shares = vec![0; tree.members.len()];
    let mut tallies = vec![0; tree.members.len()];
    for arc in (1..=tree.arcs()).rev() {
        let users = users(tree, arc);
        let mut left = cost(tree, arc);
        while left > 0 && left >= users.len() as u64 {
            users.iter().for_each(|&j| shares[j] += 1);
            left -= users.len() as u64;
        }
        for member in served(&users, left as u32, &tallies) {
            shares[member] += 1;
            tallies[member] += 1;
        }
    }
    shares
}

/// The costs of the branch arcs that only a group of the branch's users uses,
/// the group being the place in the list: bit i is the branch's user i.
pub fn own_costs(tree: &Tree, branch: usize) -> Vec<u64> {
    let all = users(tree, branch);
    let bits = |arc: usize| {
        let uses = (0..all.len()).filter(|&i| is_user(tree, arc, all[i]));
        uses.fold(0, |bits, i| bits | 1 << i)
    };
    let arcs = (1..=tree.arcs()).filter(|&arc| on_path(tree, branch, arc));
    let arcs: Vec<(usize, u64)> = arcs.map(|arc| (bits(arc), cost(tree, arc))).collect();
    let own = |group: usize| {
        let only = arcs
            .iter()
            .filter(|(bits, _)| *bits != 0 && bits & !group == 0);
        only.map(|(_, cost)| cost).sum()
    };
    (0..1 << all.len()).map(own).collect()
}

/// The least of what a proper nonempty group pays less its own costs.
pub fn least_margin(own: &[u64], shares: &[u64]) -> i64 {
    let pays = |group: usize| {
        let inside = (0..shares.len()).filter(|i| group >> i & 1 == 1);
        inside.map(|i| shares[i]).sum::<u64>()
    };
    let proper = 1..own.len() - 1;
    proper
        .map(|group| pays(group) as i64 - own[group] as i64)
        .min()
        .unwrap()
}

/// The greatest sum, over all ways to part the users into proper nonempty
/// groups, of the groups' own costs with the margin added to each. Where it is
/// above the need, no split gives all groups the margin.
pub fn asked(own: &[u64], margin: u64) -> u64 {
    let all = own.len() - 1;
    let mut most = vec![0; own.len()];
    for rest in 1..own.len() {
        let parts = (1..=rest).filter(|&part| part & !rest == 0 && part != all);
        let asked = parts.map(|part| own[part] + margin + most[rest & !part]);
        most[rest] = asked.max().unwrap();
    }
    most[all]
}

/// All lists of so many whole numbers that add up to the total.
pub fn lists(total: u64, length: usize) -> Vec<Vec<u64>> {
    if length == 1 {
        return vec![vec![total]];
    }
    let with = |last| {
        let rest = lists(total - last, length - 1);
        rest.into_iter()
            .map(move |list| [list, vec![last]].concat())
    };
    (0..=total).flat_map(with).collect()
}

/// The greatest least margin that a whole split of the branch's need has. A
/// share below 0 is a margin below 0, so that the lists without one are enough.
pub fn widest_margin(own: &[u64], need: u64) -> i64 {
    let users = own.len().ilog2() as usize;
    let splits = lists(need, users).into_iter();
    splits
        .map(|shares| least_margin(own, &shares))
        .max()
        .unwrap()
}

/// An arc's raised need, and the sum of those of its child arcs.
fn raised_need(tree: &Tree, branch: usize, needs: &[u64], margin: u64, arc: usize) -> (u64, u64) {
    let count = users(tree, arc).len();
    if count == 0 {
        return (0, 0);
    }
    let children = (1..=tree.arcs()).filter(|&child| tree.parent[child] == arc);
    let sum = children
        .map(|child| raised_need(tree, branch, needs, margin, child).0)
        .sum();
    let need = needs[arc - 1];
    let all = count == users(tree, branch).len();
    let least = if all { need } else { need + margin };
    (least.max(sum), sum)
}

/// The split of a branch at a margin, unit by unit.
pub fn margin_split(tree: &Tree, branch: usize, margin: u64) -> Vec<u64> {
    let needs = needs(tree);
    let mut shares = vec![0; tree.members.len()];
    let arcs = (1..=tree.arcs()).rev();
    for arc in arcs.filter(|&arc| on_path(tree, branch, arc)) {
        let users = users(tree, arc);
        let (raised, sum) = raised_need(tree, branch, &needs, margin, arc);
        for _ in 0..raised - sum {
            let &member = users.iter().min_by_key(|&&j| (shares[j], j)).unwrap();
            shares[member] += 1;
        }
    }
    let users = users(tree, branch);
    users.into_iter().map(|j| shares[j]).collect()
}

/// All parent lists of so many arcs in rising order: of all lists of so many
/// numbers below the number of arcs, those whose entries are below their arcs.
pub fn parent_lists(arcs: usize) -> Vec<Vec<u16>> {
    let mut lists = vec![Vec::new()];
    for _ in 0..arcs {
        let with = |list: &Vec<u16>, entry: usize| [&list[..], &[entry as u16]].concat();
        let longer = |list: Vec<u16>| (0..arcs).map(move |entry| with(&list, entry));
        lists = lists.into_iter().flat_map(longer).collect();
    }
    lists.retain(|list| (1..).zip(list).all(|(arc, &parent)| parent < arc));
    lists.sort();
    lists
}

/// The parents of the shape that a word draws bit by bit, a 1 going down a new arc
/// and a 0 going back up; none where it does not end at the source.
fn drawn(word: usize, bits: usize) -> Option<Vec<u16>> {
    let (mut path, mut parents) = (vec![0], Vec::new());
    for bit in 0..bits {
        if word >> bit & 1 == 1 {
            parents.push(*path.last()?);
            path.push(parents.len() as u16);
        } else {
            path.pop();
        }
    }
    (path == [0]).then_some(parents)
}

/// The parents of all shapes of so many arcs.
pub fn shapes(arcs: usize) -> impl Iterator<Item = Vec<u16>> {
    let bits = 2 * arcs;
    (0..1 << bits).filter_map(move |word| drawn(word, bits))
}
