//! The entries by straightforward algorithms, for networks of any size.

pub const ARCS: usize = 1_023;
pub const COST: u32 = 1_000_000_000;
pub const AMOUNT: u64 = 2_000_000_000_000;

/// A refusal number with its place; the shortfall is above 0 only with 9.
#[derive(Clone, Copy, Debug, PartialEq)]
pub struct Refusal {
    pub number: u32,
    pub place: usize,
    pub shortfall: u64,
}

pub type Answer<T> = Result<T, Refusal>;

pub fn refusal(number: u32, place: usize) -> Refusal {
    Refusal {
        number,
        place,
        shortfall: 0,
    }
}

pub fn refuse<T>(number: u32, place: usize) -> Answer<T> {
    Err(refusal(number, place))
}

/// The vertices that some parent entry names, in rising order.
fn named(parents: &[u16]) -> Vec<usize> {
    let mut named: Vec<usize> = parents.iter().map(|&p| usize::from(p)).collect();
    named.sort_unstable();
    named
}

/// The marks of a tree with a member at every dead end.
pub fn dead_ends(parents: &[u16]) -> Vec<u16> {
    let named = named(parents);
    let mark = |vertex| u16::from(named.binary_search(&vertex).is_err());
    (1..=parents.len()).map(mark).collect()
}

/// All faults of a tree's lists, in the order of the refusals.
pub fn tree_faults(parents: &[u16], costs: &[u32], marks: &[u16]) -> Vec<Refusal> {
    let mut faults = Vec::new();
    let mut note = |fault: bool, number, place| {
        if fault {
            faults.push(refusal(number, place));
        }
    };
    let arcs = parents.len();
    note(arcs == 0 || arcs > ARCS, 1, 0);
    note(costs.len() != arcs || marks.len() != arcs, 2, 0);
    let named = named(parents);
    for arc in 1..=arcs.min(costs.len()).min(marks.len()) {
        let mark = marks[arc - 1];
        note(usize::from(parents[arc - 1]) >= arc, 3, arc);
        note(costs[arc - 1] > COST, 4, arc);
        note(mark > 1, 16, arc);
        note(mark == 1 && named.binary_search(&arc).is_ok(), 17, arc);
    }
    note(!marks.contains(&1), 18, 0);
    faults
}

pub fn check_tree(parents: &[u16], costs: &[u32], marks: &[u16]) -> Answer<()> {
    match tree_faults(parents, costs, marks).first() {
        Some(&fault) => Err(fault),
        None => Ok(()),
    }
}

pub fn check_caps(members: usize, caps: &[u64]) -> Answer<()> {
    check_entries(members, caps, |&cap| cap <= AMOUNT)
}

pub fn check_proposal(members: usize, proposal: &[i64]) -> Answer<()> {
    check_entries(members, proposal, |share| share.unsigned_abs() <= AMOUNT)
}

fn check_entries<T>(members: usize, list: &[T], fits: impl Fn(&T) -> bool) -> Answer<()> {
    if list.len() != members {
        return refuse(6, 0);
    }
    match list.iter().position(|entry| !fits(entry)) {
        Some(member) => refuse(7, member),
        None => Ok(()),
    }
}

pub fn check_output(length: usize, written: usize) -> Answer<()> {
    if length == written {
        Ok(())
    } else {
        refuse(8, 0)
    }
}

/// An accepted tree. Lists by arc have an unused entry 0.
pub struct Tree {
    pub parent: Vec<usize>,
    pub cost: Vec<u64>,
    /// The vertex of each member.
    pub members: Vec<usize>,
    /// The users of each arc, in rising member number.
    pub users: Vec<Vec<usize>>,
}

impl Tree {
    pub fn new(parents: &[u16], costs: &[u32], marks: &[u16]) -> Answer<Tree> {
        check_tree(parents, costs, marks)?;
        let arcs = parents.len();
        let mut parent = vec![0];
        parent.extend(parents.iter().map(|&p| usize::from(p)));
        let mut cost = vec![0];
        cost.extend(costs.iter().map(|&c| u64::from(c)));
        let members: Vec<usize> = (1..=arcs).filter(|&v| marks[v - 1] == 1).collect();
        let mut users = vec![Vec::new(); arcs + 1];
        for (member, &vertex) in members.iter().enumerate() {
            let mut arc = vertex;
            while arc != 0 {
                users[arc].push(member);
                arc = parent[arc];
            }
        }
        Ok(Tree {
            parent,
            cost,
            members,
            users,
        })
    }

    pub fn arcs(&self) -> usize {
        self.parent.len() - 1
    }

    /// The arcs that have a user, from the last down.
    pub fn used(&self) -> impl Iterator<Item = usize> + '_ {
        let arcs = (1..=self.arcs()).rev();
        arcs.filter(|&arc| !self.users[arc].is_empty())
    }

    pub fn whole(&self) -> u64 {
        self.used().map(|arc| self.cost[arc]).sum()
    }

    /// The need of each arc, entry 0 being arc 1's.
    pub fn needs(&self) -> Vec<u64> {
        let mut need = vec![0; self.arcs() + 1];
        for arc in self.used() {
            need[arc] += self.cost[arc];
            need[self.parent[arc]] += need[arc];
        }
        need.split_off(1)
    }

    pub fn group_cost(&self, group: &[usize]) -> u64 {
        let mut used = vec![false; self.arcs() + 1];
        let mut cost = 0;
        for &member in group {
            let mut arc = self.members[member];
            while arc != 0 && !used[arc] {
                used[arc] = true;
                cost += self.cost[arc];
                arc = self.parent[arc];
            }
        }
        cost
    }

    /// The sum of the shares less the whole cost.
    pub fn difference(&self, proposal: &[i64]) -> i64 {
        proposal.iter().sum::<i64>() - self.whole() as i64
    }

    /// The greatest overpayment and the smallest group that reaches it.
    pub fn greatest_overpayment(&self, proposal: &[i64]) -> (u64, Vec<usize>) {
        let arcs = self.arcs();
        let mut gain = vec![0i64; arcs + 1];
        for (member, &vertex) in self.members.iter().enumerate() {
            gain[vertex] = proposal[member];
        }
        let mut kept = vec![false; arcs + 1];
        for arc in (1..=arcs).rev() {
            let above = gain[arc] - self.cost[arc] as i64;
            if above > 0 {
                kept[arc] = true;
                gain[self.parent[arc]] += above;
            }
        }
        kept[0] = true;
        for arc in 1..=arcs {
            kept[arc] = kept[arc] && kept[self.parent[arc]];
        }
        let group = (0..self.members.len()).filter(|&j| kept[self.members[j]]);
        (gain[0] as u64, group.collect())
    }

    /// The sum of the caps of each arc's users, entry 0 being arc 1's.
    pub fn cap_sums(&self, caps: &[u64]) -> Vec<u64> {
        let sum = |users: &Vec<usize>| users.iter().map(|&j| caps[j]).sum();
        self.users[1..].iter().map(sum).collect()
    }

    /// The users of the arc in the order in which its leftover units go to them:
    /// those with the smallest tally first, of equal ones the lowest number.
    pub fn in_turn(&self, arc: usize, tallies: &[u64]) -> Vec<usize> {
        let mut users = self.users[arc].clone();
        users.sort_by_key(|&j| (tallies[j], j));
        users
    }

    /// A tally is the number of leftover units that a member has had so far.
    pub fn by_arc(&self) -> Vec<u64> {
        let mut shares = vec![0; self.members.len()];
        let mut tallies = vec![0; self.members.len()];
        for arc in self.used() {
            let users = self.in_turn(arc, &tallies);
            let count = users.len() as u64;
            for &j in &users {
                shares[j] += self.cost[arc] / count;
            }
            let left = self.cost[arc] % count;
            for &j in &users[..left as usize] {
                shares[j] += 1;
                tallies[j] += 1;
            }
        }
        shares
    }
}

/// Gives the units to the users: all up to the greatest level that the units
/// pay for, then one more to the lowest-numbered users at that level.
pub fn raise(shares: &mut [u64], users: &[usize], caps: &[u64], units: u64) {
    let taken = |level: u64| -> u64 {
        let rise = |&j: &usize| level.min(caps[j]).saturating_sub(shares[j]);
        users.iter().map(rise).sum()
    };
    let (mut level, mut above) = (0, AMOUNT + 1);
    while above - level > 1 {
        let middle = (level + above) / 2;
        if taken(middle) <= units {
            level = middle;
        } else {
            above = middle;
        }
    }
    let mut left = units - taken(level);
    for &j in users {
        shares[j] = shares[j].max(level.min(caps[j]));
        if left > 0 && shares[j] == level && level < caps[j] {
            shares[j] += 1;
            left -= 1;
        }
    }
}

/// The marks of the dead ends are at fault in no tree, so 1 to 4 are left.
pub fn mark_dead_ends(parents: &[u16], costs: &[u32], length: usize) -> Answer<Vec<u16>> {
    let marks = dead_ends(parents);
    check_tree(parents, costs, &marks)?;
    check_output(length, marks.len())?;
    Ok(marks)
}

pub fn list_members(tree: Answer<Tree>, length: usize) -> Answer<Vec<u16>> {
    let tree = tree?;
    check_output(length, tree.members.len())?;
    Ok(tree.members.iter().map(|&v| v as u16).collect())
}

pub fn list_needs(tree: Answer<Tree>, length: usize) -> Answer<(Tree, Vec<u64>)> {
    let tree = tree?;
    check_output(length, tree.arcs())?;
    let needs = tree.needs();
    Ok((tree, needs))
}

/// The group's size and cost.
pub fn group_cost(tree: Answer<Tree>, group: &[u64; 16]) -> Answer<(usize, u64)> {
    let tree = tree?;
    let bits = (0..1024).filter(|j| group[j / 64] & (1 << (j % 64)) != 0);
    let bits: Vec<usize> = bits.collect();
    match bits.iter().find(|&&j| j >= tree.members.len()) {
        Some(&bit) => refuse(5, bit),
        None => Ok((bits.len(), tree.group_cost(&bits))),
    }
}

/// The sum of the shares less the whole cost.
pub fn check_total(tree: Answer<Tree>, proposal: &[i64]) -> Answer<i64> {
    let tree = tree?;
    check_proposal(tree.members.len(), proposal)?;
    Ok(tree.difference(proposal))
}

/// The greatest overpayment and the smallest group that reaches it, where that
/// is above 0.
pub fn find_group(tree: Answer<Tree>, proposal: &[i64]) -> Answer<Option<(u64, Vec<usize>)>> {
    let tree = tree?;
    check_proposal(tree.members.len(), proposal)?;
    let found = tree.greatest_overpayment(proposal);
    Ok(Some(found).filter(|&(amount, _)| amount > 0))
}

/// The sum of all caps, and the sum for each arc.
pub fn list_cap_sums(tree: Answer<Tree>, caps: &[u64], length: usize) -> Answer<(u64, Vec<u64>)> {
    let tree = tree?;
    check_caps(tree.members.len(), caps)?;
    check_output(length, tree.arcs())?;
    Ok((caps.iter().sum(), tree.cap_sums(caps)))
}

pub fn split_by_arc(tree: Answer<Tree>, length: usize) -> Answer<Vec<u64>> {
    let tree = tree?;
    check_output(length, tree.members.len())?;
    Ok(tree.by_arc())
}
