//! The widest margin in a branch, and the split that gives it.

use crate::reference::{raise, refusal, Answer, Refusal, Tree, AMOUNT};

/// What is at fault with the arc's number and the output list, in the order of
/// the refusals. A number that is no arc's has no users.
pub fn faults(tree: &Tree, arc: usize, length: usize) -> Vec<Refusal> {
    let from_source = (1..=tree.arcs()).contains(&arc) && tree.parent[arc] == 0;
    let users = tree.users.get(arc).map_or(0, Vec::len);
    let all = [
        (!from_source, refusal(25, arc)),
        (users < 2, refusal(26, arc)),
        (length != users, refusal(8, 0)),
    ];
    let found = all.into_iter().filter(|&(fault, _)| fault);
    found.map(|(_, refusal)| refusal).collect()
}

/// An amount, and how many times the margin is in it.
#[derive(Clone, Copy, Default)]
struct Raised {
    amount: u64,
    margins: u64,
}

/// The arcs at or below one that leaves the source and has at least two users.
pub struct Branch<'a> {
    tree: &'a Tree,
    top: usize,
    /// Those of them that have a user, from the last down.
    arcs: Vec<usize>,
    /// Whether one of them has none.
    pub spare: bool,
    /// The need of each arc of the tree, entry 0 being arc 1's.
    needs: Vec<u64>,
}

impl Branch<'_> {
    pub fn new(tree: &Tree, top: usize) -> Branch<'_> {
        let mut inside = vec![false; tree.arcs() + 1];
        inside[top] = true;
        for arc in top + 1..=tree.arcs() {
            inside[arc] = inside[tree.parent[arc]];
        }
        let arcs: Vec<usize> = tree.used().filter(|&arc| inside[arc]).collect();
        Branch {
            tree,
            top,
            spare: arcs.len() < inside.iter().filter(|&&inside| inside).count(),
            arcs,
            needs: tree.needs(),
        }
    }

    pub fn need(&self) -> u64 {
        self.needs[self.top - 1]
    }

    pub fn users(&self) -> &[usize] {
        &self.tree.users[self.top]
    }

    /// Whether some user of the branch does not use the arc.
    fn is_partial(&self, arc: usize) -> bool {
        self.tree.users[arc].len() < self.users().len()
    }

    /// By arc, with an unused entry 0: the raised need at the margin, and the sum
    /// of those of its child arcs.
    fn raised(&self, margin: u64) -> (Vec<Raised>, Vec<Raised>) {
        let mut raised = vec![Raised::default(); self.tree.arcs() + 1];
        let mut below = raised.clone();
        for &arc in &self.arcs {
            let margins = u64::from(self.is_partial(arc));
            let amount = self.needs[arc - 1] + margins * margin;
            raised[arc] = if below[arc].amount > amount {
                below[arc]
            } else {
                Raised { amount, margins }
            };
            let sum = &mut below[self.tree.parent[arc]];
            sum.amount += raised[arc].amount;
            sum.margins += raised[arc].margins;
        }
        (raised, below)
    }

    /// From the need down. Where the branch's raised need is above its need, each
    /// of the margins in it has to be less by an equal part of the difference.
    pub fn widest(&self) -> u64 {
        let mut margin = self.need();
        loop {
            let top = self.raised(margin).0[self.top];
            if top.amount == self.need() {
                return margin;
            }
            margin -= (top.amount - self.need()).div_ceil(top.margins);
        }
    }

    /// The users' shares at the margin.
    pub fn shares(&self, margin: u64) -> Vec<u64> {
        let members = self.tree.members.len();
        let (mut shares, caps) = (vec![0; members], vec![AMOUNT; members]);
        let (raised, below) = self.raised(margin);
        for &arc in &self.arcs {
            let units = raised[arc].amount - below[arc].amount;
            raise(&mut shares, &self.tree.users[arc], &caps, units);
        }
        self.users().iter().map(|&j| shares[j]).collect()
    }

    /// Whether the sum over its child arcs is the raised need of some arc that
    /// not all use, and of some arc that all use.
    pub fn risen(&self, margin: u64) -> [bool; 2] {
        let (raised, _) = self.raised(margin);
        let risen = |&&arc: &&usize| raised[arc].margins > u64::from(self.is_partial(arc));
        let among = |partial| {
            let mut risen = self.arcs.iter().filter(risen);
            risen.any(|&arc| self.is_partial(arc) == partial)
        };
        [among(true), among(false)]
    }
}

/// The widest margin and the users' shares.
pub fn split_margin(tree: Answer<Tree>, arc: usize, length: usize) -> Answer<(u64, Vec<u64>)> {
    let tree = tree?;
    if let Some(&fault) = faults(&tree, arc, length).first() {
        return Err(fault);
    }
    let branch = Branch::new(&tree, arc);
    let margin = branch.widest();
    Ok((margin, branch.shares(margin)))
}
