//! The by-arc split of cost classes: a tree of its own for each class.

use crate::compare::Network;
use crate::reference::{refusal, tree_faults, Answer, Refusal, Tree, ARCS};

/// The most classes.
pub const CLASSES: usize = 4;

/// A tree whose costs stand class after class, as handed in, checked or not.
#[derive(Clone)]
pub struct Classed {
    pub lists: Network,
    pub classes: usize,
}

#[derive(Clone, Debug, Default, PartialEq)]
pub struct ClassSplit {
    pub members: usize,
    /// Class after class.
    pub shares: Vec<u64>,
    /// What is paid in each class, then what each costs.
    pub totals: [u64; 2 * CLASSES],
}

impl Classed {
    pub fn arcs(&self) -> usize {
        self.lists.parents.len()
    }

    pub fn members(&self) -> usize {
        self.lists.marks.iter().filter(|&&mark| mark == 1).count()
    }

    /// The costs of an arc in all classes, as far as the list has them.
    pub fn costs_of(&self, arc: usize) -> Vec<u64> {
        let classes = 0..self.classes.min(CLASSES);
        let entries = classes.map(|class| class * self.arcs() + arc - 1);
        let costs = entries.filter_map(|entry| self.lists.costs.get(entry));
        costs.map(|&cost| u64::from(cost)).collect()
    }

    pub fn has_costs(&self) -> bool {
        self.arcs().checked_mul(self.classes) == Some(self.lists.costs.len())
    }

    /// The tree's lists with the sums over the classes as costs. The greatest
    /// number stands for a sum that is beyond 32 bits.
    pub fn summed(&self) -> Network {
        let sum = |arc| self.costs_of(arc).iter().sum::<u64>();
        let cost = |arc| u32::try_from(sum(arc)).unwrap_or(u32::MAX);
        Network {
            parents: self.lists.parents.clone(),
            costs: (1..=self.arcs()).map(cost).collect(),
            marks: self.lists.marks.clone(),
        }
    }

    /// The tree's lists with the costs of one class, which are there.
    pub fn of_class(&self, class: usize) -> Network {
        Network {
            parents: self.lists.parents.clone(),
            costs: self.lists.costs[class * self.arcs()..][..self.arcs()].to_vec(),
            marks: self.lists.marks.clone(),
        }
    }

    /// What is at fault with the lists and with an output of so many entries, in
    /// the order of the refusals.
    pub fn faults(&self, length: usize) -> Vec<Refusal> {
        let (arcs, summed) = (self.arcs(), self.summed());
        let has_marks = self.lists.marks.len() == arcs;
        let counts = [
            (!(1..=CLASSES).contains(&self.classes), refusal(32, 0)),
            (!(1..=ARCS).contains(&arcs), refusal(1, 0)),
            (!self.has_costs() || !has_marks, refusal(2, 0)),
        ];
        let counts = counts.into_iter().filter(|&(fault, _)| fault);
        let tree = tree_faults(&summed.parents, &summed.costs, &summed.marks);
        let others = tree.into_iter().filter(|fault| fault.number > 2);
        let fits = self.members().checked_mul(self.classes) == Some(length);
        let output = (!fits).then(|| refusal(8, 0));
        let counts = counts.map(|(_, refusal)| refusal);
        counts.chain(others).chain(output).collect()
    }

    /// Written to an output of so many entries. A class is at most the sum, so
    /// that its tree is accepted where that of the sums is.
    pub fn split(&self, length: usize) -> Answer<ClassSplit> {
        if let Some(&fault) = self.faults(length).first() {
            return Err(fault);
        }
        let mut split = ClassSplit {
            members: self.members(),
            ..Default::default()
        };
        for class in 0..self.classes {
            let tree: Tree = self.of_class(class).tree()?;
            let shares = tree.by_arc();
            split.totals[class] = shares.iter().sum();
            split.totals[CLASSES + class] = tree.whole();
            split.shares.extend(shares);
        }
        Ok(split)
    }
}

/// Each member's shares added over the classes.
pub fn added(shares: &[u64], members: usize) -> Vec<u64> {
    let of = |member: usize| shares.iter().skip(member).step_by(members).sum();
    (0..members).map(of).collect()
}
