//! The networks that are measured, and the lists that go with them.

use crate::job::Job;
use crate::job2::{self, Job2};
use crate::reference::{dead_ends, Tree, AMOUNT, COST};
use crate::rng::Rng;
use crate::same::CLASSES;

#[derive(Clone, Copy)]
pub enum Shape {
    Star,
    Chain,
    Caterpillar,
    Broom,
    Binary,
    Random,
    DeepRandom,
    HalfSpare,
}

#[rustfmt::skip]
pub const SHAPES: [(Shape, &str); 8] = [
    (Shape::Star, "star"),
    (Shape::Chain, "chain"),
    (Shape::Caterpillar, "caterpillar"),
    (Shape::Broom, "broom"),
    (Shape::Binary, "binary"),
    (Shape::Random, "random"),
    (Shape::DeepRandom, "random, deep"),
    (Shape::HalfSpare, "random, half spare"),
];

impl Shape {
    fn parent(self, rng: &mut Rng, arcs: usize, k: usize) -> usize {
        match self {
            Shape::Star => 0,
            Shape::Chain => k - 1,
            // A spine of odd vertices, each with one member.
            Shape::Caterpillar => k.saturating_sub(1 + k % 2),
            // A chain of half the arcs, then members.
            Shape::Broom => (k - 1).min(arcs / 2),
            Shape::Binary => (k - 1) / 2,
            Shape::Random | Shape::HalfSpare => rng.below(k),
            Shape::DeepRandom => k - 1 - rng.below(k.min(4)),
        }
    }

    /// Every dead end is marked; of a network that is half spare every second.
    fn marks(self, parents: &[u16]) -> Vec<u16> {
        let mut marks = dead_ends(parents);
        if let Shape::HalfSpare = self {
            let ends = marks.iter_mut().filter(|mark| **mark == 1);
            ends.skip(1).step_by(2).for_each(|mark| *mark = 0);
        }
        marks
    }
}

/// The network, changed where no arc from the source would have two users: all
/// of the star below its first arc, the last two arcs of the chain side by side.
pub struct Branched {
    pub parents: Vec<u16>,
    pub marks: Vec<u16>,
    /// The first arc from the source that has two users or more; arc 1 where
    /// there is none.
    pub arc: usize,
    /// The number of its users.
    pub users: usize,
}

impl Branched {
    fn new(shape: Shape, parents: &[u16], costs: &[u32]) -> Branched {
        let mut parents = parents.to_vec();
        match (shape, &mut parents[..]) {
            (Shape::Star, [_, others @ ..]) => others.fill(1),
            (Shape::Chain, [.., before, last]) => *last = *before,
            _ => (),
        }
        let marks = shape.marks(&parents);
        let tree = Tree::new(&parents, costs, &marks).expect("the tree is accepted");
        let users = |arc: usize| tree.users[arc].len();
        let mut arcs = (1..=tree.arcs()).filter(|&arc| tree.parent[arc] == 0);
        let arc = arcs.find(|&arc| users(arc) > 1).unwrap_or(1);
        Branched {
            users: users(arc),
            arc,
            parents,
            marks,
        }
    }
}

pub struct Network {
    pub parents: Vec<u16>,
    pub costs: Vec<u32>,
    /// The costs in four parts, class after class.
    pub classed: Vec<u32>,
    pub marks: Vec<u16>,
    pub members: usize,
    /// The sum over all arcs of the number of their users.
    pub users: usize,
    pub caps: Vec<u64>,
    /// None, and then some that can be kept where the caps can.
    pub no_floors: Vec<u64>,
    pub floors: Vec<u64>,
    pub proposal: Vec<i64>,
    /// What the margin is measured on, with the same costs.
    pub branched: Branched,
    /// A job with the same parents and costs, in which every dead end is marked.
    pub job: Job,
    /// The job's bytes, and its bytes as one of version 2.
    pub bytes: Vec<u8>,
    pub bytes2: Vec<u8>,
    /// The bytes of a job of version 2 that has all lists of the network.
    pub own2: Vec<u8>,
}

/// How far the caps are from what the by-arc split gives.
#[derive(Clone, Copy)]
pub enum Caps {
    /// Above it by at most the average share, so that none is short.
    Near,
    /// As much above it or below it.
    Around,
    Greatest,
}

fn caps(rng: &mut Rng, kind: Caps, shares: &[u64], whole: u64) -> Vec<u64> {
    let average = whole / shares.len() as u64;
    let cap = |&share: &u64| match kind {
        Caps::Near => share + rng.up_to(average),
        Caps::Around => (share + rng.up_to(2 * average)).saturating_sub(average),
        Caps::Greatest => AMOUNT,
    };
    shares.iter().map(cap).map(|cap| cap.min(AMOUNT)).collect()
}

/// Below the by-arc split by at most a quarter, and at most the caps.
fn floors(rng: &mut Rng, shares: &[u64], caps: &[u64]) -> Vec<u64> {
    let floor = |(&share, &cap): (&u64, &u64)| cap.min(share - rng.up_to(share / 4));
    shares.iter().zip(caps).map(floor).collect()
}

/// Each cost in parts, one a class, the last of which is what is left of it.
fn classed(rng: &mut Rng, costs: &[u32]) -> Vec<u32> {
    let (mut left, mut classed) = (costs.to_vec(), Vec::new());
    for _ in 1..CLASSES {
        for cost in &mut left {
            let part = rng.up_to(u64::from(*cost)) as u32;
            classed.push(part);
            *cost -= part;
        }
    }
    [classed, left].concat()
}

/// The by-arc split with amounts moved between members.
fn proposal(rng: &mut Rng, shares: &[u64]) -> Vec<i64> {
    let mut list: Vec<i64> = shares.iter().map(|&share| share as i64).collect();
    for _ in 0..list.len() / 2 {
        let (from, to) = (rng.below(list.len()), rng.below(list.len()));
        let moved = rng.up_to(shares[from] / 4) as i64;
        list[from] -= moved;
        list[to] += moved;
    }
    list
}

impl Network {
    pub fn new(shape: Shape, arcs: usize, seed: u64, kind: Caps, most_cost: u32) -> Network {
        let rng = &mut Rng::new(seed);
        let parent = |k| shape.parent(rng, arcs, k) as u16;
        let parents: Vec<u16> = (1..=arcs).map(parent).collect();
        let cost = |_| rng.up_to(u64::from(most_cost.min(COST))) as u32;
        let costs: Vec<u32> = (0..arcs).map(cost).collect();
        let marks = shape.marks(&parents);
        let tree = Tree::new(&parents, &costs, &marks).expect("the tree is accepted");
        let shares = tree.by_arc();
        let caps = caps(rng, kind, &shares, tree.whole());
        let proposal = proposal(rng, &shares);
        let job = job(rng, kind, &parents, &costs);
        let mut network = Network {
            members: shares.len(),
            users: tree.users.iter().map(Vec::len).sum(),
            no_floors: vec![0; shares.len()],
            floors: floors(rng, &shares, &caps),
            classed: classed(rng, &costs),
            caps,
            proposal,
            branched: Branched::new(shape, &parents, &costs),
            bytes: job.write(),
            bytes2: job2::with_dead_ends(job.clone()).write(),
            own2: Vec::new(),
            job,
            parents,
            costs,
            marks,
        };
        network.own2 = network.own_job().write();
        network
    }

    /// The job of version 2 with all lists of the network, and the note of its job.
    fn own_job(&self) -> Job2 {
        let rows = Job {
            note: self.job.note.clone(),
            parents: self.parents.clone(),
            fillers: self.marks.clone(),
            costs: self.costs.clone(),
            caps: self.caps.clone(),
            proposals: self.proposal.clone(),
        };
        let floors = self.floors.clone();
        Job2 { rows, floors }
    }
}

fn job(rng: &mut Rng, kind: Caps, parents: &[u16], costs: &[u32]) -> Job {
    let mut job = Job {
        note: b"a note of 24 bytes, free".to_vec(),
        parents: parents.to_vec(),
        fillers: vec![0; parents.len()],
        costs: costs.to_vec(),
        caps: Vec::new(),
        proposals: Vec::new(),
    };
    let tree = job.tree().expect("the tree is accepted");
    let shares = tree.by_arc();
    job.caps = caps(rng, kind, &shares, tree.whole());
    job.proposals = proposal(rng, &shares);
    job
}
