//! Pseudo-random jobs of version 2: valid, and with faults of every refusal.

use crate::compare::Network;
use crate::generate;
use crate::generate_job::{note, resize_arcs, resize_members};
use crate::generate_level;
use crate::job::{Job, NOTE};
use crate::job2::Job2;
use crate::reference::{dead_ends, Tree, AMOUNT, ARCS, COST};
use crate::rng::Rng;

/// The most arc rows that a job has room for.
const ARC_ROWS: usize = 4_123;

/// A valid job on the network or, every second time, on the tree with every dead
/// end marked.
pub fn valid(rng: &mut Rng, network: &Network) -> Job2 {
    let Network { parents, costs, .. } = network;
    let marks = if rng.one_in(2) {
        dead_ends(parents)
    } else {
        network.marks.clone()
    };
    let tree = Tree::new(parents, costs, &marks).expect("the tree is accepted");
    let caps = generate_level::caps(rng, &tree);
    let floors = floors(rng, &tree, &caps);
    let rows = Job {
        note: note(rng),
        parents: parents.clone(),
        fillers: marks,
        costs: costs.clone(),
        proposals: generate::proposal(rng, &tree),
        caps,
    };
    Job2 { rows, floors }
}

/// None, or some that are at most the caps.
fn floors(rng: &mut Rng, tree: &Tree, caps: &[u64]) -> Vec<u64> {
    if rng.one_in(2) {
        return vec![0; caps.len()];
    }
    let floors = generate_level::floors(rng, tree, caps);
    let within = |(floor, &cap): (u64, &u64)| floor.min(cap);
    floors.into_iter().zip(caps).map(within).collect()
}

/// The kinds of faults of the rows, in the order of the refusals.
#[derive(Clone, Copy)]
enum Kind {
    Note,
    Mark,
    ArcCount,
    Parent,
    Cost,
    MarkChild,
    NoMark,
    Members,
    Caps,
    Proposals,
    Floors,
    FloorAboveCap,
    Spare,
    Floor,
}

use Kind::*;

#[rustfmt::skip]
const KINDS: [Kind; 14] = [
    Note, Mark, ArcCount, Parent, Cost, MarkChild, NoMark, Members, Caps, Proposals, Floors,
    FloorAboveCap, Spare, Floor,
];

/// Puts a fault, or one with another that is often the next in the order.
pub fn damage(rng: &mut Rng, job: &mut Job2) {
    let first = rng.below(KINDS.len());
    put_fault(rng, job, KINDS[first]);
    if rng.one_in(2) {
        let any = rng.below(KINDS.len());
        let next = (first + 1).min(KINDS.len() - 1);
        let second = rng.pick(&[next, next, any]);
        put_fault(rng, job, KINDS[second]);
    }
}

fn put_fault(rng: &mut Rng, job: &mut Job2, kind: Kind) {
    let (arcs, members) = (job.rows.parents.len(), job.rows.caps.len());
    match kind {
        Note => job.rows.note.resize(NOTE + 1 + rng.below(40), 7),
        ArcCount => put_arc_count(rng, job),
        Mark | Parent | Cost | MarkChild | Spare if arcs == 0 => (),
        Mark | Parent | Cost | MarkChild => put_arc_fault(rng, &mut job.rows, kind),
        NoMark => job.rows.fillers.fill(0),
        Members => {
            let counts = [0, members + 1, members.saturating_sub(1)];
            resize_members(&mut job.rows, rng.pick(&counts));
        }
        Caps => generate::damage_caps(rng, &mut job.rows.caps),
        Proposals => generate::damage_proposal(rng, &mut job.rows.proposals),
        Floors => generate::damage_caps(rng, &mut job.floors),
        Spare => put_spare(rng, job),
        FloorAboveCap | Floor if members == 0 => (),
        FloorAboveCap => {
            let j = rng.below(members);
            job.floors[j] = (job.rows.caps[j].saturating_add(1 + rng.up_to(2))).min(AMOUNT);
        }
        Floor => {
            let j = rng.below(members);
            job.floors[j] = job.rows.caps[j].min(1 + rng.up_to(2));
        }
    }
    let members = match kind {
        Caps => members,
        _ => job.rows.caps.len(),
    };
    resize_members(&mut job.rows, members);
    job.floors.resize(members, 0);
}

/// No arcs, or too many, up to as many as there is room for and one more; the last
/// vertex may have a mark.
fn put_arc_count(rng: &mut Rng, job: &mut Job2) {
    let more = ARCS + 1 + rng.below(ARC_ROWS - ARCS);
    let counts = [0, ARCS + 1, ARC_ROWS, ARC_ROWS + 1, more, more];
    resize_arcs(&mut job.rows, rng.pick(&counts));
    let mark = rng.pick(&[0, 0, 1, 2]);
    if let Some(last) = job.rows.fillers.last_mut() {
        *last = mark;
    }
    if rng.one_in(2) {
        resize_members(&mut job.rows, 0);
        job.rows.note.truncate(7);
    }
}

fn put_arc_fault(rng: &mut Rng, rows: &mut Job, kind: Kind) {
    let arcs = rows.parents.len();
    let k = 1 + rng.below(arcs);
    match kind {
        Mark => rows.fillers[k - 1] = rng.pick(&[2, 3, 0x100, 0x101, 0x8000, 0xFFFF]),
        Parent => rows.parents[k - 1] = rng.pick(&[k, k + 1, 65_535]) as u16,
        Cost => rows.costs[k - 1] = rng.pick(&[COST + 1, u32::MAX, 1 << 31]),
        _ => {
            rows.fillers[k - 1] = 1;
            let last = &mut rows.parents[arcs - 1];
            *last = if k < arcs { k as u16 } else { *last };
        }
    }
}

/// Nobody at a dead end, most often with its member row gone.
fn put_spare(rng: &mut Rng, job: &mut Job2) {
    let marks = &mut job.rows.fillers;
    let marked: Vec<usize> = (0..marks.len()).filter(|&k| marks[k] == 1).collect();
    let member = rng.below(marked.len().max(1));
    let rows = job.rows.caps.len();
    if marked.len() < 2 || member >= rows {
        return;
    }
    marks[marked[member]] = 0;
    if !rng.one_in(4) {
        job.rows.caps.remove(member);
        job.rows.proposals.remove(member);
        job.floors.remove(member);
    }
}
