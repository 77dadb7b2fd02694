//! The specification's trees in cost classes (§10): the reference gives the
//! shares, totals and refusals that are named here, and the archive the same.

use crate::classes::Classed;
use crate::compare_classes;
use crate::reference::{refuse, Answer, COST};
use crate::table::{named, network};
use crate::tally::Tally;

/// The parents and marks of a tree.
type Shape<'a> = (&'a [u16], &'a [u16]);

const T: Shape = (&[0, 1, 1, 0], &[0, 1, 1, 1]);
const SPARE: Shape = (&[0, 1, 1, 0], &[0, 1, 0, 1]);
const U: Shape = (&[0, 1, 1], &[0, 1, 1]);
const ARC: Shape = (&[0], &[1]);
const NONE: Shape = (&[], &[]);

fn call(shape: Shape, classes: usize, costs: &[u32]) -> Classed {
    let (parents, marks) = shape;
    Classed {
        lists: network(parents, costs, marks),
        classes,
    }
}

/// The shares and the totals: as many as there are classes, each of them what is
/// paid and what is to be paid.
fn splits(tally: &mut Tally, call: &Classed, shares: &[u64], totals: &[u64]) {
    let found = call.split(shares.len());
    let found = found.map(|split| (split.shares, split.totals));
    let mut all = [0; 8];
    all[..totals.len()].copy_from_slice(totals);
    all[4..][..totals.len()].copy_from_slice(totals);
    named(tally, found, Ok((shares.to_vec(), all)));
    compare_classes::split_classes(tally, call, &vec![77; shares.len()]);
}

/// A refusal, on an output of so many entries.
fn refused(tally: &mut Tally, call: &Classed, room: usize, expected: Answer<()>) {
    let found = call.split(room).map(|_| ());
    named(tally, found, expected);
    compare_classes::split_classes(tally, call, &vec![77; room]);
}

pub fn compare(tally: &mut Tally) {
    let t = call(T, 2, &[1, 1, 0, 4, 5, 0, 5, 0]);
    splits(tally, &t, &[2, 0, 4, 3, 7, 0], &[6, 10]);
    let one = call(T, 1, &[6, 1, 5, 4]);
    splits(tally, &one, &[4, 8, 4], &[16]);
    let u = call(U, 2, &[7, 0, 0, 7, 0, 0]);
    splits(tally, &u, &[4, 3, 4, 3], &[7, 7]);
    let spare = call(SPARE, 2, &[6, 1, 5, 4, 5, 0, 5, 0]);
    splits(tally, &spare, &[7, 4, 5, 0], &[11, 5]);
    limits(tally);
    numbers(tally);
    for (classes, entries) in [(2, 4), (1, 8), (2, 7), (2, 9)] {
        let t = call(T, classes, &vec![0; entries]);
        refused(tally, &t, 3 * classes, refuse(2, 0));
    }
    for room in [0, 3, 5, 7, 9] {
        refused(tally, &t, room, refuse(8, 0));
    }
}

/// Sums at the limit and past it.
fn limits(tally: &mut Tally) {
    let quarters = [COST / 4; 4];
    let shares = quarters.map(u64::from);
    splits(tally, &call(ARC, 4, &quarters), &shares, &shares);
    for class in 0..4 {
        let mut costs = quarters;
        costs[class] += 1;
        refused(tally, &call(ARC, 4, &costs), 4, refuse(4, 1));
    }
    refused(tally, &call(ARC, 4, &[u32::MAX; 4]), 4, refuse(4, 1));
    refused(tally, &call(ARC, 2, &[u32::MAX, 1]), 2, refuse(4, 1));
    refused(tally, &call(ARC, 2, &[0, COST + 1]), 2, refuse(4, 1));
    let together = [6, 1, 1, 4, 5, 0, COST, 0];
    refused(tally, &call(SPARE, 2, &together), 4, refuse(4, 3));
}

/// Numbers outside 1 to 4, also before an empty tree.
fn numbers(tally: &mut Tally) {
    for classes in [0, 5, 65_538, usize::MAX] {
        refused(tally, &call(NONE, classes, &[]), 0, refuse(32, 0));
        refused(tally, &call(T, classes, &[0; 8]), 6, refuse(32, 0));
    }
    refused(tally, &call(ARC, 5, &[0; 5]), 5, refuse(32, 0));
    refused(tally, &call(NONE, 1, &[]), 0, refuse(1, 0));
}
