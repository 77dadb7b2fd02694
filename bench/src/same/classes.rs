//! The by-arc split of cost classes: the check of the tree with the summed costs,
//! then each class by itself.

use super::by_arc::split;
use super::check::check_count;
use super::{check_tree, count_members, whole_cost, write_counted, write_members};
use crate::ffi::ZilqodurClassSplit;
use crate::reference::{check_output, refuse, Answer, ARCS, COST};

/// The most classes.
pub const CLASSES: usize = 4;

/// What is paid in each class, then what each costs.
type Totals = [u64; 2 * CLASSES];

fn sum_at(costs: &[u32], m: usize, classes: usize, i: usize) -> u64 {
    let mut total = 0;
    for c in 0..classes {
        total += u64::from(costs[c * m + i]);
    }
    total
}

/// Writes each arc's sum; where it is above the limit, the least cost that is.
fn write_sums(costs: &[u32], classes: usize, out: &mut [u32]) {
    let m = out.len();
    for i in 0..m {
        out[i] = sum_at(costs, m, classes, i).min(u64::from(COST) + 1) as u32;
    }
}

fn check_classed(parents: &[u16], costs: &[u32], marks: &[u16], classes: usize) -> Answer<()> {
    let m = parents.len();
    check_count(classes, CLASSES, 32)?;
    check_count(m, ARCS, 1)?;
    if costs.len() != classes * m {
        return refuse(2, 0);
    }
    let mut sums = [0; ARCS];
    write_sums(costs, classes, &mut sums[..m]);
    check_tree(parents, &sums[..m], marks)
}

/// One class; answers what is paid and what it costs.
fn split_class(
    parents: &[u16],
    costs: &[u32],
    marks: &[u16],
    vertices: &[u16],
    out: &mut [u64],
) -> (u64, u64) {
    let mut counted = [0; ARCS];
    let counted = &mut counted[..parents.len()];
    write_counted(parents, costs, marks, counted);
    split(parents, counted, vertices, out);
    (out.iter().sum(), whole_cost(counted))
}

fn write_classes(
    parents: &[u16],
    costs: &[u32],
    marks: &[u16],
    classes: usize,
    vertices: &[u16],
    out: &mut [u64],
) -> Totals {
    let (m, n) = (parents.len(), vertices.len());
    let mut totals = [0; 2 * CLASSES];
    for c in 0..classes {
        let (own, shares) = (&costs[c * m..][..m], &mut out[c * n..][..n]);
        let (paid, cost) = split_class(parents, own, marks, vertices, shares);
        totals[c] = paid;
        totals[CLASSES + c] = cost;
    }
    totals
}

fn checked(
    parents: &[u16],
    costs: &[u32],
    marks: &[u16],
    classes: usize,
    out: &mut [u64],
) -> Answer<(usize, Totals)> {
    check_classed(parents, costs, marks, classes)?;
    let members = count_members(marks);
    check_output(out.len(), classes * members)?;
    let mut vertices = [0; ARCS];
    let vertices = &mut vertices[..members];
    write_members(marks, vertices);
    let totals = write_classes(parents, costs, marks, classes, vertices, out);
    Ok((members, totals))
}

#[inline(never)]
pub fn split_classes(
    parents: &[u16],
    costs: &[u32],
    marks: &[u16],
    classes: usize,
    out: &mut [u64],
) -> ZilqodurClassSplit {
    match checked(parents, costs, marks, classes, out) {
        Ok((members, totals)) => ZilqodurClassSplit {
            members,
            totals,
            ..Default::default()
        },
        Err(r) => ZilqodurClassSplit {
            refusal: r.number,
            place: r.place,
            ..Default::default()
        },
    }
}
