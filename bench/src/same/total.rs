//! The total: the sums of the shares' parts, and of the counted costs.

use super::{check_tree, count_members, whole_cost, write_counted};
use crate::ffi::ZilqodurTotal;
use crate::reference::{check_proposal, Answer, ARCS};

/// The sums of the shares' positive and negative parts.
fn parts_of(proposal: &[i64]) -> (u64, u64) {
    let (mut plus, mut minus) = (0, 0);
    for &share in proposal {
        plus += share.max(0).unsigned_abs();
        minus += share.min(0).unsigned_abs();
    }
    (plus, minus)
}

fn difference(parents: &[u16], costs: &[u32], marks: &[u16], proposal: &[i64]) -> Answer<i64> {
    check_tree(parents, costs, marks)?;
    check_proposal(count_members(marks), proposal)?;
    let mut counted = [0; ARCS];
    let counted = &mut counted[..parents.len()];
    write_counted(parents, costs, marks, counted);
    let (proposed, negative) = parts_of(proposal);
    let owed = negative + whole_cost(counted);
    Ok(proposed as i64 - owed as i64)
}

#[inline(never)]
pub fn check_total(
    parents: &[u16],
    costs: &[u32],
    marks: &[u16],
    proposal: &[i64],
) -> ZilqodurTotal {
    match difference(parents, costs, marks, proposal) {
        Ok(difference) => ZilqodurTotal {
            verdict: if difference == 0 { 1 } else { 2 },
            difference,
            ..Default::default()
        },
        Err(r) => ZilqodurTotal {
            refusal: r.number,
            place: r.place,
            ..Default::default()
        },
    }
}
