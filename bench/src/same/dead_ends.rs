//! The marks of a tree with a member at every dead end.

use super::answer;
use super::check::{check_arc, check_lengths, find_named};
use crate::ffi::ZilqodurMembers;
use crate::reference::{check_output, Answer};

/// Writes the marks; answers the number of members.
pub fn write_dead_ends(parents: &[u16], costs: &[u32], out: &mut [u16]) -> Answer<usize> {
    check_lengths(parents, &[costs.len()])?;
    for i in 0..parents.len() {
        check_arc(i + 1, parents[i], costs[i])?;
    }
    check_output(out.len(), parents.len())?;
    let named = find_named(parents);
    let mut members = 0;
    for (i, mark) in out.iter_mut().enumerate() {
        *mark = u16::from(!named[i + 1]);
        members += usize::from(*mark);
    }
    Ok(members)
}

#[inline(never)]
pub fn mark_dead_ends(parents: &[u16], costs: &[u32], out: &mut [u16]) -> ZilqodurMembers {
    answer(write_dead_ends(parents, costs, out))
}
