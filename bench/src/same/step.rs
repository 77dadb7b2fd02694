//! The step from one parent list of a few arcs to the next.

use super::check::{check_count, check_parent};
use crate::ffi::ZilqodurStep;
use crate::reference::Answer;

/// The most arcs of a list that is stepped from.
pub const SMALL: usize = 6;

/// 31, then 3 arc by arc.
fn check_small(parents: &[u16]) -> Answer<()> {
    check_count(parents.len(), SMALL, 31)?;
    for i in 0..parents.len() {
        check_parent(i + 1, parents[i])?;
    }
    Ok(())
}

/// The last arc whose entry can be raised; 0 where there is none.
fn rising_arc(parents: &[u16]) -> usize {
    for k in (1..=parents.len()).rev() {
        if usize::from(parents[k - 1]) + 1 < k {
            return k;
        }
    }
    0
}

/// Writes 0 for all arcs after this one.
fn clear_behind(parents: &mut [u16], arc: usize) {
    for i in arc..parents.len() {
        parents[i] = 0;
    }
}

/// Writes the next list; tells whether there is one.
fn step(parents: &mut [u16]) -> bool {
    let arc = rising_arc(parents);
    if arc == 0 {
        return false;
    }
    clear_behind(parents, arc);
    parents[arc - 1] += 1;
    true
}

#[inline(never)]
pub fn next_parents(parents: &mut [u16]) -> ZilqodurStep {
    match check_small(parents) {
        Ok(()) => ZilqodurStep {
            verdict: if step(parents) { 1 } else { 2 },
            ..Default::default()
        },
        Err(r) => ZilqodurStep {
            refusal: r.number,
            place: r.place,
            verdict: 0,
        },
    }
}
