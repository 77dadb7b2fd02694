//! The adjusted needs, and what refuses caps and floors: 27, and then 9 and 28
//! from the last arc down.

use super::{write_at_members, write_cap_sums, write_needs, VERTICES};
use crate::reference::{check_caps, refuse, Answer, Refusal, ARCS};

/// 6 and 7 on caps, 6 and 7 on floors, then 27 member by member.
pub fn check_limits(members: usize, caps: &[u64], floors: &[u64]) -> Answer<()> {
    check_caps(members, caps)?;
    check_caps(members, floors)?;
    for j in 0..members {
        if caps[j] < floors[j] {
            return refuse(27, j);
        }
    }
    Ok(())
}

/// Writes the adjusted need of each arc. A member's floor is first at its arc,
/// which has no child arcs.
fn write_adjusted(
    parents: &[u16],
    vertices: &[u16],
    floors: &[u64],
    needs: &[u64],
    out: &mut [u64],
) {
    write_at_members(vertices, floors, out);
    let mut below = [0; VERTICES];
    for k in (1..=parents.len()).rev() {
        let adjusted = needs[k - 1].max(out[k - 1]).max(below[k]);
        out[k - 1] = adjusted;
        below[usize::from(parents[k - 1])] += adjusted;
    }
}

/// 9 at one arc, then 28.
fn stop_at(arc: usize, parent: u16, need: u64, adjusted: u64, sum: u64) -> Answer<()> {
    if sum < adjusted {
        return Err(Refusal {
            number: 9,
            place: arc,
            shortfall: adjusted - sum,
        });
    }
    if parent == 0 && need < adjusted {
        return refuse(28, arc);
    }
    Ok(())
}

/// Writes the adjusted needs; then 9 and 28 by them, the needs and the cap sums.
pub fn find_stop(
    parents: &[u16],
    costs: &[u32],
    vertices: &[u16],
    caps: &[u64],
    floors: &[u64],
    out: &mut [u64],
) -> Answer<()> {
    let (mut needs, mut sums) = ([0; ARCS], [0; ARCS]);
    let m = parents.len();
    write_needs(parents, costs, &mut needs[..m]);
    write_adjusted(parents, vertices, floors, &needs[..m], out);
    write_cap_sums(parents, vertices, caps, &mut sums[..m]);
    for k in (1..=m).rev() {
        stop_at(k, parents[k - 1], needs[k - 1], out[k - 1], sums[k - 1])?;
    }
    Ok(())
}
