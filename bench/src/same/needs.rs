//! Needs: a copy of the counted costs, added up from below.

use super::{check_tree, count_members, write_counted, write_needs};
use crate::ffi::ZilqodurNeeds;
use crate::reference::{check_output, Answer, ARCS};

fn needs(parents: &[u16], costs: &[u32], marks: &[u16], out: &mut [u64]) -> Answer<(u64, usize)> {
    check_tree(parents, costs, marks)?;
    let mut counted = [0; ARCS];
    let counted = &mut counted[..parents.len()];
    write_counted(parents, costs, marks, counted);
    check_output(out.len(), parents.len())?;
    let members = count_members(marks);
    Ok((write_needs(parents, counted, out), members))
}

#[inline(never)]
pub fn list_needs(parents: &[u16], costs: &[u32], marks: &[u16], out: &mut [u64]) -> ZilqodurNeeds {
    match needs(parents, costs, marks, out) {
        Ok((whole, members)) => ZilqodurNeeds {
            whole,
            members,
            ..Default::default()
        },
        Err(r) => ZilqodurNeeds {
            refusal: r.number,
            place: r.place,
            ..Default::default()
        },
    }
}
