//! Cap sums: the caps at their members' vertices, added up from below.

use super::{check_tree, count_members, write_cap_sums, write_members};
use crate::ffi::ZilqodurCapSums;
use crate::reference::{check_caps, check_output, Answer, ARCS};

fn cap_sums(
    parents: &[u16],
    costs: &[u32],
    marks: &[u16],
    caps: &[u64],
    out: &mut [u64],
) -> Answer<u64> {
    check_tree(parents, costs, marks)?;
    let members = count_members(marks);
    check_caps(members, caps)?;
    check_output(out.len(), parents.len())?;
    let mut vertices = [0; ARCS];
    let vertices = &mut vertices[..members];
    write_members(marks, vertices);
    Ok(write_cap_sums(parents, vertices, caps, out))
}

#[inline(never)]
pub fn list_cap_sums(
    parents: &[u16],
    costs: &[u32],
    marks: &[u16],
    caps: &[u64],
    out: &mut [u64],
) -> ZilqodurCapSums {
    match cap_sums(parents, costs, marks, caps, out) {
        Ok(total) => ZilqodurCapSums {
            total,
            ..Default::default()
        },
        Err(r) => ZilqodurCapSums {
            refusal: r.number,
            place: r.place,
            total: 0,
        },
    }
}
