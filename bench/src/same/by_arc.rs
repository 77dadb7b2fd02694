//! The by-arc split: the tallies after all arcs, as keys of members who stand
//! side by side for every arc, and the equal parts on the way to each vertex.

use super::turns::give_in_turn;
use super::{
    answer, check_tree, count_members, lay_out, write_counted, write_members, write_user_counts,
};
use crate::ffi::ZilqodurMembers;
use crate::reference::{check_output, Answer, ARCS};

fn part_of(cost: u32, users: u32) -> u32 {
    match users {
        0 => 0,
        1 => cost,
        _ => cost / users,
    }
}

fn left_of(cost: u32, users: u32) -> u32 {
    match users {
        0 | 1 => 0,
        _ => cost % users,
    }
}

fn tally_of(key: u32, base: u32) -> u32 {
    if key < base {
        0
    } else {
        key / base
    }
}

/// Writes each member's key where the users of its arc begin.
fn write_tallies(
    parents: &[u16],
    costs: &[u32],
    vertices: &[u16],
    counts: &[u64],
    starts: &mut [u64],
    keys: &mut [u32],
) {
    let mut order = [0; ARCS];
    let order = &mut order[..vertices.len()];
    lay_out(parents, vertices, counts, starts, order);
    for (key, &number) in keys.iter_mut().zip(order.iter()) {
        *key = u32::from(number);
    }
    let base = order.len() as u32;
    for i in (0..costs.len()).rev() {
        let users = counts[i] as usize;
        let more = left_of(costs[i], users as u32);
        let from = starts[i] as usize;
        give_in_turn(&mut keys[from..from + users], base, more);
    }
}

/// The entry of the arc that ends at a vertex; 0 for the source.
fn at_vertex(list: &[u64], vertex: usize) -> u64 {
    match vertex {
        0 => 0,
        _ => list[vertex - 1],
    }
}

/// `parts` holds first the number of users of each arc.
fn write_parts(parents: &[u16], costs: &[u32], parts: &mut [u64]) {
    for i in 0..parents.len() {
        let above = at_vertex(parts, usize::from(parents[i]));
        let part = part_of(costs[i], parts[i] as u32);
        parts[i] = above + u64::from(part);
    }
}

pub fn split(parents: &[u16], costs: &[u32], vertices: &[u16], out: &mut [u64]) {
    let (mut parts, mut starts, mut keys) = ([0; ARCS], [0; ARCS], [0; ARCS]);
    let (m, n) = (parents.len(), vertices.len());
    let (parts, starts, keys) = (&mut parts[..m], &mut starts[..m], &mut keys[..n]);
    write_user_counts(parents, vertices, out, parts);
    write_tallies(parents, costs, vertices, parts, starts, keys);
    write_parts(parents, costs, parts);
    for (share, &vertex) in out.iter_mut().zip(vertices) {
        let v = usize::from(vertex);
        let key = keys[at_vertex(starts, v) as usize];
        *share = at_vertex(parts, v) + u64::from(tally_of(key, n as u32));
    }
}

pub fn checked(parents: &[u16], costs: &[u32], marks: &[u16], out: &mut [u64]) -> Answer<usize> {
    check_tree(parents, costs, marks)?;
    let (mut vertices, mut counted) = ([0; ARCS], [0; ARCS]);
    let counted = &mut counted[..parents.len()];
    write_counted(parents, costs, marks, counted);
    let members = count_members(marks);
    check_output(out.len(), members)?;
    let vertices = &mut vertices[..members];
    write_members(marks, vertices);
    split(parents, counted, vertices, out);
    Ok(members)
}

#[inline(never)]
pub fn split_by_arc(
    parents: &[u16],
    costs: &[u32],
    marks: &[u16],
    out: &mut [u64],
) -> ZilqodurMembers {
    answer(checked(parents, costs, marks, out))
}
