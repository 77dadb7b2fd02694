//! The engine's algorithms in Rust, loop for loop over the same working arrays,
//! cleared alike. The checks on all lists but a tree's are the reference's,
//! which have the same loops.

mod by_arc;
mod cap_sums;
mod check;
mod classes;
mod dead_ends;
mod floors;
mod job;
mod job2;
mod level;
mod margin;
mod needs;
mod search;
mod states;
mod step;
mod total;
mod turns;
mod writer;

pub use by_arc::split_by_arc;
pub use cap_sums::list_cap_sums;
pub use check::check_tree;
pub use classes::{split_classes, CLASSES};
pub use dead_ends::mark_dead_ends;
pub use floors::check_limits;
pub use job::read_job;
pub use job2::{job_to_1, job_to_2, read_job2};
pub use level::{answer as level_answer, split_level};
pub use margin::split_margin;
pub use needs::list_needs;
pub use search::find_group;
pub use states::{ask, commit, make_state};
pub use step::{next_parents, SMALL};
pub use total::check_total;
pub use writer::{job_length, write_job};

use crate::ffi::ZilqodurMembers;
use crate::reference::{Answer, ARCS};

/// Room for one entry a vertex.
pub const VERTICES: usize = ARCS + 1;

fn answer(found: Answer<usize>) -> ZilqodurMembers {
    match found {
        Ok(members) => ZilqodurMembers {
            members,
            ..Default::default()
        },
        Err(r) => ZilqodurMembers {
            refusal: r.number,
            place: r.place,
            members: 0,
        },
    }
}

pub fn count_members(marks: &[u16]) -> usize {
    marks.iter().map(|&mark| usize::from(mark == 1)).sum()
}

/// Writes the members' vertices in rising order.
fn write_members(marks: &[u16], out: &mut [u16]) {
    let mut j = 0;
    for (i, &mark) in marks.iter().enumerate() {
        if mark == 1 {
            out[j] = (i + 1) as u16;
            j += 1;
        }
    }
}

/// Writes each arc's cost where it has a user, else 0.
fn write_counted(parents: &[u16], costs: &[u32], marks: &[u16], out: &mut [u32]) {
    let mut used = [false; VERTICES];
    for k in (1..=parents.len()).rev() {
        let here = marks[k - 1] == 1 || used[k];
        out[k - 1] = if here { costs[k - 1] } else { 0 };
        let parent = usize::from(parents[k - 1]);
        used[parent] = used[parent] || here;
    }
}

/// The sum of the counted costs.
fn whole_cost(costs: &[u32]) -> u64 {
    costs.iter().map(|&cost| u64::from(cost)).sum()
}

/// Adds to each arc's entry those of all arcs below it; answers the sum of all.
fn add_up(parents: &[u16], out: &mut [u64]) -> u64 {
    let mut below = [0; VERTICES];
    for k in (1..=parents.len()).rev() {
        let total = below[k] + out[k - 1];
        out[k - 1] = total;
        below[usize::from(parents[k - 1])] += total;
    }
    below[0]
}

/// Writes the need of each arc; answers the whole cost.
fn write_needs(parents: &[u16], costs: &[u32], out: &mut [u64]) -> u64 {
    for (need, &cost) in out.iter_mut().zip(costs) {
        *need = u64::from(cost);
    }
    add_up(parents, out)
}

/// Writes each member's number at its arc, and 0 at the other arcs.
fn write_at_members(vertices: &[u16], values: &[u64], out: &mut [u64]) {
    out.fill(0);
    for (&vertex, &value) in vertices.iter().zip(values) {
        out[usize::from(vertex) - 1] = value;
    }
}

/// Writes for each arc what the caps of its users add up to; answers the sum of
/// all caps.
fn write_cap_sums(parents: &[u16], vertices: &[u16], caps: &[u64], out: &mut [u64]) -> u64 {
    write_at_members(vertices, caps, out);
    add_up(parents, out)
}

/// Writes for each arc the number of its users: the cap sums where every cap
/// is 1. `ones` is room for one entry a member.
fn write_user_counts(parents: &[u16], vertices: &[u16], ones: &mut [u64], out: &mut [u64]) {
    ones.fill(1);
    write_cap_sums(parents, vertices, ones, out);
}

/// Writes the members in depth-first order, and where each arc's users begin.
fn lay_out(
    parents: &[u16],
    vertices: &[u16],
    counts: &[u64],
    starts: &mut [u64],
    order: &mut [u16],
) {
    let mut next = [0; VERTICES];
    for i in 0..parents.len() {
        let parent = usize::from(parents[i]);
        starts[i] = next[parent];
        next[parent] += counts[i];
        next[i + 1] = starts[i];
    }
    for (j, &vertex) in vertices.iter().enumerate() {
        order[starts[usize::from(vertex) - 1] as usize] = j as u16;
    }
}
