//! The widest margin in a branch: the needs of its arcs and the numbers of their
//! users, the margin by bisection with one pass over the arcs a try, then the
//! level rule at the raised needs.

use super::level::write_shares;
use super::{
    check_tree, count_members, write_counted, write_members, write_needs, write_user_counts,
    VERTICES,
};
use crate::ffi::ZilqodurMargin;
use crate::reference::{check_output, refuse, Answer, AMOUNT, ARCS};

/// 25 at a number that is not that of an arc from the source.
fn check_arc(parents: &[u16], arc: usize) -> Answer<()> {
    if arc == 0 || arc > parents.len() || parents[arc - 1] != 0 {
        return refuse(25, arc);
    }
    Ok(())
}

/// Writes the marks at and below the arc, and 0 elsewhere.
fn write_branch_marks(parents: &[u16], marks: &[u16], arc: usize, out: &mut [u16]) {
    let mut inside = [false; VERTICES];
    for k in 1..=parents.len() {
        let here = k == arc || inside[usize::from(parents[k - 1])];
        inside[k] = here;
        out[k - 1] = if here { marks[k - 1] } else { 0 };
    }
}

/// What the raised needs are made of. Each list has one entry an arc.
struct Branch<'a> {
    parents: &'a [u16],
    needs: &'a [u64],
    counts: &'a [u64],
    users: u64,
    arc: usize,
}

impl Branch<'_> {
    /// Writes each arc's raised need at the margin.
    fn write_raised(&self, margin: u64, out: &mut [u64]) {
        let mut below = [0; VERTICES];
        for k in (1..=self.parents.len()).rev() {
            let count = self.counts[k - 1];
            let more = if count < self.users { margin } else { 0 };
            let raised = match count {
                0 => 0,
                _ => below[k].max(self.needs[k - 1] + more),
            };
            out[k - 1] = raised;
            below[usize::from(self.parents[k - 1])] += raised;
        }
    }

    /// The greatest margin at which the branch's raised need is its need.
    fn widest(&self, raised: &mut [u64]) -> u64 {
        let need = self.needs[self.arc - 1];
        let (mut low, mut high) = (0, need + 1);
        while low + 1 < high {
            let middle = low + (high - low) / 2;
            self.write_raised(middle, raised);
            if raised[self.arc - 1] <= need {
                low = middle;
            } else {
                high = middle;
            }
        }
        low
    }
}

/// The branch's marks are those of its own users alone; answers the margin.
fn split(parents: &[u16], costs: &[u32], marks: &[u16], arc: usize, out: &mut [u64]) -> u64 {
    let (m, n) = (parents.len(), out.len());
    let (mut counted, mut vertices) = ([0; ARCS], [0; ARCS]);
    let (mut needs, mut counts) = ([0; ARCS], [0; ARCS]);
    let (mut raised, mut caps) = ([0; ARCS], [0; ARCS]);
    write_counted(parents, costs, marks, &mut counted[..m]);
    write_members(marks, &mut vertices[..n]);
    write_needs(parents, &counted[..m], &mut needs[..m]);
    write_user_counts(parents, &vertices[..n], &mut caps[..n], &mut counts[..m]);
    let branch = Branch {
        parents,
        needs: &needs[..m],
        counts: &counts[..m],
        users: n as u64,
        arc,
    };
    let margin = branch.widest(&mut raised[..m]);
    branch.write_raised(margin, &mut raised[..m]);
    caps[..n].fill(AMOUNT);
    write_shares(parents, &vertices[..n], &caps[..n], &raised[..m], out);
    margin
}

fn checked(
    parents: &[u16],
    costs: &[u32],
    marks: &[u16],
    arc: usize,
    out: &mut [u64],
) -> Answer<(u64, usize)> {
    check_tree(parents, costs, marks)?;
    check_arc(parents, arc)?;
    let mut branch_marks = [0; ARCS];
    let branch_marks = &mut branch_marks[..parents.len()];
    write_branch_marks(parents, marks, arc, branch_marks);
    let users = count_members(branch_marks);
    if users < 2 {
        return refuse(26, arc);
    }
    check_output(out.len(), users)?;
    Ok((split(parents, costs, branch_marks, arc, out), users))
}

#[inline(never)]
pub fn split_margin(
    parents: &[u16],
    costs: &[u32],
    marks: &[u16],
    arc: usize,
    out: &mut [u64],
) -> ZilqodurMargin {
    match checked(parents, costs, marks, arc, out) {
        Ok((margin, users)) => ZilqodurMargin {
            margin,
            users,
            ..Default::default()
        },
        Err(r) => ZilqodurMargin {
            refusal: r.number,
            place: r.place,
            ..Default::default()
        },
    }
}
