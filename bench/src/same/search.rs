//! The group search: each arc's excess from below, then the active members from
//! above.

use super::{check_tree, count_members, write_counted, VERTICES};
use crate::ffi::ZilqodurSearch;
use crate::reference::{check_proposal, Answer, ARCS};

/// By vertex: what the positive shares of the arc's users exceed its cost by,
/// after the arcs below it.
struct Excesses {
    total: u64,
    of: [u64; VERTICES],
}

fn find_excesses(parents: &[u16], costs: &[u32], marks: &[u16], proposal: &[i64]) -> Excesses {
    let mut found = Excesses {
        total: 0,
        of: [0; VERTICES],
    };
    let mut below = [0; VERTICES];
    let mut j = proposal.len();
    for k in (1..=parents.len()).rev() {
        let mut amount = below[k];
        if marks[k - 1] == 1 {
            j -= 1;
            amount += proposal[j].max(0) as u64;
        }
        found.of[k] = amount.saturating_sub(u64::from(costs[k - 1]));
        below[usize::from(parents[k - 1])] += found.of[k];
    }
    found.total = below[0];
    found
}

/// The members with an excess at their own arc and at every arc above it.
fn name_group(parents: &[u16], marks: &[u16], found: &Excesses) -> [u64; 16] {
    let mut active = [false; VERTICES];
    active[0] = true;
    let mut words = [0; 16];
    let mut j = 0;
    for k in 1..=parents.len() {
        active[k] = found.of[k] > 0 && active[usize::from(parents[k - 1])];
        if active[k] && marks[k - 1] == 1 {
            words[j / 64] |= 1 << (j % 64);
        }
        j += usize::from(marks[k - 1] == 1);
    }
    words
}

fn search(
    parents: &[u16],
    costs: &[u32],
    marks: &[u16],
    proposal: &[i64],
) -> Answer<ZilqodurSearch> {
    check_tree(parents, costs, marks)?;
    check_proposal(count_members(marks), proposal)?;
    let mut counted = [0; ARCS];
    let counted = &mut counted[..parents.len()];
    write_counted(parents, costs, marks, counted);
    let mut answer = ZilqodurSearch {
        verdict: 1,
        ..Default::default()
    };
    let found = find_excesses(parents, counted, marks, proposal);
    let group = name_group(parents, marks, &found);
    if found.total > 0 {
        answer.verdict = 2;
        answer.amount = found.total;
        answer.size = group.iter().map(|word| word.count_ones() as usize).sum();
        answer.group = group;
    }
    Ok(answer)
}

#[inline(never)]
pub fn find_group(
    parents: &[u16],
    costs: &[u32],
    marks: &[u16],
    proposal: &[i64],
) -> ZilqodurSearch {
    search(parents, costs, marks, proposal).unwrap_or_else(|r| ZilqodurSearch {
        refusal: r.number,
        place: r.place,
        ..Default::default()
    })
}
