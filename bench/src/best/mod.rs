//! The level split by merging, the fastest way known to us. Let a user's steps
//! be (share, number) for each share below its cap: units go to the steps in
//! rising order. The users of an arc are held in groups. A group has a key,
//! level * 1024 + mark: its users have taken exactly the steps below
//! (level, mark). What an arc gives out raises the group of the least key until
//! it meets the next one, and they merge, or until a user reaches its cap, and
//! leaves. There are fewer than twice as many such events as members. A group's
//! users are bits of sixteen words, so that those below a mark are counted by
//! words.

mod groups;
mod heap;

use crate::ffi::ZilqodurLevel;
use crate::reference::{check_output, refuse, Answer, Refusal};
use crate::same;
use groups::Groups;

fn short<T>(place: usize, shortfall: u64) -> Answer<T> {
    Err(Refusal {
        number: 9,
        place,
        shortfall,
    })
}

/// The arcs from the last down; 9 and 28. What a floor makes users pay ahead of
/// the costs, the arcs above give out less.
fn pour_all(
    parents: &[u16],
    costs: &[u32],
    marks: &[u16],
    floors: &[u64],
    groups: &mut Groups,
) -> Answer<()> {
    // By vertex: the heap of its users' groups, whether there is a user, and what
    // they have paid ahead.
    let (mut heaps, mut used) = ([0; same::VERTICES], [false; same::VERTICES]);
    let mut ahead = vec![0; parents.len() + 1];
    let mut j = floors.len();
    for k in (1..=parents.len()).rev() {
        let (cost, mut floor) = (u64::from(costs[k - 1]), 0);
        if marks[k - 1] == 1 {
            j -= 1;
            floor = floors[j];
            heaps[k] = groups.alone(j);
            used[k] = true;
        }
        if !used[k] {
            continue;
        }
        let (heap, left) = groups.pour(heaps[k], floor.max(cost.saturating_sub(ahead[k])));
        if left > 0 {
            return short(k, left);
        }
        let more = floor.max(ahead[k]).saturating_sub(cost);
        let parent = usize::from(parents[k - 1]);
        if parent > 0 {
            used[parent] = true;
            ahead[parent] += more;
            heaps[parent] = groups.join(heaps[parent], heap);
        } else if more > 0 {
            return refuse(28, k);
        }
    }
    Ok(())
}

fn checked(
    parents: &[u16],
    costs: &[u32],
    marks: &[u16],
    caps: &[u64],
    floors: &[u64],
    out: &mut [u64],
) -> Answer<usize> {
    same::check_tree(parents, costs, marks)?;
    let members = same::count_members(marks);
    same::check_limits(members, caps, floors)?;
    check_output(out.len(), members)?;
    let mut groups = Groups::new(caps);
    pour_all(parents, costs, marks, floors, &mut groups)?;
    groups.write_shares(caps, out);
    Ok(members)
}

#[inline(never)]
pub fn split_level(
    parents: &[u16],
    costs: &[u32],
    marks: &[u16],
    caps: &[u64],
    floors: &[u64],
    out: &mut [u64],
) -> ZilqodurLevel {
    same::level_answer(checked(parents, costs, marks, caps, floors, out))
}
