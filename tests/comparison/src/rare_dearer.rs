//! The cases of a dearer arc that a run of all rounds is to meet.

use crate::compare_dearer::rises;
use crate::rare::note;
use crate::reference::{Tree, COST};
use crate::tally::Tally;

const NOTHING: &str = "a dearer arc, by 0";
const LIMIT: &str = "a dearer arc, up to the limit";
const UNUSED: &str = "a dearer arc without users";
const OTHERS: &str = "a dearer arc, and a share rises whose member does not use it";
const BRANCHES: &str = "a dearer arc, and such a share rises, in one of several branches";
const ALL: &str = "a dearer arc with several users, and one share takes all of it";
const FULL: &str = "a dearer arc, and one of its users is at its cap before";
const FLOORS: &str = "a dearer arc, and a share at its floor before rises";

#[rustfmt::skip]
const NAMED: [&str; 8] = [NOTHING, LIMIT, UNUSED, OTHERS, BRANCHES, ALL, FULL, FLOORS];

/// Notes what is rare about the lists before and after an arc becomes dearer,
/// under these caps and floors.
pub fn note_rises(
    tally: &mut Tally,
    tree: &Tree,
    (arc, rise): (usize, u64),
    lists: &[Vec<u64>; 2],
    [caps, floors]: [&[u64]; 2],
) {
    let Some(rises) = rises(lists) else {
        return;
    };
    let (users, before) = (&tree.users[arc], &lists[0]);
    let risen = || (0..rises.len()).filter(|&j| rises[j] > 0);
    let from_source = (1..=tree.arcs()).filter(|&a| tree.parent[a] == 0);
    let branches = from_source.filter(|&a| !tree.users[a].is_empty());
    let at_limit = tree.cost[arc] + rise == u64::from(COST);
    let at_floor = |j: usize| floors[j] > 0 && before[j] == floors[j];
    let full = users.iter().any(|&j| before[j] == caps[j]);
    let all = users.len() > 1 && rises.contains(&rise);
    let others = risen().any(|j| !users.contains(&j));
    note(tally, NOTHING, rise == 0);
    note(tally, LIMIT, rise > 0 && at_limit);
    note(tally, UNUSED, rise > 0 && users.is_empty());
    note(tally, OTHERS, others);
    note(tally, ALL, rise > 0 && all);
    note(tally, FULL, rise > 0 && full);
    note(tally, FLOORS, risen().any(at_floor));
    note(tally, BRANCHES, others && branches.count() > 1);
}

/// All that is to be met.
pub fn wanted() -> impl Iterator<Item = String> {
    NAMED.map(String::from).into_iter()
}
