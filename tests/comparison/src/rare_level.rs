//! The cases of the level split that a run of all rounds is to meet: refusals
//! that stand at once, and floors of every effect.

use crate::level;
use crate::rare::{note, TREE};
use crate::reference::{check_caps, Refusal, Tree, AMOUNT};
use crate::tally::Tally;

/// The refusals in their order up to those of the arcs, each with what is at
/// fault. Any two neighbours are to be the first two faults.
#[rustfmt::skip]
const LISTS: [(&str, u32); 6] = [
    ("caps", 6), ("caps", 7), ("floors", 6), ("floors", 7), ("floors", 27), ("output", 8),
];

/// The same of the arcs, with what may come before.
#[rustfmt::skip]
const OF_ARCS: [((&str, u32), u32); 6] = [
    (("output", 8), 9), (("output", 8), 28), (("arc", 9), 9), (("arc", 9), 28),
    (("arc", 28), 9), (("arc", 28), 28),
];

const CHANGED: &str = "floors that change the shares";
const CHANGED_SPARE: &str = "floors that change the shares, with an arc without users";
const CHANGED_WIDE: &str = "floors that change a share beyond 32 bits";
const UNCHANGED: &str = "floors above 0 that change no share";
const EQUAL: &str = "floors above 0 that are the caps, and a split";
const INNER: &str = "an adjusted need above the need away from the source, and a split";
const OWN: &str = "28 on a member's own arc";
const SHARED: &str = "28 on an arc with several users";
const GREATEST: &str = "28 with a floor at its limit";
const SHORT: &str = "9 on an arc one of whose users has a floor above 0";
const LAST: &str = "27 on a member after the first";

#[rustfmt::skip]
const NAMED: [&str; 11] = [
    CHANGED, CHANGED_SPARE, CHANGED_WIDE, UNCHANGED, EQUAL, INNER, OWN, SHARED, GREATEST, SHORT,
    LAST,
];

fn meeting(first: (&str, u32), second: (&str, u32)) -> String {
    format!("{first:?} before {second:?} of a level split")
}

/// Notes a tree's refusal on caps or floors outside their range.
pub fn note_refused(tally: &mut Tally, of_tree: Refusal, caps: &[u64], floors: &[u64]) {
    for (name, list) in [("caps", caps), ("floors", floors)] {
        let meeting = meeting(("tree", of_tree.number), (name, 7));
        note(tally, &meeting, check_caps(list.len(), list).is_err());
    }
}

/// Notes the first two faults on an accepted tree, and what is rare about the
/// first of them or about the split.
pub fn note_call(tally: &mut Tally, tree: &Tree, caps: &[u64], floors: &[u64], length: usize) {
    let faults = level::faults(tree, caps, floors, length);
    if let [(a_of, a), (b_of, b), ..] = faults[..] {
        let meeting = meeting((a_of, a.number), (b_of, b.number));
        tally.met.insert(meeting);
    }
    match faults.first() {
        None => note_split(tally, tree, caps, floors),
        Some(&(_, fault)) => note_fault(tally, tree, floors, fault),
    }
}

fn note_fault(tally: &mut Tally, tree: &Tree, floors: &[u64], fault: Refusal) {
    let users = |arc: usize| tree.users[arc].iter();
    match fault.number {
        9 => note(tally, SHORT, users(fault.place).any(|&j| floors[j] > 0)),
        27 => note(tally, LAST, fault.place > 0),
        28 => {
            note(tally, OWN, tree.members.contains(&fault.place));
            note(tally, SHARED, users(fault.place).len() > 1);
            note(tally, GREATEST, floors.contains(&AMOUNT));
        }
        _ => (),
    }
}

fn note_split(tally: &mut Tally, tree: &Tree, caps: &[u64], floors: &[u64]) {
    if floors.iter().all(|&floor| floor == 0) {
        return;
    }
    let (needs, adjusted) = (tree.needs(), level::adjusted(tree, floors));
    let inner = (1..=tree.arcs()).any(|arc| adjusted[arc] > needs[arc - 1]);
    let shares = level::shares(tree, caps, floors);
    let plain = level::shares(tree, caps, &vec![0; caps.len()]);
    let changed = shares != plain;
    let spare = tree.used().count() < tree.arcs();
    let wide = (shares.iter().zip(&plain)).any(|(a, b)| a != b && *a > u64::from(u32::MAX));
    note(tally, CHANGED, changed);
    note(tally, CHANGED_SPARE, changed && spare);
    note(tally, CHANGED_WIDE, wide);
    note(tally, UNCHANGED, !changed);
    note(tally, EQUAL, floors == caps);
    note(tally, INNER, inner);
}

/// All that is to be met.
pub fn wanted() -> impl Iterator<Item = String> {
    let lists = LISTS.windows(2).map(|pair| meeting(pair[0], pair[1]));
    let arcs = OF_ARCS.map(|(first, number)| meeting(first, ("arc", number)));
    let before = |name| TREE.map(|number| meeting(("tree", number), (name, 7)));
    let trees = ["caps", "floors"].into_iter().flat_map(before);
    let named = NAMED.map(String::from);
    lists.chain(arcs).chain(trees).chain(named)
}
