//! The cases of the step that a run of all rounds is to meet: every arc that is
//! raised or refused, every end, and refusals that stand at once.

use crate::rare::note;
use crate::reference::Answer;
use crate::step::{self, SMALL};
use crate::tally::Tally;

/// The first two faults of a list.
const MEETINGS: [(u32, u32); 2] = [(31, 3), (3, 3)];

/// Lengths that are refused.
const OUTSIDE: [usize; 4] = [0, 7, 8, 9];

const OWN: &str = "3 on an arc's own number";
const GREATEST: &str = "3 on the greatest number";

fn meeting(first: u32, second: u32) -> String {
    format!("{first} before {second} in a list to step from")
}

fn outside(length: usize) -> String {
    format!("31 on {length} entries")
}

fn refused(arc: usize, arcs: usize) -> String {
    format!("3 at arc {arc} of {arcs} in a list to step from")
}

fn raised(arc: usize, arcs: usize) -> String {
    format!("a step that raises arc {arc} of {arcs}")
}

fn ended(arcs: usize) -> String {
    format!("the end of {arcs} arcs")
}

/// Notes the first two faults of a list, or what a step from it does.
pub fn note_step(tally: &mut Tally, list: &[u16], answer: &Answer<Option<Vec<u16>>>) {
    let arcs = list.len();
    if let [a, b, ..] = step::faults(list)[..] {
        tally.met.insert(meeting(a.number, b.number));
    }
    match answer {
        Ok(None) => note(tally, &ended(arcs), true),
        Ok(Some(next)) => {
            let arc = (1..).zip(list.iter().zip(next)).find(|(_, (a, b))| a < b);
            note(tally, &raised(arc.map_or(0, |(arc, _)| arc), arcs), true);
        }
        Err(r) if r.number == 31 => note(tally, &outside(arcs), true),
        Err(r) => {
            let entry = list[r.place - 1];
            note(tally, &refused(r.place, arcs), true);
            note(tally, OWN, usize::from(entry) == r.place);
            note(tally, GREATEST, entry == u16::MAX);
        }
    }
}

/// All that is to be met. Arc 1 has one entry, which no step raises.
pub fn wanted() -> impl Iterator<Item = String> {
    let of = |arcs| (1..=arcs).map(move |arc| (arc, arcs));
    let places = (1..=SMALL).flat_map(of);
    let above = places.clone().filter(|&(arc, _)| arc > 1);
    let steps = above.map(|(arc, arcs)| raised(arc, arcs));
    let faults = places.map(|(arc, arcs)| refused(arc, arcs));
    let meetings = MEETINGS.map(|(a, b)| meeting(a, b));
    let named = [OWN, GREATEST].map(String::from);
    let rest = meetings.into_iter().chain(OUTSIDE.map(outside));
    let rest = rest.chain((1..=SMALL).map(ended)).chain(named);
    steps.chain(faults).chain(rest)
}
