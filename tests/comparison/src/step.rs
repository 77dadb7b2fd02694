//! The step from one parent list of a few arcs to the next, by the places of the
//! lists in their order.

use crate::reference::{refusal, Answer, Refusal};

/// The most arcs of a list that is stepped from.
pub const SMALL: usize = 6;

/// What is at fault, in the order of the refusals.
pub fn faults(parents: &[u16]) -> Vec<Refusal> {
    let outside = !(1..=SMALL).contains(&parents.len());
    let count = outside.then(|| refusal(31, 0));
    let arcs = (1..).zip(parents);
    let above = arcs.filter(|&(arc, &parent)| usize::from(parent) >= arc);
    let above = above.map(|(arc, _)| refusal(3, arc));
    count.into_iter().chain(above).collect()
}

/// The place of a list among all of as many arcs, from 0 on: the entry of arc k is
/// a digit of base k.
fn place(parents: &[u16]) -> usize {
    let arcs = (1..).zip(parents);
    arcs.fold(0, |place, (arc, &parent)| place * arc + usize::from(parent))
}

/// The list at a place; none where there are not so many.
fn list_at(arcs: usize, mut place: usize) -> Option<Vec<u16>> {
    let mut list = vec![0; arcs];
    for arc in (1..=arcs).rev() {
        list[arc - 1] = (place % arc) as u16;
        place /= arc;
    }
    (place == 0).then_some(list)
}

/// The next list; none where this is the last.
pub fn next_parents(parents: &[u16]) -> Answer<Option<Vec<u16>>> {
    match faults(parents).first() {
        Some(&fault) => Err(fault),
        None => Ok(list_at(parents.len(), place(parents) + 1)),
    }
}
