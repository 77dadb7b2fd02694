//! The step compared with the reference, on all parent lists of a few arcs and on
//! lists of every kind; and both against the definitions.

use crate::brute;
use crate::ffi::{self, ZilqodurStep};
use crate::lent::Lent;
use crate::rare_step;
use crate::reference::Answer;
use crate::rng::Rng;
use crate::step::{self, SMALL};
use crate::tally::Tally;

/// The number of lists of every kind.
const LISTS: u64 = 30_000;

/// The most entries of such a list.
const MOST: usize = 9;

fn expected(answer: &Answer<Option<Vec<u16>>>) -> ZilqodurStep {
    let mut step = ZilqodurStep::default();
    match answer {
        Ok(Some(_)) => step.verdict = 1,
        Ok(None) => step.verdict = 2,
        Err(r) => (step.refusal, step.place) = (r.number, r.place),
    }
    step
}

pub fn next_parents(tally: &mut Tally, parents: &[u16]) {
    let answer = step::next_parents(parents);
    let mut lent = Lent::new(parents);
    let given = ffi::next_parents(lent.list_mut());
    let expected = expected(&answer);
    rare_step::note_step(tally, parents, &answer);
    let next = answer.ok().flatten();
    let lists = lent.holds(next.as_deref().unwrap_or(parents));
    tally.case("next_parents", expected.refusal, [given, expected], lists);
}

/// The lists that the archive steps through from all zeros, at most so many.
fn walk(arcs: usize, most: usize) -> Vec<Vec<u16>> {
    let mut list = vec![0; arcs];
    let mut walked = vec![list.clone()];
    while walked.len() < most && ffi::next_parents(&mut list).verdict == 1 {
        walked.push(list.clone());
    }
    walked
}

/// All parent lists of 1 to 6 arcs, and the steps through them.
pub fn all_lists(tally: &mut Tally) {
    let mut number = 1;
    for arcs in 1..=SMALL {
        number *= arcs;
        let lists = brute::parent_lists(arcs);
        let walked = walk(arcs, number + 1);
        let mut case = |name, agree| tally.case(name, 0, [agree, true], true);
        case("number of parent lists", lists.len() == number);
        case("steps through all parent lists", walked == lists);
        for shape in brute::shapes(arcs) {
            case("shapes among the parent lists", walked.contains(&shape));
        }
        for (i, list) in lists.iter().enumerate() {
            let next = step::next_parents(list);
            case(
                "definition of the step",
                next == Ok(lists.get(i + 1).cloned()),
            );
        }
        lists.iter().for_each(|list| next_parents(tally, list));
    }
}

/// An entry that is accepted, most often the least or one of the greatest.
fn entry(rng: &mut Rng, arc: usize) -> u16 {
    let entry = match rng.below(6) {
        0 => 0,
        1 => arc.saturating_sub(2),
        2 | 3 => arc - 1,
        _ => rng.below(arc),
    };
    entry as u16
}

/// A list of any length up to the most, with no entry changed to one of any size,
/// or some few.
fn list(rng: &mut Rng) -> Vec<u16> {
    let length = rng.below(MOST + 1);
    let mut list: Vec<u16> = (1..=length).map(|arc| entry(rng, arc)).collect();
    for _ in 0..rng.pick(&[0, 0, 1, 2]).min(length) {
        let i = rng.below(length);
        let any = rng.next() as u16;
        let arc = i as u16 + 1;
        list[i] = rng.pick(&[arc, arc, arc + 1, 255, 256, u16::MAX, any]);
    }
    list
}

/// Lists of every kind.
pub fn round(tally: &mut Tally, percent: u64) {
    for round in 0..(LISTS * percent).div_ceil(100) {
        tally.seed = 0x6000_0000 + round;
        next_parents(tally, &list(&mut Rng::new(tally.seed)));
    }
}
