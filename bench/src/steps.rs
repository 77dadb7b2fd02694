//! The steps through all parent lists of a few arcs beside the same in Rust.

use crate::entries::{times, Calls, Times};
use crate::ffi::{self, ZilqodurStep};
use crate::measure::medians;
use crate::same::{self, SMALL};
use std::hint::black_box;

/// The verdict where the next list is written.
const NEXT: u32 = 1;

type Step = fn(&mut [u16]) -> ZilqodurStep;

/// All parent lists of so many arcs.
pub struct Walk {
    pub arcs: usize,
    /// How many there are, and so how many calls are made.
    pub lists: usize,
    /// The time of all calls.
    pub times: Times,
}

/// One step on two equal lists. Panics where the answers or the lists differ
/// afterwards.
fn step_both(a: &mut [u16], b: &mut [u16]) -> ZilqodurStep {
    let step = ffi::next_parents(a);
    assert_eq!(step, same::next_parents(b));
    assert_eq!(a, b);
    step
}

/// Panics where two answers or lists differ: on all lists, on lists that have too
/// few or too many arcs, and on lists with a fault at each of their arcs.
pub fn compare() {
    for arcs in 0..=SMALL + 1 {
        let (mut a, mut b) = (vec![0; arcs], vec![0; arcs]);
        while step_both(&mut a, &mut b).verdict == NEXT {}
        for arc in 1..=arcs {
            let mut list = vec![0; arcs];
            list[arc - 1] = arc as u16;
            step_both(&mut list.clone(), &mut list);
        }
    }
}

/// The steps from all zeros up to the end.
fn calls(arcs: usize) -> Calls<'static> {
    let side = |step: Step| -> Box<dyn FnMut()> {
        let mut list = vec![0; arcs];
        Box::new(move || {
            list.fill(0);
            while step(black_box(&mut list)).verdict == NEXT {}
        })
    };
    let sides: [Step; 2] = [ffi::next_parents, same::next_parents];
    sides.map(side).into()
}

pub fn measure() -> Vec<Walk> {
    eprintln!("all parent lists");
    compare();
    let mut calls: Calls = (1..=SMALL).flat_map(calls).collect();
    let medians = medians(&mut calls);
    let walk = |(arcs, sides)| Walk {
        arcs,
        lists: (1..=arcs).product(),
        times: times(sides),
    };
    (1..).zip(medians.chunks(2)).map(walk).collect()
}
