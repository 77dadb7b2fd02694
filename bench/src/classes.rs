//! The split of cost classes beside the same in Rust.

use crate::entries::{used, written, Calls};
use crate::ffi::{self, ZilqodurClassSplit};
use crate::networks::Network;
use crate::same::{self, CLASSES};
use std::hint::black_box;

type Split = fn(&[u16], &[u32], &[u16], usize, &mut [u64]) -> ZilqodurClassSplit;

/// The costs in one class and in four, lists that are too long for the number of
/// classes or too short, numbers that are refused, and a sum beyond 32 bits.
pub fn compare(n: &Network) {
    let mut dear = n.classed.clone();
    dear[0] = u32::MAX;
    for (classes, costs) in [
        (1, &n.costs),
        (CLASSES, &n.classed),
        (1, &n.classed),
        (CLASSES, &n.costs),
        (0, &n.costs),
        (CLASSES + 1, &n.classed),
        (CLASSES, &dear),
    ] {
        for length in [n.members * classes, n.members * classes + 1] {
            let side = |split: Split| {
                written(length, |out| {
                    split(&n.parents, costs, &n.marks, classes, out)
                })
            };
            assert_eq!(side(ffi::split_classes), side(same::split_classes));
        }
    }
}

fn calls<'a>(n: &'a Network, costs: &'a [u32], classes: usize) -> Calls<'a> {
    let side = |split: Split| -> Box<dyn FnMut() + 'a> {
        let mut out = vec![0; n.members * classes];
        Box::new(move || {
            let parents = black_box(&n.parents[..]);
            used(split(parents, costs, &n.marks, classes, &mut out))
        })
    };
    let sides: [Split; 2] = [ffi::split_classes, same::split_classes];
    sides.map(side).into()
}

pub fn one(n: &Network) -> Calls<'_> {
    calls(n, &n.costs, 1)
}

pub fn four(n: &Network) -> Calls<'_> {
    calls(n, &n.classed, CLASSES)
}
