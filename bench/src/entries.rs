//! Each entry of the archive beside the same in Rust: answers and lists
//! compared, or the time of a call taken.

use crate::ffi::{ZilqodurEvent, ZilqodurQuote};
use crate::measure::medians;
use crate::networks::Network;
use crate::{best, classes, ffi, jobs, same};
use std::hint::black_box;

#[rustfmt::skip]
pub const ENTRIES: [&str; 20] = [
    "needs", "total", "group search", "by-arc", "level", "job reader", "dead ends", "cap sums",
    "job length", "job writer", "make state", "ask", "commit", "margin", "level, floors",
    "job reader, version 2", "job to version 2", "job to version 1", "one class", "four classes",
];

pub const LEVEL: usize = 4;
pub const MARGIN: usize = 13;
pub const FLOORS: usize = 14;
pub const READER_2: usize = 15;
pub const TO_2: usize = 16;
pub const TO_1: usize = 17;
pub const ONE_CLASS: usize = 18;
pub const FOUR_CLASSES: usize = 19;

/// Microseconds of a call.
#[derive(Clone, Copy)]
pub struct Times {
    pub engine: f64,
    pub same: f64,
    /// The other algorithm of the level split.
    pub best: Option<f64>,
}

impl Times {
    pub fn ratio(&self) -> f64 {
        self.engine / self.same
    }
}

/// The times of all sides.
pub fn times(sides: &[f64]) -> Times {
    Times {
        engine: sides[0],
        same: sides[1],
        best: sides.get(2).copied(),
    }
}

/// A call's answer with the list that it wrote.
pub fn written<E: Clone + From<u8>, T>(length: usize, call: impl Fn(&mut [E]) -> T) -> (T, Vec<E>) {
    let mut out = vec![E::from(7); length];
    (call(&mut out), out)
}

/// Panics where two answers or lists differ.
pub fn compare(n: &Network) {
    let (p, c, m) = (&n.parents[..], &n.costs[..], &n.marks[..]);
    assert_eq!(
        written(p.len(), |out| ffi::list_needs(p, c, m, out)),
        written(p.len(), |out| same::list_needs(p, c, m, out)),
    );
    compare_proposals(n);
    assert_eq!(
        written(n.members, |out| ffi::split_by_arc(p, c, m, out)),
        written(n.members, |out| same::split_by_arc(p, c, m, out)),
    );
    assert_eq!(
        written(p.len(), |out| ffi::mark_dead_ends(p, c, out)),
        written(p.len(), |out| same::mark_dead_ends(p, c, out)),
    );
    assert_eq!(
        written(p.len(), |out| ffi::list_cap_sums(p, c, m, &n.caps, out)),
        written(p.len(), |out| same::list_cap_sums(p, c, m, &n.caps, out)),
    );
    compare_levels(n);
    compare_margins(n);
    classes::compare(n);
    jobs::compare(n);
    compare_states(n);
}

/// The network's proposal, which adds up, and with a unit less and more from each member.
fn compare_proposals(n: &Network) {
    let (p, c, m) = (&n.parents[..], &n.costs[..], &n.marks[..]);
    for more in [-1, 0, 1] {
        let x: Vec<i64> = n.proposal.iter().map(|share| share + more).collect();
        assert_eq!(
            ffi::check_total(p, c, m, &x),
            same::check_total(p, c, m, &x)
        );
        assert_eq!(ffi::find_group(p, c, m, &x), same::find_group(p, c, m, &x));
    }
}

type Split = fn(&[u16], &[u32], &[u16], &[u64], &[u64], &mut [u64]) -> ffi::ZilqodurLevel;

/// No floors, floors that can be kept where the caps can, the caps themselves,
/// and a floor above its cap.
fn compare_levels(n: &Network) {
    let mut above = n.floors.clone();
    above[n.members - 1] = n.caps[n.members - 1] + 1;
    for floors in [&n.no_floors, &n.floors, &n.caps, &above] {
        let side = |split: Split| {
            written(n.members, |out| {
                split(&n.parents, &n.costs, &n.marks, &n.caps, floors, out)
            })
        };
        let level = side(ffi::split_level);
        assert_eq!(level, side(same::split_level));
        assert_eq!(level, side(best::split_level));
    }
}

/// The branch, and numbers that are not those of an arc.
fn compare_margins(n: &Network) {
    let b = &n.branched;
    let (p, c, m) = (&b.parents[..], &n.costs[..], &b.marks[..]);
    for arc in [b.arc, 0, p.len() + 1] {
        assert_eq!(
            written(b.users, |out| ffi::split_margin(p, c, m, arc, out)),
            written(b.users, |out| same::split_margin(p, c, m, arc, out)),
        );
    }
}

/// A new cost, at most half the old one, of the first member's own arc, before
/// any event is committed.
fn cheaper(n: &Network) -> ZilqodurQuote {
    let first = n.marks.iter().position(|&mark| mark == 1);
    let first = first.expect("somebody is a member");
    let event = ZilqodurEvent {
        vertex: first + 1,
        kind: 2,
        amount: n.costs[first] / 2,
    };
    ZilqodurQuote {
        event,
        committed: 0,
    }
}

/// The state, events of each kind at the first member's vertex, and quotes of
/// the state's number and of another.
fn compare_states(n: &Network) {
    let made = ffi::make_state(&n.parents, &n.costs, &n.marks);
    let same = same::make_state(&n.parents, &n.costs, &n.marks);
    assert!(made == same, "the states made differ");
    for kind in 0..3 {
        let mut quote = cheaper(n);
        quote.event.kind = kind;
        let asked = ffi::ask(&made.state, quote.event);
        let same = same::ask(&made.state, quote.event);
        assert!(asked == same, "the quotes differ");
        for committed in [0, 1] {
            quote.committed = committed;
            let next = ffi::commit(&made.state, quote);
            let same = same::commit(&made.state, quote);
            assert!(next == same, "the states after a commit differ");
        }
    }
}

/// Keeps the compiler from leaving out a call whose answer nobody reads.
pub fn used<T>(answer: T) {
    black_box(answer);
}

/// The calls of one entry on a network: the engine's, the same algorithm's and,
/// of the level split, the best one's.
pub type Calls<'a> = Vec<Box<dyn FnMut() + 'a>>;

fn needs(n: &Network) -> Calls<'_> {
    let (p, c, m) = (&n.parents[..], &n.costs[..], &n.marks[..]);
    let (mut a, mut b) = (vec![0; p.len()], vec![0; p.len()]);
    vec![
        Box::new(move || used(ffi::list_needs(black_box(p), c, m, &mut a))),
        Box::new(move || used(same::list_needs(black_box(p), c, m, &mut b))),
    ]
}

fn total(n: &Network) -> Calls<'_> {
    let (p, c, m, x) = (&n.parents[..], &n.costs[..], &n.marks[..], &n.proposal[..]);
    vec![
        Box::new(move || used(ffi::check_total(black_box(p), c, m, x))),
        Box::new(move || used(same::check_total(black_box(p), c, m, x))),
    ]
}

fn search(n: &Network) -> Calls<'_> {
    let (p, c, m, x) = (&n.parents[..], &n.costs[..], &n.marks[..], &n.proposal[..]);
    vec![
        Box::new(move || used(ffi::find_group(black_box(p), c, m, x))),
        Box::new(move || used(same::find_group(black_box(p), c, m, x))),
    ]
}

fn by_arc(n: &Network) -> Calls<'_> {
    let (p, c, m) = (&n.parents[..], &n.costs[..], &n.marks[..]);
    let (mut a, mut b) = (vec![0; n.members], vec![0; n.members]);
    vec![
        Box::new(move || used(ffi::split_by_arc(black_box(p), c, m, &mut a))),
        Box::new(move || used(same::split_by_arc(black_box(p), c, m, &mut b))),
    ]
}

fn level_with<'a>(n: &'a Network, floors: &'a [u64]) -> Calls<'a> {
    let side = |split: Split| -> Box<dyn FnMut() + 'a> {
        let mut out = vec![0; n.members];
        Box::new(move || {
            let parents = black_box(&n.parents[..]);
            used(split(
                parents, &n.costs, &n.marks, &n.caps, floors, &mut out,
            ))
        })
    };
    let sides: [Split; 3] = [ffi::split_level, same::split_level, best::split_level];
    sides.map(side).into()
}

fn level(n: &Network) -> Calls<'_> {
    level_with(n, &n.no_floors)
}

fn level_floors(n: &Network) -> Calls<'_> {
    level_with(n, &n.floors)
}

fn dead_ends(n: &Network) -> Calls<'_> {
    let (p, c) = (&n.parents[..], &n.costs[..]);
    let (mut a, mut b) = (vec![0; p.len()], vec![0; p.len()]);
    vec![
        Box::new(move || used(ffi::mark_dead_ends(black_box(p), c, &mut a))),
        Box::new(move || used(same::mark_dead_ends(black_box(p), c, &mut b))),
    ]
}

fn cap_sums(n: &Network) -> Calls<'_> {
    let (p, c, m, caps) = (&n.parents[..], &n.costs[..], &n.marks[..], &n.caps[..]);
    let (mut a, mut b) = (vec![0; p.len()], vec![0; p.len()]);
    vec![
        Box::new(move || used(ffi::list_cap_sums(black_box(p), c, m, caps, &mut a))),
        Box::new(move || used(same::list_cap_sums(black_box(p), c, m, caps, &mut b))),
    ]
}

fn make_state(n: &Network) -> Calls<'_> {
    let (p, c, m) = (&n.parents[..], &n.costs[..], &n.marks[..]);
    vec![
        Box::new(move || used(ffi::make_state(black_box(p), c, m))),
        Box::new(move || used(same::make_state(black_box(p), c, m))),
    ]
}

fn ask(n: &Network) -> Calls<'_> {
    let state = ffi::make_state(&n.parents, &n.costs, &n.marks).state;
    let event = cheaper(n).event;
    vec![
        Box::new(move || used(ffi::ask(black_box(&state), event))),
        Box::new(move || used(same::ask(black_box(&state), event))),
    ]
}

fn commit(n: &Network) -> Calls<'_> {
    let state = ffi::make_state(&n.parents, &n.costs, &n.marks).state;
    let quote = cheaper(n);
    vec![
        Box::new(move || used(ffi::commit(black_box(&state), quote))),
        Box::new(move || used(same::commit(black_box(&state), quote))),
    ]
}

fn margin(n: &Network) -> Calls<'_> {
    let b = &n.branched;
    let (p, c, m) = (&b.parents[..], &n.costs[..], &b.marks[..]);
    let (mut x, mut y) = (vec![0; b.users], vec![0; b.users]);
    vec![
        Box::new(move || used(ffi::split_margin(black_box(p), c, m, b.arc, &mut x))),
        Box::new(move || used(same::split_margin(black_box(p), c, m, b.arc, &mut y))),
    ]
}

/// The calls of each entry, in the order of their names.
#[rustfmt::skip]
const CALLS: [fn(&Network) -> Calls<'_>; 20] = [
    needs, total, search, by_arc, level, jobs::reader, dead_ends, cap_sums, jobs::length,
    jobs::writer, make_state, ask, commit, margin, level_floors, jobs::reader2, jobs::to_2,
    jobs::to_1, classes::one, classes::four,
];

/// The times of one entry on each of the networks.
pub fn measure(entry: usize, networks: &[Network]) -> Vec<Times> {
    let mut calls: Calls = networks.iter().flat_map(CALLS[entry]).collect();
    let medians = medians(&mut calls);
    let sides = medians.len() / networks.len();
    medians.chunks(sides).map(times).collect()
}
