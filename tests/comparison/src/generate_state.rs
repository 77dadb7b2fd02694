//! Pseudo-random events and numbers of events, and states that no function made.

use crate::compare::Network;
use crate::ffi::ZilqodurEvent;
use crate::reference::{dead_ends, ARCS, COST};
use crate::rng::Rng;
use crate::state::{State, EVENTS};

/// A vertex whose entry is the wanted one, or any where there is none.
fn vertex_with<T: PartialEq>(rng: &mut Rng, list: &[T], wanted: T) -> usize {
    let fits: Vec<usize> = (0..list.len()).filter(|&i| list[i] == wanted).collect();
    match fits.len() {
        0 => 1 + rng.below(list.len().max(1)),
        count => 1 + fits[rng.below(count)],
    }
}

/// By vertex, from vertex 1 on: whether it is a dead end without a member.
fn spare(parents: &[u16], marks: &[u16]) -> Vec<bool> {
    let ends = dead_ends(parents).into_iter().zip(marks);
    ends.map(|(end, &mark)| end == 1 && mark == 0).collect()
}

/// A cost, now and then above the limit.
fn amount(rng: &mut Rng) -> u32 {
    match rng.below(8) {
        0 => COST,
        1 => rng.pick(&[COST + 1, u32::MAX, 1 << 31]),
        2 | 3 => rng.up_to(u64::from(COST)) as u32,
        4 => rng.up_to(1) as u32,
        _ => rng.up_to(20) as u32,
    }
}

/// An event of any kind, most often one that is carried out.
pub fn event(rng: &mut Rng, state: &State) -> ZilqodurEvent {
    let arcs = state.arcs.min(ARCS);
    let (parents, marks) = (&state.parents[..arcs], &state.marks[..arcs]);
    let other = rng.pick(&[2, 3, 256, 257, 65_536, 65_537, 1 << 31, u32::MAX]);
    let kind = rng.pick(&[0, 0, 1, 1, other]);
    let any = 1 + rng.below(arcs.max(1));
    let vertex = match kind {
        _ if rng.one_in(6) => any,
        0 => vertex_with(rng, &spare(parents, marks), true),
        1 => vertex_with(rng, marks, 1),
        _ => any,
    };
    let past = state.arcs.saturating_add(1);
    let outside = [0, past, ARCS, ARCS + 1, vertex + 65_536, usize::MAX];
    ZilqodurEvent {
        vertex: if rng.one_in(10) {
            rng.pick(&outside)
        } else {
            vertex
        },
        kind,
        amount: amount(rng),
    }
}

/// A number of events committed, most often one at which more may be.
pub fn number(rng: &mut Rng) -> u32 {
    match rng.below(8) {
        0 => rng.pick(&[EVENTS, EVENTS + 1, 1 << 24, u32::MAX]),
        1 => EVENTS - 1 - rng.up_to(3) as u32,
        2 => rng.up_to(u64::from(EVENTS)) as u32,
        _ => rng.up_to(1) as u32,
    }
}

/// A number below or above the given one.
pub fn other_number(rng: &mut Rng, number: u32) -> u32 {
    let more = [1, 2, 256, 65_536, 1 << 31, u32::MAX - 1, u32::MAX];
    number.wrapping_add(rng.pick(&more))
}

/// The list up to the most arcs, with anything past its end.
fn filled<T: Copy>(rng: &mut Rng, list: &[T], entry: impl Fn(u64) -> T) -> Vec<T> {
    let mut list = list[..list.len().min(ARCS)].to_vec();
    list.resize_with(ARCS, || entry(rng.next()));
    list
}

/// A state whose lists begin with those of the network, accepted or not. Past
/// their ends stands anything, or else what a tree may have; in the shares
/// anything.
pub fn raw(rng: &mut Rng, network: &Network) -> State {
    let [parent, cost, mark] = rng.pick(&[[1 << 16, 1 << 32, 1 << 16], [20, 9, 2]]);
    State {
        arcs: network.parents.len(),
        parents: filled(rng, &network.parents, |n| (n % parent) as u16),
        costs: filled(rng, &network.costs, |n| (n % cost) as u32),
        marks: filled(rng, &network.marks, |n| (n % mark) as u16),
        shares: filled(rng, &[], |n| n),
        committed: number(rng),
    }
}

/// Another number of arcs: one more or less, at the limit, past it.
pub fn other_arcs(rng: &mut Rng, arcs: usize) -> usize {
    let near = [arcs.saturating_sub(1), arcs + 1, arcs + 65_536];
    let limits = [0, 1, ARCS, ARCS + 1, 1 << 32, usize::MAX];
    if rng.one_in(2) {
        rng.pick(&near)
    } else {
        rng.pick(&limits)
    }
}
