//! States, events and quotes: the tree's check, then the by-arc split, which
//! makes it again, and the lists copied into a state.

use super::{by_arc, check_tree, count_members};
use crate::ffi::{ZilqodurEvent, ZilqodurQuote, ZilqodurQuoteAnswer};
use crate::ffi::{ZilqodurState, ZilqodurStateAnswer};
use crate::reference::{refuse, Answer, ARCS};

/// At this number of events committed no quote is carried out.
const EVENTS: u32 = 1_000_000;

const NO_STATE: ZilqodurState = ZilqodurState {
    arcs: 0,
    parents: [0; ARCS],
    costs: [0; ARCS],
    marks: [0; ARCS],
    shares: [0; ARCS],
    committed: 0,
};

fn padded<T: Copy + Default>(list: &[T]) -> [T; ARCS] {
    let mut padded = [T::default(); ARCS];
    for i in 0..list.len() {
        padded[i] = list[i];
    }
    padded
}

type Found = (Answer<usize>, ZilqodurState);

/// The tree has this number of members, and the state so many events committed.
fn split_into_state(
    parents: &[u16],
    costs: &[u32],
    marks: &[u16],
    members: usize,
    committed: u32,
) -> Found {
    let mut shares = [0; ARCS];
    let found = by_arc::checked(parents, costs, marks, &mut shares[..members]);
    let state = match found {
        Ok(_) => ZilqodurState {
            arcs: parents.len(),
            parents: padded(parents),
            costs: padded(costs),
            marks: padded(marks),
            shares,
            committed,
        },
        Err(_) => NO_STATE,
    };
    (found, state)
}

fn make(parents: &[u16], costs: &[u32], marks: &[u16]) -> Found {
    match check_tree(parents, costs, marks) {
        Ok(()) => split_into_state(parents, costs, marks, count_members(marks), 0),
        Err(fault) => (Err(fault), NO_STATE),
    }
}

/// 21, then 22.
fn check_event(marks: &[u16], event: ZilqodurEvent) -> Answer<()> {
    let vertex = event.vertex;
    if vertex == 0 || vertex > marks.len() {
        return refuse(21, vertex);
    }
    match (event.kind, marks[vertex - 1]) {
        (0, 1) | (1, 0) => refuse(22, vertex),
        _ => Ok(()),
    }
}

/// The number of members, where the state's tree is accepted and the event fits.
fn check(state: &ZilqodurState, event: ZilqodurEvent) -> Answer<usize> {
    let m = state.arcs;
    if m > ARCS {
        return refuse(1, 0);
    }
    let marks = &state.marks[..m];
    check_tree(&state.parents[..m], &state.costs[..m], marks)?;
    check_event(marks, event)?;
    Ok(count_members(marks))
}

/// The number of members after the event, which is made in the state.
fn change(state: &mut ZilqodurState, event: ZilqodurEvent, members: usize) -> usize {
    let i = event.vertex - 1;
    match event.kind {
        0 => {
            state.marks[i] = 1;
            members + 1
        }
        1 => {
            state.marks[i] = 0;
            members - 1
        }
        _ => {
            state.costs[i] = event.amount;
            members
        }
    }
}

/// The state made of the tree reached, with so many events committed.
fn apply(state: ZilqodurState, event: ZilqodurEvent, committed: u32) -> Found {
    let members = match check(&state, event) {
        Ok(members) => members,
        Err(fault) => return (Err(fault), state),
    };
    let mut next = state;
    let members = change(&mut next, event, members);
    let m = next.arcs;
    let (parents, costs, marks) = (&next.parents[..m], &next.costs[..m], &next.marks[..m]);
    let (found, made) = split_into_state(parents, costs, marks, members, committed);
    (found, if found.is_ok() { made } else { state })
}

fn answer((found, state): Found) -> ZilqodurStateAnswer {
    let answer = super::answer(found);
    ZilqodurStateAnswer {
        refusal: answer.refusal,
        place: answer.place,
        members: answer.members,
        state,
    }
}

#[inline(never)]
pub fn make_state(parents: &[u16], costs: &[u32], marks: &[u16]) -> ZilqodurStateAnswer {
    answer(make(parents, costs, marks))
}

/// The event as a quote has it.
fn told(event: ZilqodurEvent) -> ZilqodurEvent {
    let new_cost = event.kind > 1;
    ZilqodurEvent {
        kind: event.kind.min(2),
        amount: if new_cost { event.amount } else { 0 },
        ..event
    }
}

#[inline(never)]
pub fn ask(state: &ZilqodurState, event: ZilqodurEvent) -> ZilqodurQuoteAnswer {
    let committed = state.committed;
    let (found, next) = apply(*state, event, committed);
    let answer = super::answer(found);
    let (quote, shares) = match found {
        Ok(_) => {
            let event = told(event);
            (ZilqodurQuote { event, committed }, next.shares)
        }
        Err(_) => (ZilqodurQuote::default(), [0; ARCS]),
    };
    ZilqodurQuoteAnswer {
        refusal: answer.refusal,
        place: answer.place,
        members: answer.members,
        quote,
        shares,
    }
}

/// 23, then 24.
fn check_number(quoted: u32, committed: u32) -> Answer<()> {
    if quoted != committed {
        return refuse(23, 0);
    }
    if committed >= EVENTS {
        return refuse(24, 0);
    }
    Ok(())
}

#[inline(never)]
pub fn commit(state: &ZilqodurState, quote: ZilqodurQuote) -> ZilqodurStateAnswer {
    let committed = state.committed;
    answer(match check_number(quote.committed, committed) {
        Ok(()) => apply(*state, quote.event, committed + 1),
        Err(fault) => (Err(fault), *state),
    })
}
