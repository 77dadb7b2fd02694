//! One call that makes a state, asks on it or commits a quote compared with the
//! reference: the answer, the shares and every field of the state; and what
//! holds from one event to the next.

use crate::compare::{self, Network};
use crate::ffi::{self, *};
use crate::generate_state;
use crate::rare;
use crate::reference::{Answer, ARCS};
use crate::rng::Rng;
use crate::state::{self, Change, Event, Quote, State};
use crate::tally::Tally;

/// Events one after another on a state.
const EVENTS: usize = 4;

/// The state as the archive has it.
fn to_c(state: &State) -> ZilqodurState {
    ZilqodurState {
        arcs: state.arcs,
        parents: state.parents[..].try_into().unwrap(),
        costs: state.costs[..].try_into().unwrap(),
        marks: state.marks[..].try_into().unwrap(),
        shares: state.shares[..].try_into().unwrap(),
        committed: state.committed,
    }
}

/// The event as the reference has it.
pub fn from_c(event: ZilqodurEvent) -> Event {
    Event {
        vertex: event.vertex,
        change: match event.kind {
            0 => Change::Arrive,
            1 => Change::Leave,
            _ => Change::NewCost(event.amount),
        },
    }
}

/// The quote as the archive gives it.
fn quote_to_c(quote: Quote) -> ZilqodurQuote {
    let (kind, amount) = match quote.event.change {
        Change::Arrive => (0, 0),
        Change::Leave => (1, 0),
        Change::NewCost(amount) => (2, amount),
    };
    ZilqodurQuote {
        event: ZilqodurEvent {
            vertex: quote.event.vertex,
            kind,
            amount,
        },
        committed: quote.committed,
    }
}

/// The answer beside the state.
fn answer(given: &ZilqodurStateAnswer) -> ZilqodurMembers {
    ZilqodurMembers {
        refusal: given.refusal,
        place: given.place,
        members: given.members,
    }
}

/// The answer beside the shares, with the quote.
fn asked(given: &ZilqodurQuoteAnswer) -> (ZilqodurMembers, ZilqodurQuote) {
    let answer = ZilqodurMembers {
        refusal: given.refusal,
        place: given.place,
        members: given.members,
    };
    (answer, given.quote)
}

/// Answer, quote and shares that are expected of an asking.
fn expected_asking(
    found: Answer<(usize, Quote, Vec<u64>)>,
) -> (ZilqodurMembers, ZilqodurQuote, Vec<u64>) {
    match found {
        Ok((count, quote, shares)) => (compare::members(Ok(count)), quote_to_c(quote), shares),
        Err(fault) => (
            compare::members(Err(fault)),
            ZilqodurQuote::default(),
            vec![0; ARCS],
        ),
    }
}

/// Answers the state that is expected.
pub fn make_state(tally: &mut Tally, network: &Network) -> State {
    let (p, c, m) = network.lend();
    let given = ffi::make_state(p.list(), c.list(), m.list());
    let (found, made) = state::make(&network.parents, &network.costs, &network.marks);
    let expected = compare::members(found);
    let lists = network.kept(&p, &c, &m) && given.state == to_c(&made);
    tally.case(
        "make_state",
        expected.refusal,
        [answer(&given), expected],
        lists,
    );
    made
}

/// Answers what the archive gives. The state that is lent stays as it is.
pub fn ask(tally: &mut Tally, before: &State, event: ZilqodurEvent) -> ZilqodurQuoteAnswer {
    let faults = before.faults(from_c(event));
    rare::note_event_faults(tally, &event, &faults);
    let lent = to_c(before);
    let given = ffi::ask(&lent, event);
    let found = before.ask(from_c(event), &faults);
    let (expected, quote, shares) = expected_asking(found);
    tally.case(
        "ask",
        expected.refusal,
        [asked(&given), (expected, quote)],
        given.shares[..] == shares && lent == to_c(before),
    );
    given
}

/// Answers what the archive gives, and the state that is expected.
pub fn commit(
    tally: &mut Tally,
    before: &State,
    quote: ZilqodurQuote,
) -> (ZilqodurStateAnswer, State) {
    let event = from_c(quote.event);
    let committed = quote.committed;
    let read = Quote { event, committed };
    let faults = before.quote_faults(read, &before.faults(event));
    let (found, next) = before.commit(read, &faults);
    let given = ffi::commit(&to_c(before), quote);
    let expected = compare::members(found);
    rare::note_quote(tally, before.committed, committed, &faults);
    tally.case(
        "commit",
        expected.refusal,
        [answer(&given), expected],
        given.state == to_c(&next),
    );
    (given, next)
}

/// Asks for the event and commits it twice: with another number, and then with
/// the state's, where there is a quote most often as that has it.
fn ask_and_commit(
    tally: &mut Tally,
    rng: &mut Rng,
    before: &State,
    event: ZilqodurEvent,
) -> (ZilqodurQuoteAnswer, ZilqodurStateAnswer, State) {
    let asked = ask(tally, before, event);
    let other = generate_state::other_number(rng, before.committed);
    let quote = |committed| ZilqodurQuote { event, committed };
    commit(tally, before, quote(other));
    let own = if asked.refusal != 0 || rng.one_in(4) {
        quote(before.committed)
    } else {
        asked.quote
    };
    let (given, next) = commit(tally, before, own);
    (asked, given, next)
}

/// The archive gives the members and the shares that it quoted.
fn compare_quoted(tally: &mut Tally, asked: &ZilqodurQuoteAnswer, given: &ZilqodurStateAnswer) {
    let same = asked.members == given.members && asked.shares == given.state.shares;
    tally.case("shares as quoted", 0, [same, true], true);
}

/// The archive refuses a quote that was given before the last event.
fn compare_earlier(tally: &mut Tally, after: &ZilqodurState, quote: ZilqodurQuote) {
    let given = ffi::commit(after, quote);
    let expected = ZilqodurMembers {
        refusal: 23,
        ..Default::default()
    };
    tally.case(
        "earlier quote",
        23,
        [answer(&given), expected],
        given.state == *after,
    );
}

/// The state is the one that the archive makes of its tree, but for its number.
fn compare_made(tally: &mut Tally, state: &State) {
    let (parents, costs, marks) = state.lists();
    let mut given = ffi::make_state(parents, costs, marks);
    let fresh = given.refusal == 0 && given.state.committed == 0;
    given.state.committed = state.committed;
    let same = fresh && given.state == to_c(state);
    tally.case("state made of the tree reached", 0, [same, true], true);
}

/// The archive's audit passes the shares.
fn compare_audit(tally: &mut Tally, state: &State) {
    let (parents, costs, marks) = state.lists();
    let members = ffi::count_members(parents, costs, marks).members;
    let shares = state.shares[..members].iter().map(|&share| share as i64);
    let shares: Vec<i64> = shares.collect();
    let total = ffi::check_total(parents, costs, marks, &shares);
    let search = ffi::find_group(parents, costs, marks, &shares);
    let verdicts = (total.verdict, total.difference, search.verdict);
    tally.case("shares in the audit", 0, [verdicts, (1, 0, 1)], true);
}

/// The event that puts back what the other one changes.
fn opposite(before: &State, event: ZilqodurEvent) -> ZilqodurEvent {
    match event.kind {
        0 => ZilqodurEvent { kind: 1, ..event },
        1 => ZilqodurEvent { kind: 0, ..event },
        _ => ZilqodurEvent {
            amount: before.costs[event.vertex - 1],
            ..event
        },
    }
}

/// The opposite event, asked for and committed, gives the tree and the shares
/// before, or is refused 24.
fn compare_back(tally: &mut Tally, before: &State, event: ZilqodurEvent, after: &State) {
    let full = after.committed >= state::EVENTS;
    let asked = ffi::ask(&to_c(after), opposite(before, event));
    let back = ffi::commit(&to_c(after), asked.quote);
    let mut expected = to_c(if full { after } else { before });
    expected.committed = after.committed + u32::from(!full);
    let quoted = asked.refusal == 0 && asked.shares[..] == before.shares;
    let refusal = if full { 24 } else { 0 };
    let same = quoted && back.refusal == refusal && back.state == expected;
    tally.case("event taken back", refusal, [same, true], true);
}

/// Another state with the same tree and number has the same answers and asked
/// shares, and where the event is carried out the same state afterwards.
fn compare_alike(tally: &mut Tally, one: &State, other: &State, event: ZilqodurEvent) {
    let quote = ZilqodurQuote {
        event,
        committed: one.committed,
    };
    let states = [one, other].map(to_c);
    let quotes = states.map(|state| ffi::ask(&state, event));
    let given = states.map(|state| ffi::commit(&state, quote));
    let same = given[0].refusal != 0 || given[0].state == given[1].state;
    tally.case(
        "states with one tree",
        given[0].refusal,
        given.map(|given| answer(&given)),
        same && quotes[0] == quotes[1],
    );
}

/// Events one after another, from a state that was made.
fn compare_events(tally: &mut Tally, rng: &mut Rng, made: State) {
    let mut state = made;
    let mut quotes = Vec::new();
    for _ in 0..EVENTS {
        let event = generate_state::event(rng, &state);
        let (asked, given, next) = ask_and_commit(tally, rng, &state, event);
        if asked.refusal == 0 {
            quotes.push(asked.quote);
        }
        if given.refusal == 0 {
            compare_quoted(tally, &asked, &given);
            compare_earlier(tally, &given.state, rng.pick(&quotes));
            compare_made(tally, &next);
            compare_audit(tally, &next);
            compare_back(tally, &state, event, &next);
            rare::note_event(tally, &event, state.shares != next.shares);
        }
        state = next;
    }
}

/// States that no function made: the network's lists, and another number of arcs.
fn compare_raw(tally: &mut Tally, rng: &mut Rng, network: &Network, made: &State) {
    let mut raw = generate_state::raw(rng, network);
    let event = generate_state::event(rng, &raw);
    ask_and_commit(tally, rng, &raw, event);
    if made.arcs > 0 {
        let mut other = made.clone();
        other.committed = raw.committed;
        compare_alike(tally, &other, &raw, event);
    }
    raw.arcs = generate_state::other_arcs(rng, raw.arcs);
    let event = generate_state::event(rng, &raw);
    ask_and_commit(tally, rng, &raw, event);
}

/// The entries on a network, from any number of events committed. A network
/// that is refused gives the state without arcs, on which there is little to
/// try.
pub fn round(tally: &mut Tally, rng: &mut Rng, network: &Network) {
    let mut made = make_state(tally, network);
    compare_raw(tally, rng, network, &made);
    made.committed = generate_state::number(rng);
    if made.arcs > 0 {
        compare_events(tally, rng, made);
    } else if rng.one_in(10) {
        let event = generate_state::event(rng, &made);
        ask_and_commit(tally, rng, &made, event);
    }
}
