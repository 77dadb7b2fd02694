//! The specification's networks to try (§10): the reference gives the values that it names,
//! and the archive answers and writes what the reference gives.

use crate::compare::Network;
use crate::compare_job;
use crate::compare_state;
use crate::ffi::{ZilqodurEvent, ZilqodurQuote};
use crate::job::{self, Job};
use crate::level;
use crate::margin;
use crate::reference::{self, refuse, Answer, Refusal, AMOUNT};
use crate::report;
use crate::state::{self, Quote, State, EVENTS};
use crate::table_classes;
use crate::table_job2;
use crate::table_step;
use crate::tally::Tally;
use std::fmt::Debug;

pub fn network(parents: &[u16], costs: &[u32], marks: &[u16]) -> Network {
    Network {
        parents: parents.to_vec(),
        costs: costs.to_vec(),
        marks: marks.to_vec(),
    }
}

/// T with these marks.
fn t_with(marks: &[u16]) -> Network {
    network(&[0, 1, 1, 0], &[6, 1, 5, 4], marks)
}

pub fn named<T: Debug + PartialEq>(tally: &mut Tally, found: Answer<T>, expected: Answer<T>) {
    let number = expected.as_ref().err().map_or(0, |r| r.number);
    tally.case("table", number, [found, expected], true);
}

fn check(tally: &mut Tally, n: Network, expected: Answer<()>) {
    named(tally, n.tree().map(|_| ()), expected);
    n.check_tree(tally);
}

fn dead_ends(tally: &mut Tally, n: &Network, expected: &[u16]) {
    let found = reference::mark_dead_ends(&n.parents, &n.costs, expected.len());
    named(tally, found, Ok(expected.to_vec()));
    n.mark_dead_ends(tally, &vec![77; expected.len()]);
}

fn members(tally: &mut Tally, n: &Network, expected: &[u16]) {
    let found = reference::list_members(n.tree(), expected.len());
    named(tally, found, Ok(expected.to_vec()));
    n.list_members(tally, &vec![77; expected.len()]);
}

/// The group has bits in its first word alone.
fn group(tally: &mut Tally, n: &Network, word: u64, expected: Answer<(usize, u64)>) {
    let mut words = [0; 16];
    words[0] = word;
    let found = reference::group_cost(n.tree(), &words);
    named(tally, found, expected);
    n.group_cost(tally, &words);
}

fn needs(tally: &mut Tally, n: &Network, whole: u64, expected: &[u64]) {
    let found = reference::list_needs(n.tree(), expected.len());
    let needs = found.map(|(tree, needs)| (tree.whole(), needs));
    named(tally, needs, Ok((whole, expected.to_vec())));
    n.list_needs(tally, &vec![77; expected.len()]);
}

/// The difference, the amount and the group, which has nobody where there is none.
fn proposal(tally: &mut Tally, n: &Network, proposal: &[i64], expected: (i64, u64, &[usize])) {
    let (difference, amount, group) = expected;
    let found = reference::check_total(n.tree(), proposal);
    named(tally, found, Ok(difference));
    n.check_total(tally, proposal);
    let found = reference::find_group(n.tree(), proposal);
    let group = Some((amount, group.to_vec())).filter(|_| amount > 0);
    named(tally, found, Ok(group));
    n.find_group(tally, proposal);
}

fn cap_sums(tally: &mut Tally, n: &Network, caps: &[u64], total: u64, expected: &[u64]) {
    let found = reference::list_cap_sums(n.tree(), caps, expected.len());
    named(tally, found, Ok((total, expected.to_vec())));
    n.list_cap_sums(tally, caps, &vec![77; expected.len()]);
}

/// Without floors.
fn level(tally: &mut Tally, n: &Network, caps: &[u64], expected: Answer<Vec<u64>>) {
    floored(tally, n, caps, &vec![0; caps.len()], expected);
}

fn floored(
    tally: &mut Tally,
    n: &Network,
    caps: &[u64],
    floors: &[u64],
    expected: Answer<Vec<u64>>,
) {
    let found = level::split_level(n.tree(), caps, floors, caps.len());
    named(tally, found, expected);
    n.split_level(tally, caps, floors, &vec![77; caps.len()]);
}

fn short<T>(place: usize, shortfall: u64) -> Answer<T> {
    Err(Refusal {
        number: 9,
        place,
        shortfall,
    })
}

fn by_arc(tally: &mut Tally, n: &Network, expected: &[u64]) {
    let found = reference::split_by_arc(n.tree(), expected.len());
    named(tally, found, Ok(expected.to_vec()));
    n.split_by_arc(tally, &vec![77; expected.len()]);
}

/// The margin and the shares, written to a list of so many entries.
fn branch(
    tally: &mut Tally,
    n: &Network,
    arc: usize,
    room: usize,
    expected: Answer<(u64, &[u64])>,
) {
    let found = margin::split_margin(n.tree(), arc, room);
    let expected = expected.map(|(margin, shares)| (margin, shares.to_vec()));
    named(tally, found, expected);
    n.split_margin(tally, arc, &vec![77; room]);
}

/// The shares of the state, which is answered.
fn made(tally: &mut Tally, n: &Network, expected: &[u64]) -> State {
    let (found, state) = state::make(&n.parents, &n.costs, &n.marks);
    let shares = found.map(|members| state.shares[..members].to_vec());
    named(tally, shares, Ok(expected.to_vec()));
    compare_state::make_state(tally, n)
}

/// An event of this vertex, kind and amount.
type Named = (usize, u32, u32);

fn to_event((vertex, kind, amount): Named) -> ZilqodurEvent {
    ZilqodurEvent {
        vertex,
        kind,
        amount,
    }
}

/// The shares after a quote of this number; answers the state.
fn quote(
    tally: &mut Tally,
    state: &State,
    event: Named,
    committed: u32,
    expected: Answer<&[u64]>,
) -> State {
    let event = to_event(event);
    let read = Quote {
        event: compare_state::from_c(event),
        committed,
    };
    let faults = state.quote_faults(read, &state.faults(read.event));
    let (found, next) = state.commit(read, &faults);
    let shares = found.map(|members| next.shares[..members].to_vec());
    named(tally, shares, expected.map(<[u64]>::to_vec));
    compare_state::commit(tally, state, ZilqodurQuote { event, committed }).1
}

/// The shares that are asked for, and those after the quote; answers the state.
fn event(tally: &mut Tally, state: &State, event: Named, expected: Answer<&[u64]>) -> State {
    let read = compare_state::from_c(to_event(event));
    let found = state.ask(read, &state.faults(read));
    let shares = found.map(|(members, _, shares)| shares[..members].to_vec());
    named(tally, shares, expected.map(<[u64]>::to_vec));
    compare_state::ask(tally, state, to_event(event));
    quote(tally, state, event, state.committed, expected)
}

fn writing(tally: &mut Tally, job: &Job, room: usize, expected: Answer<usize>) {
    let found = job::write(job, &job.faults(room));
    named(tally, found.map(|bytes| bytes.len()), expected);
    compare_job::write_job(tally, job, &vec![77; room]);
}

/// The sample job with some proposal, and the lines of the audit.
fn reporting(tally: &mut Tally, job: &Job, audit: &str) {
    let bytes = job.write();
    let shares = &job.proposals;
    let lines = [
        format!("cost 16 members 3\n{audit}level ok\n"),
        format!("0 at 2: proposed {} by-arc 4 level 6\n", shares[0]),
        format!("1 at 3: proposed {} by-arc 8 level 6\n", shares[1]),
        format!("2 at 4: proposed {} by-arc 4 level 4\n", shares[2]),
    ];
    named(
        tally,
        Ok((bytes.len(), report::text(&bytes))),
        Ok((96, lines.concat())),
    );
    compare_job::report(tally, &bytes);
}

pub fn compare(tally: &mut Tally) {
    let t = t_with(&[0, 1, 1, 1]);
    dead_ends(tally, &t, &[0, 1, 1, 1]);
    for (word, size, cost) in [(0, 0, 0), (1, 1, 7), (3, 2, 12), (6, 2, 15)] {
        group(tally, &t, word, Ok((size, cost)));
    }
    needs(tally, &t, 16, &[12, 1, 5, 4]);
    proposal(tally, &t, &[7, 5, 4], (0, 0, &[]));
    proposal(tally, &t, &[8, 4, 4], (0, 1, &[0]));
    proposal(tally, &t, &[8, 4, 5], (1, 2, &[0, 2]));
    proposal(tally, &t, &[-1, 13, 4], (0, 2, &[1]));
    proposal(tally, &t, &[9, 9, 9], (11, 11, &[0, 1, 2]));
    proposal(tally, &t, &[-1, -1, -1], (-19, 0, &[]));
    cap_sums(tally, &t, &[3, 9, 4], 16, &[12, 3, 9, 4]);
    level(tally, &t, &[100, 100, 100], Ok(vec![6, 6, 4]));
    level(tally, &t, &[3, 9, 4], Ok(vec![3, 9, 4]));
    level(tally, &t, &[3, 8, 100], short(1, 1));
    by_arc(tally, &t, &[4, 8, 4]);
    let u = network(&[0, 1, 1], &[7, 0, 0], &[0, 1, 1]);
    by_arc(tally, &u, &[4, 3]);
    level(tally, &u, &[3, 100], Ok(vec![3, 4]));
    let x = network(&[0, 1, 2, 2], &[1, 1, 0, 0], &[0, 0, 1, 1]);
    by_arc(tally, &x, &[1, 1]);
    let w = network(&[0, 1, 1, 0], &[10, 1, 1, 8], &[0, 1, 1, 1]);
    proposal(tally, &w, &[7, 7, 6], (0, 2, &[0, 1]));
    floors(tally, &t);
    dearer(tally);
    branches(tally, &t);
    table_classes::compare(tally);
    table_step::compare(tally);
    spare(tally);
    limits(tally, &t);
    marks(tally);
    events(tally, &t);
    sample_job(tally, t);
}

fn floors(tally: &mut Tally, t: &Network) {
    for (floors, expected) in [
        ([0, 0, 0], Ok(vec![6, 6, 4])),
        ([7, 0, 0], Ok(vec![7, 5, 4])),
        ([0, 7, 0], Ok(vec![5, 7, 4])),
        ([8, 0, 0], refuse(28, 1)),
        ([0, 0, 5], refuse(28, 4)),
    ] {
        floored(tally, t, &[100, 100, 100], &floors, expected);
    }
    for (caps, floors, expected) in [
        ([4, 7, 4], [0, 7, 0], short(1, 1)),
        ([2, 100, 100], [3, 0, 0], refuse(27, 0)),
        ([0, 0, 5], [0, 0, 5], refuse(28, 4)),
        ([100, 100, 3], [8, 0, 0], short(4, 1)),
        ([2, 10, 4], [2, 10, 4], Ok(vec![2, 10, 4])),
    ] {
        floored(tally, t, &caps, &floors, expected);
    }
}

/// T with a dearer arc, or none; then the same of T with nobody at vertex 3.
fn dearer(tally: &mut Tally) {
    for (costs, expected) in [
        ([6, 1, 5, 4], [6, 6, 4]),
        ([9, 1, 5, 4], [8, 7, 4]),
        ([1_006, 1, 5, 4], [506, 506, 4]),
        ([6, 3, 5, 4], [7, 7, 4]),
        ([6, 1, 5, 7], [6, 6, 7]),
    ] {
        let t = network(&[0, 1, 1, 0], &costs, &[0, 1, 1, 1]);
        level(tally, &t, &[2_000; 3], Ok(expected.to_vec()));
    }
    let spare = network(&[0, 1, 1, 0], &[6, 1, 14, 4], &[0, 1, 0, 1]);
    level(tally, &spare, &[2_000; 2], Ok(vec![7, 4]));
}

/// T; then a tree in which all use arcs 1 and 2, and in which the raised need of
/// arc 2 is the sum over its child arcs.
fn branches(tally: &mut Tally, t: &Network) {
    branch(tally, t, 1, 2, Ok((3, &[4, 8])));
    branch(tally, t, 1, 3, refuse(8, 0));
    for arc in [0, 2, 3, 5, 65_537, usize::MAX] {
        branch(tally, t, arc, 2, refuse(25, arc));
    }
    branch(tally, t, 4, 1, refuse(26, 4));
    let marks = [0, 0, 1, 0, 1, 1];
    let run = network(&[0, 1, 2, 2, 4, 2], &[2, 5, 1, 2, 1, 3], &marks);
    branch(tally, &run, 1, 3, Ok((2, &[4, 5, 5])));
    let refused = t_with(&[0, 0, 0, 0]);
    branch(tally, &refused, 0, 0, refuse(18, 0));
}

/// T with nobody at vertex 3.
fn spare(tally: &mut Tally) {
    let t = t_with(&[0, 1, 0, 1]);
    members(tally, &t, &[2, 4]);
    needs(tally, &t, 11, &[7, 1, 0, 4]);
    group(tally, &t, 1, Ok((1, 7)));
    group(tally, &t, 1 << 2, refuse(5, 2));
    proposal(tally, &t, &[7, 4], (0, 0, &[]));
    proposal(tally, &t, &[6, 5], (0, 1, &[1]));
    proposal(tally, &t, &[12, 4], (5, 5, &[0]));
    cap_sums(tally, &t, &[3, 4], 7, &[3, 3, 0, 4]);
    level(tally, &t, &[100, 100], Ok(vec![7, 4]));
    by_arc(tally, &t, &[7, 4]);
    branch(tally, &t, 1, 1, refuse(26, 1));
}

fn limits(tally: &mut Tally, t: &Network) {
    check(tally, network(&[0], &[1_000_000_000], &[1]), Ok(()));
    let dear = network(&[0], &[1_000_000_001], &[1]);
    check(tally, dear, refuse(4, 1));
    check(tally, network(&[1], &[0], &[1]), refuse(3, 1));
    let star = |arcs| network(&vec![0; arcs], &vec![0; arcs], &vec![1; arcs]);
    check(tally, star(1_023), Ok(()));
    check(tally, star(1_024), refuse(1, 0));
    let all: Vec<usize> = (0..1_023).collect();
    let (most, sum) = (AMOUNT as i64, 1_023 * AMOUNT as i64);
    proposal(tally, &star(1_023), &[most; 1_023], (sum, sum as u64, &all));
    proposal(tally, &star(1_023), &[-most; 1_023], (-sum, 0, &[]));
    group(tally, t, 1 << 2, Ok((1, 4)));
    group(tally, t, 1 << 3, refuse(5, 3));
}

/// T with marks that are refused.
fn marks(tally: &mut Tally) {
    for (marks, expected) in [
        (&[0, 1, 1][..], refuse(2, 0)),
        (&[0, 1, 1, 1, 0], refuse(2, 0)),
        (&[0, 1, 2, 1], refuse(16, 3)),
        (&[0, 1, 65_535, 1], refuse(16, 3)),
        (&[1, 1, 1, 1], refuse(17, 1)),
        (&[1, 2, 0, 0], refuse(17, 1)),
        (&[0, 0, 0, 2], refuse(16, 4)),
        (&[0, 0, 0, 0], refuse(18, 0)),
    ] {
        check(tally, t_with(marks), expected);
    }
}

/// T, with events of kind 0 (arrive), 1 (leave) and others (new cost).
fn events(tally: &mut Tally, t: &Network) {
    let whole = made(tally, t, &[4, 8, 4]);
    for (refused, expected) in [
        ((0, 1, 0), refuse(21, 0)),
        ((5, 0, 0), refuse(21, 5)),
        ((2, 0, 0), refuse(22, 2)),
        ((1, 1, 0), refuse(22, 1)),
        ((1, 0, 0), refuse(17, 1)),
        ((2, 2, 1_000_000_001), refuse(4, 2)),
    ] {
        event(tally, &whole, refused, expected);
    }
    let spare = event(tally, &whole, (3, 1, 0), Ok(&[7, 4]));
    event(tally, &spare, (3, 0, 0), Ok(&[4, 8, 4]));
    event(tally, &spare, (3, 2, 1_000_000_000), Ok(&[7, 4]));
    let one = event(tally, &spare, (2, 1, 0), Ok(&[4]));
    event(tally, &one, (4, 1, 0), refuse(18, 0));
    event(tally, &whole, (1, 2, 13), Ok(&[8, 11, 4]));
    event(tally, &whole, (1, u32::MAX, 13), Ok(&[8, 11, 4]));
    quotes(tally, &whole, &spare);
}

/// T's state, and the one after the member at vertex 3 has left, with quotes of
/// other numbers and with as many events committed as may be.
fn quotes(tally: &mut Tally, whole: &State, spare: &State) {
    let leave = (3, 1, 0);
    quote(tally, spare, leave, 0, refuse(23, 0));
    quote(tally, whole, leave, 1, refuse(23, 0));
    quote(tally, whole, leave, u32::MAX, refuse(23, 0));
    let mut many = whole.clone();
    many.committed = EVENTS - 1;
    event(tally, &many, leave, Ok(&[7, 4]));
    many.committed = EVENTS;
    quote(tally, &many, leave, EVENTS, refuse(24, 0));
    quote(tally, &many, (0, 1, 0), EVENTS, refuse(24, 0));
    quote(tally, &many, leave, EVENTS - 1, refuse(23, 0));
}

/// T with no note, caps 100 and the proposal 8 4 4.
fn sample_job(tally: &mut Tally, t: Network) {
    let mut job = Job {
        note: Vec::new(),
        parents: t.parents,
        fillers: vec![0; 4],
        costs: t.costs,
        caps: vec![100; 3],
        proposals: vec![8, 4, 4],
    };
    reporting(tally, &job, "audit group 1 of 1: 0\n");
    table_job2::compare(tally, &job);
    writing(tally, &job, 96, Ok(96));
    writing(tally, &job, 97, Ok(96));
    writing(tally, &job, 95, refuse(20, 0));
    job.note = vec![77; 255];
    writing(tally, &job, 351, Ok(351));
    job.note.push(77);
    writing(tally, &job, 0, refuse(19, 0));
    job.note.clear();
    for (proposal, audit) in [
        ([7, 5, 4], "audit pass\n"),
        ([8, 4, 5], "audit total 1\naudit group 2 of 2: 0 2\n"),
        ([-1, -1, -1], "audit total -19\n"),
    ] {
        job.proposals = proposal.to_vec();
        reporting(tally, &job, audit);
    }
}
