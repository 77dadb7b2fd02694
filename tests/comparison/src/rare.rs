//! The cases that a run of all rounds is to meet: every refusal of every
//! entry, faults that stand in one tree or one job, trees with spare plots,
//! leftover units that tallies decide over, totals of every kind with and
//! without a group, branches and numbers that are none's, events of every kind,
//! and quotes of every number.

use crate::ffi::ZilqodurEvent;
use crate::job::Fault;
use crate::margin::{self, Branch};
use crate::rare_classes;
use crate::rare_dearer;
use crate::rare_job2;
use crate::rare_level;
use crate::rare_step;
use crate::reference::{Refusal, Tree, ARCS, COST};
use crate::state::EVENTS;
use crate::tally::Tally;

pub const TREE: [u32; 7] = [1, 2, 3, 4, 16, 17, 18];

/// The refusals of each entry, with whether it has those of a tree too; and those
/// under which one class is held against the by-arc split, and the level split
/// against its definitions.
#[rustfmt::skip]
const REFUSALS: [(&str, bool, &[u32]); 31] = [
    ("check_tree", true, &[]),
    ("check_caps", false, &[6, 7]),
    ("check_proposal", false, &[6, 7]),
    ("mark_dead_ends", false, &[1, 2, 3, 4, 8]),
    ("count_members", true, &[]),
    ("list_members", true, &[8]),
    ("list_needs", true, &[8]),
    ("group_cost", true, &[5]),
    ("check_total", true, &[6, 7]),
    ("find_group", true, &[6, 7]),
    ("list_cap_sums", true, &[6, 7, 8]),
    ("split_level", true, &[6, 7, 27, 8, 9, 28]),
    ("split_by_arc", true, &[8]),
    ("split_margin", true, &[25, 26, 8]),
    ("split_classes", true, &[32, 8]),
    ("one class is the by-arc split", true, &[8]),
    ("next_parents", false, &[31, 3]),
    ("make_state", true, &[]),
    ("ask", false, &[1, 3, 4, 16, 17, 18, 21, 22]),
    ("commit", false, &[23, 24, 1, 3, 4, 16, 17, 18, 21, 22]),
    ("read_job", false, &[10, 11, 12, 13, 14, 1, 3, 4, 15, 7]),
    ("job_length", false, &[1, 2, 3, 4, 6, 7, 19]),
    ("write_job", false, &[1, 2, 3, 4, 6, 7, 19, 20]),
    ("read_job2", false, &[10, 11, 12, 13, 16, 1, 3, 4, 17, 18, 15, 7, 27]),
    ("job_to_2", false, &[11, 12, 13, 14, 1, 3, 4, 15, 7, 20]),
    ("job_to_1", false, &[11, 12, 13, 16, 1, 3, 4, 17, 18, 15, 7, 27, 29, 30, 20]),
    ("job to version 2 and back", false, &[]),
    ("job to version 1 and back", false, &[]),
    ("report", false, &[]),
    ("definition of the level split", false, &[9, 28]),
    ("definition of the level split over all lists", false, &[9, 27, 28]),
];

/// The first two faults of a tree's lists, standing at one arc. 16 and 17
/// cannot do so.
const AT_ONE_ARC: [(u32, u32); 5] = [(3, 4), (3, 16), (3, 17), (4, 16), (4, 17)];

/// The same, not at one arc. 17 and 18 cannot meet.
#[rustfmt::skip]
const APART: [(u32, u32); 16] = [
    (1, 2), (2, 3), (2, 4), (2, 16), (2, 17), (2, 18), (4, 3), (16, 3),
    (16, 4), (16, 17), (17, 3), (17, 4), (17, 16), (3, 18), (4, 18), (16, 18),
];

/// The job writer's refusals in their order, each with what is at fault. Any
/// two neighbours are to be the first two faults of what it is handed.
#[rustfmt::skip]
const WRITER: [(&str, u32); 10] = [
    ("tree", 1), ("tree", 2), ("tree", 3), ("tree", 4), ("caps", 6), ("caps", 7),
    ("proposals", 6), ("proposals", 7), ("note", 19), ("output", 20),
];

/// What a state's own tree, an event and the tree that it reaches are refused by.
const OF_STATE: [u32; 6] = [1, 3, 4, 16, 17, 18];
const OF_EVENT: [u32; 2] = [21, 22];
const OF_REACHED: [u32; 3] = [17, 18, 4];

/// The arcs of a run that is called long.
const LONG: usize = 50;

const NO_SPARE: &str = "every dead end marked";
const SPARE: &str = "a dead end without a member";
const ONE: &str = "one member and other dead ends";
const BRANCH: &str = "a branch from the source without users";
const LAST: &str = "nobody at the last vertex";
const RUN: &str = "a long run of arcs without users";

const TIE: &str = "a leftover unit by number, the tallies being equal and above 0";
const PAST: &str = "a leftover unit past a lower number";
const ONE_EACH: &str = "an arc's leftover units to users with tallies more than 1 apart";
const MANY: &str = "a tally above 255";

/// The first two faults of a branch's number and list. Those of a tree are to be
/// met before 25 too.
const OF_BRANCH: [(u32, u32); 3] = [(25, 26), (25, 8), (26, 8)];

/// The bits of a number above those of an arc from the source.
const ABOVE: [u32; 4] = [10, 16, 32, 63];

const NOBODY: &str = "26 on an arc without users";
const ONE_USER: &str = "26 on an arc with one user";
const NO_MARGIN: &str = "a margin of 0 on a need above 0";
const WIDE: &str = "a margin beyond 32 bits";
const RISEN: &str = "a raised need that is the sum below, at an arc that not all use";
const RISEN_RUN: &str = "a raised need that is the sum below, at an arc that all use";
const SPARE_BELOW: &str = "an arc without users in a branch";
const OTHERS: &str = "users of a branch with other members' numbers between theirs";

const ARRIVED: &str = "an arrival";
const LEFT: &str = "a departure";
const DEARER: &str = "a new cost that changes the shares";
const UNPAID: &str = "a new cost that changes no share";
const OTHER_KIND: &str = "a kind of event without a name";
const AT_LIMIT: &str = "an event at the last of all vertices";
const TWICE_OUTSIDE: &str = "21 on an event whose amount is above the limit";

const BEHIND: &str = "a quote whose number is below the state's";
const AHEAD: &str = "a quote whose number is above the state's";
const LAST_EVENT: &str = "the last event that is carried out";
const FULL: &str = "24 at the limit";
const GREATEST: &str = "24 at the greatest number";

/// What judges a proposal.
pub const ARCHIVE: &str = "the archive";
pub const DEFINITION: &str = "the definition";

/// A proposal's total with the group that is found. Where the total is high all
/// members together overpay, and only there can they be the group.
#[rustfmt::skip]
const PROPOSALS: [(&str, &str); 6] = [
    ("right", "nobody"), ("right", "some"), ("low", "nobody"), ("low", "some"),
    ("high", "some"), ("high", "all"),
];

const ALL_OF_MANY: &str = "a group of all members, who are more than 64";

/// The lines of the audit in a report.
const AUDITS: [&str; 4] = [
    "audit pass",
    "audit total",
    "audit group",
    "audit total, audit group",
];

fn meeting(first: u32, second: u32, at_one_arc: bool) -> String {
    let place = if at_one_arc { " at one arc" } else { "" };
    format!("{first} before {second}{place}")
}

/// Notes the first two faults of a tree's lists.
pub fn note_faults(tally: &mut Tally, faults: &[Refusal]) {
    if let [a, b, ..] = faults {
        let at_one_arc = a.place == b.place && a.place > 0;
        tally.met.insert(meeting(a.number, b.number, at_one_arc));
    }
}

fn job_meeting(first: (&str, u32), second: (&str, u32)) -> String {
    format!("{first:?} before {second:?} in a job to be written")
}

/// Notes the first two faults of what the job writer is handed.
pub fn note_job_faults(tally: &mut Tally, faults: &[Fault]) {
    if let [(a_list, a), (b_list, b), ..] = faults {
        let meeting = job_meeting((a_list, a.number), (b_list, b.number));
        tally.met.insert(meeting);
    }
}

fn state_meeting(first: u32, second: u32) -> String {
    format!("{first} of a state before {second} of an event")
}

fn reached_fault(number: u32) -> String {
    format!("{number} of the tree that an event reaches")
}

/// Notes a state's only fault with that of the event, that of the tree reached,
/// and 21 on an event whose amount would be refused too.
pub fn note_event_faults(tally: &mut Tally, event: &ZilqodurEvent, faults: &[Fault]) {
    match faults {
        [("state", a), ("event", b)] => {
            tally.met.insert(state_meeting(a.number, b.number));
        }
        [("event", a)] => {
            let outside = a.number == 21 && event.kind > 1 && event.amount > COST;
            note(tally, TWICE_OUTSIDE, outside);
        }
        [("tree reached", a)] => {
            tally.met.insert(reached_fault(a.number));
        }
        _ => (),
    }
}

fn quote_meeting(first: u32, second: (&str, u32)) -> String {
    format!("{first} of a quote before {second:?}")
}

/// Notes the first two faults of a quote, and the numbers of the state and of
/// the quote.
pub fn note_quote(tally: &mut Tally, committed: u32, quoted: u32, faults: &[Fault]) {
    if let [("quote", a), (b_of, b), ..] = faults {
        let meeting = quote_meeting(a.number, (b_of, b.number));
        tally.met.insert(meeting);
    }
    let number = faults.first().map_or(0, |(_, fault)| fault.number);
    note(tally, BEHIND, number == 23 && quoted < committed);
    note(tally, AHEAD, number == 23 && quoted > committed);
    note(tally, LAST_EVENT, number == 0 && committed == EVENTS - 1);
    note(tally, FULL, number == 24 && committed == EVENTS);
    note(tally, GREATEST, number == 24 && committed == u32::MAX);
}

/// All that may follow 23 or 24 as the second fault of a quote, and 24 after 23.
fn quote_meetings() -> Vec<String> {
    let state = OF_STATE.map(|number| ("state", number));
    let event = OF_EVENT.map(|number| ("event", number));
    let reached = OF_REACHED.map(|number| ("tree reached", number));
    let second: Vec<_> = state.into_iter().chain(event).chain(reached).collect();
    let with = |first| second.iter().map(move |&of| quote_meeting(first, of));
    let neighbours = quote_meeting(23, ("quote", 24));
    with(23).chain(with(24)).chain([neighbours]).collect()
}

/// Notes an event that is carried out, and whether it changes the shares.
pub fn note_event(tally: &mut Tally, event: &ZilqodurEvent, shares: bool) {
    let new_cost = event.kind > 1;
    note(tally, ARRIVED, event.kind == 0);
    note(tally, LEFT, event.kind == 1);
    note(tally, DEARER, new_cost && shares);
    note(tally, UNPAID, new_cost && !shares);
    note(tally, OTHER_KIND, event.kind > 2);
    note(tally, AT_LIMIT, event.vertex == ARCS);
}

/// The most arcs without users that follow one another from the source's side.
fn longest_unused(tree: &Tree) -> usize {
    let mut run = vec![0; tree.arcs() + 1];
    for arc in 1..=tree.arcs() {
        if tree.users[arc].is_empty() {
            run[arc] = run[tree.parent[arc]] + 1;
        }
    }
    run.into_iter().max().unwrap()
}

pub fn note(tally: &mut Tally, name: &str, holds: bool) {
    if holds {
        tally.met.insert(name.to_string());
    }
}

/// Notes what is rare about an accepted tree.
pub fn note_tree(tally: &mut Tally, tree: &Tree) {
    let arcs = tree.arcs();
    let unused = |arc: usize| tree.users[arc].is_empty();
    let spare = (1..=arcs).any(unused);
    let branch = (1..=arcs).any(|arc| unused(arc) && tree.parent[arc] == 0);
    note(tally, NO_SPARE, !spare);
    note(tally, SPARE, spare);
    note(tally, ONE, spare && tree.members.len() == 1);
    note(tally, BRANCH, branch);
    note(tally, LAST, unused(arcs));
    note(tally, RUN, longest_unused(tree) >= LONG);
    note_leftovers(tally, tree);
}

/// Notes what decides over the leftover units of the by-arc split.
fn note_leftovers(tally: &mut Tally, tree: &Tree) {
    let mut tallies = vec![0; tree.members.len()];
    for arc in tree.used() {
        let users = tree.in_turn(arc, &tallies);
        let (served, others) = users.split_at(tree.cost[arc] as usize % users.len());
        if let [.., last] = *served {
            let (first, next) = (served[0], others[0]);
            let tie = tallies[last] == tallies[next] && tallies[last] > 0;
            note(tally, TIE, tie);
            note(tally, PAST, served.iter().max() > others.iter().min());
            note(tally, ONE_EACH, tallies[first] + 1 < tallies[last]);
        }
        served.iter().for_each(|&j| tallies[j] += 1);
    }
    note(tally, MANY, tallies.iter().any(|&count| count > 255));
}

fn branch_meeting(first: u32, second: u32) -> String {
    format!("{first} before {second} of a branch")
}

fn above(bit: u32) -> String {
    format!("25 on the number of an arc from the source with bit {bit} besides")
}

/// Notes a tree's refusal on a number that is no arc's from the source.
pub fn note_branch_refused(tally: &mut Tally, of_tree: Refusal, parents: &[u16], arc: usize) {
    if arc == 0 || parents.get(arc - 1) != Some(&0) {
        tally.met.insert(branch_meeting(of_tree.number, 25));
    }
}

/// Notes the number of a branch's arc on an accepted tree with the length of the
/// list, and what is rare about the branch and its margin.
pub fn note_branch(tally: &mut Tally, tree: &Tree, (arc, length): (usize, usize), margin: u64) {
    let faults = margin::faults(tree, arc, length);
    if let [a, b, ..] = faults[..] {
        tally.met.insert(branch_meeting(a.number, b.number));
    }
    match faults.first().map(|fault| fault.number) {
        None => note_margin(tally, tree, arc, margin),
        Some(25) => {
            let less = |bit: u32| arc.saturating_sub(1 << bit);
            let is_branch = |arc: usize| tree.parent.get(arc) == Some(&0) && arc > 0;
            for bit in ABOVE.into_iter().filter(|&bit| is_branch(less(bit))) {
                tally.met.insert(above(bit));
            }
        }
        Some(26) => {
            note(tally, NOBODY, tree.users[arc].is_empty());
            note(tally, ONE_USER, !tree.users[arc].is_empty());
        }
        Some(_) => (),
    }
}

fn note_margin(tally: &mut Tally, tree: &Tree, arc: usize, margin: u64) {
    let branch = Branch::new(tree, arc);
    let [partial, run] = branch.risen(margin);
    note(tally, NO_MARGIN, margin == 0 && branch.need() > 0);
    note(tally, WIDE, margin > u64::from(u32::MAX));
    note(tally, RISEN, partial);
    note(tally, RISEN_RUN, run);
    note(tally, SPARE_BELOW, branch.spare);
    let users = branch.users();
    let range = users[users.len() - 1] - users[0] + 1;
    note(tally, OTHERS, range > users.len());
}

fn judged(by: &str, total: &str, group: &str) -> String {
    format!("total {total}, group of {group}, by {by}")
}

/// Notes the total of an accepted proposal, and how many of how many members
/// are in the group.
pub fn note_proposal(tally: &mut Tally, by: &str, difference: i64, found: (usize, usize)) {
    let total = match difference {
        ..0 => "low",
        0 => "right",
        _ => "high",
    };
    let group = match found {
        (0, _) => "nobody",
        (size, members) if size < members => "some",
        _ => "all",
    };
    tally.met.insert(judged(by, total, group));
    if group == "all" && found.0 > 64 {
        tally.met.insert(ALL_OF_MANY.to_string());
    }
}

fn reported(lines: &str) -> String {
    format!("a report with {lines}")
}

/// Notes the lines of the audit in a report.
pub fn note_report(tally: &mut Tally, text: &str) {
    let lines = text.lines().filter(|line| line.starts_with("audit "));
    let heads: Vec<String> = lines
        .map(|line| line.split(' ').take(2).collect::<Vec<_>>().join(" "))
        .collect();
    tally.met.insert(reported(&heads.join(", ")));
}

/// What was to be met and was not.
pub fn unmet(tally: &Tally) -> Vec<String> {
    let mut unmet = Vec::new();
    for (entry, on_tree, own) in REFUSALS {
        let tree: &[u32] = if on_tree { &TREE } else { &[] };
        for number in [&[0], tree, own].concat() {
            let cases = tally.cases.get(entry);
            if !cases.is_some_and(|cases| cases.contains_key(&number)) {
                unmet.push(format!("{entry} with refusal {number}"));
            }
        }
    }
    let meetings = AT_ONE_ARC.map(|(a, b)| meeting(a, b, true)).into_iter();
    let apart = APART.map(|(a, b)| meeting(a, b, false));
    let jobs = WRITER.windows(2).map(|pair| job_meeting(pair[0], pair[1]));
    let trees = [NO_SPARE, SPARE, ONE, BRANCH, LAST, RUN, ALL_OF_MANY].map(String::from);
    let leftovers = [TIE, PAST, ONE_EACH, MANY].map(String::from);
    let by = |by| PROPOSALS.map(|(total, group)| judged(by, total, group));
    let proposals = [ARCHIVE, DEFINITION].into_iter().flat_map(by);
    let of_branch = OF_BRANCH.map(|(a, b)| branch_meeting(a, b)).into_iter();
    let of_branch = of_branch.chain(TREE.map(|number| branch_meeting(number, 25)));
    let branches = [NOBODY, ONE_USER, NO_MARGIN, WIDE, RISEN, RISEN_RUN];
    let branches = branches.into_iter().chain([SPARE_BELOW, OTHERS]);
    let branches = branches.map(String::from).chain(ABOVE.map(above));
    let reports = AUDITS.map(reported);
    let with = |second| OF_STATE.map(|first| state_meeting(first, second));
    let states = OF_EVENT.into_iter().flat_map(with);
    let states = states.chain(OF_REACHED.map(reached_fault));
    let events = [ARRIVED, LEFT, DEARER, UNPAID, OTHER_KIND, AT_LIMIT];
    let events = events.into_iter().chain([TWICE_OUTSIDE]);
    let quotes = [BEHIND, AHEAD, LAST_EVENT, FULL, GREATEST];
    let events = events.chain(quotes).map(String::from);
    let rare = meetings.chain(apart).chain(jobs).chain(trees);
    let rare = rare.chain(leftovers).chain(proposals).chain(reports);
    let rare = rare.chain(of_branch).chain(branches);
    let rare = rare.chain(states).chain(events).chain(quote_meetings());
    let rare = rare.chain(rare_level::wanted()).chain(rare_job2::wanted());
    let rare = rare
        .chain(rare_dearer::wanted())
        .chain(rare_classes::wanted())
        .chain(rare_step::wanted());
    unmet.extend(rare.filter(|case| !tally.met.contains(case)));
    unmet
}
