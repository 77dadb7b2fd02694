//! The cases of the split of cost classes that a run of all rounds is to meet:
//! refusals that stand at once, sums about the limit, numbers and lengths that
//! are refused, and splits of every number of classes.

use crate::classes::{added, ClassSplit, Classed, CLASSES};
use crate::rare::note;
use crate::reference::{Answer, Refusal, Tree, COST};
use crate::tally::Tally;

/// The first two faults, standing at one arc.
const AT_ONE_ARC: [(u32, u32); 5] = [(3, 4), (3, 16), (3, 17), (4, 16), (4, 17)];

/// The same, not at one arc.
#[rustfmt::skip]
const APART: [(u32, u32); 26] = [
    (32, 1), (32, 2), (32, 3), (32, 4), (1, 2), (2, 3), (2, 4), (2, 16), (2, 17), (2, 18), (2, 8),
    (4, 3), (16, 3), (16, 4), (16, 17), (17, 3), (17, 4), (17, 16), (3, 18), (4, 18), (16, 18),
    (3, 8), (4, 8), (16, 8), (17, 8), (18, 8),
];

/// The bits of a number above those of a number of classes.
const ABOVE: [u32; 3] = [16, 32, 63];

const NO_CLASS: &str = "32 on no class";
const FIVE: &str = "32 as the only fault, on five classes";
const GREATEST: &str = "32 on the greatest number";

const COSTS: &str = "2 on costs alone, before 3";
const MARKS: &str = "2 on marks alone, before 3";
const FEWER: &str = "2 on the costs of fewer classes";
const MORE: &str = "2 on the costs of more classes";

const UNIT: &str = "4 on a sum a unit above the limit, no class being above it";
const ALONE: &str = "4 on one class above the limit, the others being 0";
const WRAPPED: &str = "4 on a sum that is within the limit in its last 32 bits";
const ALL_GREATEST: &str = "4 on four costs that are the greatest number";
const NOBODY: &str = "4 at an arc without users";

const FOR_ONE: &str = "8 on the shares of one class of several";
const FOR_MORE: &str = "8 on the shares of more classes";
const SHORT: &str = "8 on a share less";
const LONG: &str = "8 on a share more";

const AT_LIMIT: &str = "a sum at the limit, with a cost above 0 in each of four classes";
const SPARE: &str = "an arc without users with a cost above 0 in each of several classes";
const NO_COST: &str = "a class without cost beside one with";
const ALIKE: &str = "two classes with the same costs, which leave units over";
const OTHERWISE: &str = "added shares that are not the by-arc split of the sums";

#[rustfmt::skip]
const NAMED: [&str; 21] = [
    NO_CLASS, FIVE, GREATEST, COSTS, MARKS, FEWER, MORE, UNIT, ALONE, WRAPPED, ALL_GREATEST, NOBODY,
    FOR_ONE, FOR_MORE, SHORT, LONG, AT_LIMIT, SPARE, NO_COST, ALIKE, OTHERWISE,
];

fn meeting(first: u32, second: u32, at_one_arc: bool) -> String {
    let place = if at_one_arc { " at one arc" } else { "" };
    format!("{first} before {second}{place} of classes")
}

fn above(bit: u32) -> String {
    format!("32 on a number of classes with bit {bit} besides")
}

fn split_of(classes: usize) -> String {
    format!("a split of {classes} classes")
}

fn wide(class: usize) -> String {
    format!("a total beyond 32 bits in class {class}")
}

/// Notes the first two faults, and what is rare about the first or the split.
pub fn note_call(tally: &mut Tally, call: &Classed, length: usize, answer: &Answer<ClassSplit>) {
    let faults = call.faults(length);
    if let [a, b, ..] = faults[..] {
        let at_one_arc = a.place == b.place && a.place > 0;
        tally.met.insert(meeting(a.number, b.number, at_one_arc));
    }
    match answer {
        Ok(split) => note_split(tally, call, split),
        Err(r) if r.number == 32 => note_number(tally, call.classes, faults.len()),
        Err(r) if r.number == 2 => note_lengths(tally, call, &faults),
        Err(r) if r.number == 4 => note_sum(tally, call, r.place, &faults),
        Err(r) if r.number == 8 => note_output(tally, call, length),
        Err(_) => (),
    }
}

fn note_number(tally: &mut Tally, classes: usize, faults: usize) {
    note(tally, NO_CLASS, classes == 0);
    note(tally, FIVE, classes == 5 && faults == 1);
    note(tally, GREATEST, classes == usize::MAX);
    for bit in ABOVE {
        let less = classes.wrapping_sub(1 << bit);
        note(tally, &above(bit), (1..=CLASSES).contains(&less));
    }
}

fn note_lengths(tally: &mut Tally, call: &Classed, faults: &[Refusal]) {
    let (arcs, costs) = (call.arcs(), call.lists.costs.len());
    let has_marks = call.lists.marks.len() == arcs;
    let before = faults.get(1).is_some_and(|fault| fault.number == 3);
    note(tally, COSTS, before && has_marks);
    note(tally, MARKS, before && call.has_costs());
    let whole = has_marks && costs > 0 && costs % arcs == 0;
    note(tally, FEWER, whole && costs / arcs < call.classes);
    note(tally, MORE, whole && costs / arcs > call.classes);
}

fn note_sum(tally: &mut Tally, call: &Classed, arc: usize, faults: &[Refusal]) {
    let (costs, limit) = (call.costs_of(arc), u64::from(COST));
    let sum: u64 = costs.iter().sum();
    let some = costs.iter().filter(|&&cost| cost > 0).count();
    let greatest = costs.iter().all(|&cost| cost == u64::from(u32::MAX));
    let last = sum % (1 << 32);
    note(tally, UNIT, sum == limit + 1 && some > 1);
    note(tally, ALONE, costs.len() > 1 && some == 1);
    note(tally, WRAPPED, last <= limit);
    note(tally, ALL_GREATEST, costs.len() == 4 && greatest);
    if faults.len() == 1 {
        let mut lists = call.summed();
        lists.costs.fill(0);
        let tree = lists.tree().expect("the costs are the only fault");
        note(tally, NOBODY, tree.users[arc].is_empty());
    }
}

fn note_output(tally: &mut Tally, call: &Classed, length: usize) {
    let (members, right) = (call.members(), call.members() * call.classes);
    let more = length % members == 0 && length > right;
    note(tally, FOR_ONE, call.classes > 1 && length == members);
    note(tally, FOR_MORE, more && length / members <= CLASSES);
    note(tally, SHORT, members > 1 && length + 1 == right);
    note(tally, LONG, members > 1 && length == right + 1);
}

fn leaves_over(tree: &Tree) -> bool {
    let left = |arc: usize| tree.cost[arc] % tree.users[arc].len() as u64;
    tree.used().any(|arc| left(arc) > 0)
}

fn note_split(tally: &mut Tally, call: &Classed, split: &ClassSplit) {
    let tree = call.summed().tree().expect("the sums are accepted");
    let in_use = 0..call.classes;
    let positive = |arc: usize| call.costs_of(arc).iter().all(|&cost| cost > 0);
    let mut arcs = 1..=tree.arcs();
    let at_limit = |arc: usize| tree.cost[arc] == u64::from(COST) && positive(arc);
    note(tally, &split_of(call.classes), true);
    let limit = call.classes == CLASSES && arcs.clone().any(at_limit);
    note(tally, AT_LIMIT, limit);
    let spare = arcs.any(|arc| tree.users[arc].is_empty() && positive(arc));
    note(tally, SPARE, spare && call.classes > 1);
    let empty = in_use.clone().any(|class| split.totals[class] == 0);
    note(tally, NO_COST, empty && tree.whole() > 0);
    for class in in_use {
        let total = split.totals[class];
        note(tally, &wide(class), total > u64::from(u32::MAX));
    }
    let of_class = |class: usize| call.of_class(class).tree().expect("a class is accepted");
    let first = of_class(0);
    let mut others = (1..call.classes).map(of_class);
    let alike = others.any(|other| other.cost == first.cost);
    note(tally, ALIKE, alike && leaves_over(&first));
    let added = added(&split.shares, split.members);
    note(tally, OTHERWISE, added != tree.by_arc());
}

/// All that is to be met.
pub fn wanted() -> impl Iterator<Item = String> {
    let at_one_arc = AT_ONE_ARC.map(|(a, b)| meeting(a, b, true));
    let apart = APART.map(|(a, b)| meeting(a, b, false));
    let numbers = (1..=CLASSES).map(split_of).chain((0..CLASSES).map(wide));
    let named = NAMED.map(String::from).into_iter().chain(ABOVE.map(above));
    at_one_arc
        .into_iter()
        .chain(apart)
        .chain(numbers)
        .chain(named)
}
