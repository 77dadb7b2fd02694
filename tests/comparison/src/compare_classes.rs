//! The split of cost classes compared with the reference; against the by-arc
//! split of each class; and its shares, added over the classes, in the audit.

use crate::brute;
use crate::classes::{added, ClassSplit, Classed, CLASSES};
use crate::compare::{members, written, Network};
use crate::ffi::{self, ZilqodurClassSplit, ZilqodurMembers};
use crate::filled;
use crate::generate;
use crate::generate_classes;
use crate::lent::Lent;
use crate::rare_classes;
use crate::reference::{dead_ends, Answer, ARCS, COST};
use crate::rng::Rng;
use crate::tally::Tally;

fn expected(answer: &Answer<ClassSplit>) -> ZilqodurClassSplit {
    match answer {
        Ok(split) => ZilqodurClassSplit {
            members: split.members,
            totals: split.totals,
            ..Default::default()
        },
        Err(r) => ZilqodurClassSplit {
            refusal: r.number,
            place: r.place,
            ..Default::default()
        },
    }
}

/// Where the lists are accepted, what is written is compared with other entries
/// besides.
pub fn split_classes(tally: &mut Tally, call: &Classed, out: &[u64]) {
    let answer = call.split(out.len());
    let (p, c, m) = call.lists.lend();
    let mut lent = Lent::new(out);
    let given = ffi::split_classes(p.list(), c.list(), m.list(), call.classes, lent.list_mut());
    let expected = expected(&answer);
    rare_classes::note_call(tally, call, out.len(), &answer);
    let shares = answer.map(|split| split.shares);
    let lists = call.lists.kept(&p, &c, &m) && lent.holds(&written(out, shares));
    tally.case("split_classes", expected.refusal, [given, expected], lists);
    if expected.refusal == 0 {
        each_class(tally, call, lent.list());
        audit(tally, call, &added(lent.list(), call.members()));
    }
}

/// The archive's by-arc split of each class.
fn each_class(tally: &mut Tally, call: &Classed, shares: &[u64]) {
    let mut out = vec![77; call.members()];
    for (class, part) in shares.chunks(call.members()).enumerate() {
        let n = call.of_class(class);
        let given = ffi::split_by_arc(&n.parents, &n.costs, &n.marks, &mut out);
        let accepted = members(Ok(call.members()));
        let name = "each class is a by-arc split";
        tally.case(name, 0, [given, accepted], out == part);
    }
}

/// The audit by the archive and, where the network is small, by the definition.
fn audit(tally: &mut Tally, call: &Classed, shares: &[u64]) {
    let n = call.summed();
    let proposal: Vec<i64> = shares.iter().map(|&share| share as i64).collect();
    let total = ffi::check_total(&n.parents, &n.costs, &n.marks, &proposal);
    let search = ffi::find_group(&n.parents, &n.costs, &n.marks, &proposal);
    let mut case = |name, agree| tally.case(name, 0, [agree, true], true);
    case("added shares adding up", total.verdict == 1);
    case("added shares without a group", search.verdict == 1);
    if n.parents.len() <= 40 && shares.len() <= 8 {
        let tree = n.tree().expect("accepted lists have an accepted tree");
        let costs = brute::group_costs(&tree);
        case("definition of the core", brute::in_core(&costs, shares));
    }
}

/// One class beside the by-arc split, by the archive, also where it refuses.
fn one_class(tally: &mut Tally, n: &Network, out: &[u64]) {
    let (mut a, mut b) = (Lent::new(out), Lent::new(out));
    let given = ffi::split_classes(&n.parents, &n.costs, &n.marks, 1, a.list_mut());
    let by_arc = ffi::split_by_arc(&n.parents, &n.costs, &n.marks, b.list_mut());
    let given = ZilqodurMembers {
        refusal: given.refusal,
        place: given.place,
        members: given.members,
    };
    tally.case(
        "one class is the by-arc split",
        by_arc.refusal,
        [given, by_arc],
        a.holds(b.list()),
    );
}

/// An output for the call, most often of the right length.
fn lend(rng: &mut Rng, call: &Classed) -> Vec<u64> {
    let classes = call.classes.min(CLASSES + 1);
    let right = call.members() * classes;
    let length = match rng.below(8) {
        0 => call.members() * rng.below(CLASSES + 2),
        _ => generate::length(rng, right),
    };
    filled(rng, length, |n| n)
}

/// The network's costs in classes, valid and damaged; and the network itself.
pub fn round(tally: &mut Tally, rng: &mut Rng, network: &Network) {
    for _ in 0..2 {
        let mut call = generate_classes::classed(rng, network);
        let out = lend(rng, &call);
        split_classes(tally, &call, &out);
        generate_classes::damage(rng, &mut call);
        let out = lend(rng, &call);
        split_classes(tally, &call, &out);
    }
    let mut lists = network.clone();
    let members = lists.marks.iter().filter(|&&mark| mark == 1).count();
    for _ in 0..2 {
        let length = generate::length(rng, members);
        one_class(tally, &lists, &filled(rng, length, |n| n));
        generate::damage_tree(rng, &mut lists);
    }
}

/// Chains that end in some members, with as many leftover units in each class as
/// can be, and at the limit.
pub fn largest(tally: &mut Tally) {
    for members in [1, 2, 33, 512, ARCS - 1] {
        let chain = ARCS - members;
        let parents: Vec<u16> = (0..ARCS).map(|above| above.min(chain) as u16).collect();
        for classes in 1..=CLASSES {
            let most = COST / classes as u32;
            for cost in [members as u32 - 1, most, most + 1] {
                let lists = Network {
                    costs: vec![cost; classes * ARCS],
                    marks: dead_ends(&parents),
                    parents: parents.clone(),
                };
                let call = Classed { lists, classes };
                split_classes(tally, &call, &vec![77; classes * members]);
            }
        }
    }
}
