//! One call of an entry compared with the reference: the answer, and every
//! lent list with the canaries around it.

use crate::ffi::{self, *};
use crate::lent::Lent;
use crate::level;
use crate::margin;
use crate::reference::{self, Answer, Refusal, Tree};
use crate::tally::Tally;

fn check(answer: Answer<()>) -> ZilqodurCheck {
    match answer {
        Ok(()) => ZilqodurCheck::default(),
        Err(Refusal { number, place, .. }) => ZilqodurCheck {
            refusal: number,
            place,
        },
    }
}

pub fn members(answer: Answer<usize>) -> ZilqodurMembers {
    match answer {
        Ok(members) => ZilqodurMembers {
            members,
            ..Default::default()
        },
        Err(r) => ZilqodurMembers {
            refusal: r.number,
            place: r.place,
            members: 0,
        },
    }
}

fn total(answer: Answer<i64>) -> ZilqodurTotal {
    match answer {
        Ok(difference) => ZilqodurTotal {
            verdict: if difference == 0 { 1 } else { 2 },
            difference,
            ..Default::default()
        },
        Err(r) => ZilqodurTotal {
            refusal: r.number,
            place: r.place,
            ..Default::default()
        },
    }
}

fn search(answer: Answer<Option<(u64, Vec<usize>)>>) -> ZilqodurSearch {
    let mut expected = ZilqodurSearch::default();
    match answer {
        Ok(None) => expected.verdict = 1,
        Ok(Some((amount, group))) => {
            expected.verdict = 2;
            expected.amount = amount;
            expected.size = group.len();
            group
                .iter()
                .for_each(|j| expected.group[j / 64] |= 1 << (j % 64));
        }
        Err(r) => (expected.refusal, expected.place) = (r.number, r.place),
    }
    expected
}

/// The list after a call: what is written, or on a refusal the list as lent.
pub fn written<T: Clone>(before: &[T], answer: Answer<Vec<T>>) -> Vec<T> {
    answer.unwrap_or_else(|_| before.to_vec())
}

pub fn check_caps(tally: &mut Tally, count: usize, caps: &[u64]) {
    let lent = Lent::new(caps);
    let given = ffi::check_caps(count, lent.list());
    let expected = check(reference::check_caps(count, caps));
    tally.case(
        "check_caps",
        expected.refusal,
        [given, expected],
        lent.holds(caps),
    );
}

pub fn check_proposal(tally: &mut Tally, count: usize, proposal: &[i64]) {
    let lent = Lent::new(proposal);
    let given = ffi::check_proposal(count, lent.list());
    let expected = check(reference::check_proposal(count, proposal));
    tally.case(
        "check_proposal",
        expected.refusal,
        [given, expected],
        lent.holds(proposal),
    );
}

/// A tree as handed in, checked or not.
#[derive(Clone)]
pub struct Network {
    pub parents: Vec<u16>,
    pub costs: Vec<u32>,
    pub marks: Vec<u16>,
}

impl Network {
    pub fn tree(&self) -> Answer<Tree> {
        Tree::new(&self.parents, &self.costs, &self.marks)
    }

    pub fn faults(&self) -> Vec<Refusal> {
        reference::tree_faults(&self.parents, &self.costs, &self.marks)
    }

    pub fn lend(&self) -> (Lent<u16>, Lent<u32>, Lent<u16>) {
        (
            Lent::new(&self.parents),
            Lent::new(&self.costs),
            Lent::new(&self.marks),
        )
    }

    pub fn kept(&self, p: &Lent<u16>, c: &Lent<u32>, m: &Lent<u16>) -> bool {
        p.holds(&self.parents) && c.holds(&self.costs) && m.holds(&self.marks)
    }

    pub fn check_tree(&self, tally: &mut Tally) {
        let (p, c, m) = self.lend();
        let given = ffi::check_tree(p.list(), c.list(), m.list());
        let expected = check(self.tree().map(|_| ()));
        tally.case(
            "check_tree",
            expected.refusal,
            [given, expected],
            self.kept(&p, &c, &m),
        );
    }

    pub fn mark_dead_ends(&self, tally: &mut Tally, out: &[u16]) {
        let answer = reference::mark_dead_ends(&self.parents, &self.costs, out.len());
        let (p, c, m) = self.lend();
        let mut lent = Lent::new(out);
        let given = ffi::mark_dead_ends(p.list(), c.list(), lent.list_mut());
        let ones = |marks: &Vec<u16>| marks.iter().filter(|&&mark| mark == 1).count();
        let expected = members(answer.as_ref().map(ones).map_err(|&r| r));
        let lists = self.kept(&p, &c, &m) && lent.holds(&written(out, answer));
        tally.case("mark_dead_ends", expected.refusal, [given, expected], lists);
    }

    pub fn count_members(&self, tally: &mut Tally) {
        let (p, c, m) = self.lend();
        let given = ffi::count_members(p.list(), c.list(), m.list());
        let expected = members(self.tree().map(|tree| tree.members.len()));
        tally.case(
            "count_members",
            expected.refusal,
            [given, expected],
            self.kept(&p, &c, &m),
        );
    }

    pub fn list_members(&self, tally: &mut Tally, out: &[u16]) {
        let answer = reference::list_members(self.tree(), out.len());
        let (p, c, m) = self.lend();
        let mut lent = Lent::new(out);
        let given = ffi::list_members(p.list(), c.list(), m.list(), lent.list_mut());
        let expected = members(answer.as_ref().map(Vec::len).map_err(|&r| r));
        let lists = self.kept(&p, &c, &m) && lent.holds(&written(out, answer));
        tally.case("list_members", expected.refusal, [given, expected], lists);
    }

    pub fn list_needs(&self, tally: &mut Tally, out: &[u64]) {
        let answer = reference::list_needs(self.tree(), out.len());
        let (p, c, m) = self.lend();
        let mut lent = Lent::new(out);
        let given = ffi::list_needs(p.list(), c.list(), m.list(), lent.list_mut());
        let expected = match &answer {
            Ok((tree, _)) => ZilqodurNeeds {
                whole: tree.whole(),
                members: tree.members.len(),
                ..Default::default()
            },
            Err(r) => ZilqodurNeeds {
                refusal: r.number,
                place: r.place,
                ..Default::default()
            },
        };
        let needs = answer.map(|(_, needs)| needs);
        let lists = self.kept(&p, &c, &m) && lent.holds(&written(out, needs));
        tally.case("list_needs", expected.refusal, [given, expected], lists);
    }

    pub fn group_cost(&self, tally: &mut Tally, group: &[u64; 16]) {
        let (p, c, m) = self.lend();
        let lent = Lent::new(group);
        let given = ffi::group_cost(
            p.list(),
            c.list(),
            m.list(),
            lent.list().try_into().unwrap(),
        );
        let expected = match reference::group_cost(self.tree(), group) {
            Ok((size, cost)) => ZilqodurGroup {
                size,
                cost,
                ..Default::default()
            },
            Err(r) => ZilqodurGroup {
                refusal: r.number,
                place: r.place,
                ..Default::default()
            },
        };
        let lists = self.kept(&p, &c, &m) && lent.holds(group);
        tally.case("group_cost", expected.refusal, [given, expected], lists);
    }

    /// Answers what is expected.
    pub fn check_total(&self, tally: &mut Tally, proposal: &[i64]) -> ZilqodurTotal {
        let (p, c, m) = self.lend();
        let lent = Lent::new(proposal);
        let given = ffi::check_total(p.list(), c.list(), m.list(), lent.list());
        let expected = total(reference::check_total(self.tree(), proposal));
        let lists = self.kept(&p, &c, &m) && lent.holds(proposal);
        tally.case("check_total", expected.refusal, [given, expected], lists);
        expected
    }

    /// Answers what is expected.
    pub fn find_group(&self, tally: &mut Tally, proposal: &[i64]) -> ZilqodurSearch {
        let (p, c, m) = self.lend();
        let lent = Lent::new(proposal);
        let given = ffi::find_group(p.list(), c.list(), m.list(), lent.list());
        let expected = search(reference::find_group(self.tree(), proposal));
        let lists = self.kept(&p, &c, &m) && lent.holds(proposal);
        tally.case("find_group", expected.refusal, [given, expected], lists);
        expected
    }

    pub fn list_cap_sums(&self, tally: &mut Tally, caps: &[u64], out: &[u64]) {
        let answer = reference::list_cap_sums(self.tree(), caps, out.len());
        let (p, c, m) = self.lend();
        let (limits, mut lent) = (Lent::new(caps), Lent::new(out));
        let given =
            ffi::list_cap_sums(p.list(), c.list(), m.list(), limits.list(), lent.list_mut());
        let expected = match &answer {
            Ok((total, _)) => ZilqodurCapSums {
                total: *total,
                ..Default::default()
            },
            Err(r) => ZilqodurCapSums {
                refusal: r.number,
                place: r.place,
                total: 0,
            },
        };
        let sums = answer.map(|(_, sums)| sums);
        let lists = self.kept(&p, &c, &m) && limits.holds(caps) && lent.holds(&written(out, sums));
        tally.case("list_cap_sums", expected.refusal, [given, expected], lists);
    }

    /// Answers the list that the archive gives, where it does not refuse.
    pub fn split_level(
        &self,
        tally: &mut Tally,
        caps: &[u64],
        floors: &[u64],
        out: &[u64],
    ) -> Option<Vec<u64>> {
        let answer = level::split_level(self.tree(), caps, floors, out.len());
        let (p, c, m) = self.lend();
        let (most, least, mut lent) = (Lent::new(caps), Lent::new(floors), Lent::new(out));
        let given = ffi::split_level(
            p.list(),
            c.list(),
            m.list(),
            most.list(),
            least.list(),
            lent.list_mut(),
        );
        let expected = match &answer {
            Ok(shares) => ZilqodurLevel {
                members: shares.len(),
                ..Default::default()
            },
            Err(r) => ZilqodurLevel {
                refusal: r.number,
                place: r.place,
                shortfall: r.shortfall,
                members: 0,
            },
        };
        let kept = self.kept(&p, &c, &m) && most.holds(caps) && least.holds(floors);
        let lists = kept && lent.holds(&written(out, answer));
        let shares = (given.refusal == 0).then(|| lent.list().to_vec());
        tally.case("split_level", expected.refusal, [given, expected], lists);
        shares
    }

    pub fn split_by_arc(&self, tally: &mut Tally, out: &[u64]) {
        let answer = reference::split_by_arc(self.tree(), out.len());
        let (p, c, m) = self.lend();
        let mut lent = Lent::new(out);
        let given = ffi::split_by_arc(p.list(), c.list(), m.list(), lent.list_mut());
        let expected = members(answer.as_ref().map(Vec::len).map_err(|&r| r));
        let lists = self.kept(&p, &c, &m) && lent.holds(&written(out, answer));
        tally.case("split_by_arc", expected.refusal, [given, expected], lists);
    }

    /// Answers what is expected.
    pub fn split_margin(&self, tally: &mut Tally, arc: usize, out: &[u64]) -> ZilqodurMargin {
        let answer = margin::split_margin(self.tree(), arc, out.len());
        let (p, c, m) = self.lend();
        let mut lent = Lent::new(out);
        let given = ffi::split_margin(p.list(), c.list(), m.list(), arc, lent.list_mut());
        let expected = match &answer {
            Ok((margin, shares)) => ZilqodurMargin {
                margin: *margin,
                users: shares.len(),
                ..Default::default()
            },
            Err(r) => ZilqodurMargin {
                refusal: r.number,
                place: r.place,
                ..Default::default()
            },
        };
        let shares = answer.map(|(_, shares)| shares);
        let lists = self.kept(&p, &c, &m) && lent.holds(&written(out, shares));
        tally.case("split_margin", expected.refusal, [given, expected], lists);
        expected
    }
}
