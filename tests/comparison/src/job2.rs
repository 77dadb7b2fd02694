//! Jobs of version 2: the reader, and the conversions from one version to the other.

use crate::job::{self, Fault, Job, TWO};
use crate::reference::{
    check_caps, check_proposal, dead_ends, refusal, tree_faults, Answer, Refusal, ARCS,
};

/// What a job of version 2 holds. The fillers of its rows are the marks.
#[derive(Clone)]
pub struct Job2 {
    pub rows: Job,
    pub floors: Vec<u64>,
}

impl Job2 {
    pub fn write(&self) -> Vec<u8> {
        self.rows.write_as(&TWO, &self.floors)
    }

    /// The vertices that are marked.
    fn marked(&self) -> usize {
        let marks = self.rows.fillers.iter();
        marks.filter(|&&mark| mark == 1).count()
    }

    /// 16, wherever it stands, then the others of a tree.
    fn tree_faults(&self) -> Vec<Refusal> {
        let Job { parents, costs, .. } = &self.rows;
        let faults = tree_faults(parents, costs, &self.rows.fillers);
        let (marks, others): (Vec<Refusal>, Vec<Refusal>) =
            faults.iter().partition(|fault| fault.number == 16);
        marks.into_iter().take(1).chain(others).collect()
    }

    /// All faults of the rows, in the order of the refusals.
    fn faults(&self) -> Vec<Fault> {
        let Job {
            caps, proposals, ..
        } = &self.rows;
        let (floors, members) = (&self.floors, caps.len());
        let above = caps.iter().zip(floors).position(|(cap, floor)| floor > cap);
        let count = (self.marked() != members).then(|| refusal(15, 0));
        let checks = [
            ("members", count),
            ("caps", check_caps(members, caps).err()),
            ("proposals", check_proposal(members, proposals).err()),
            ("floors", check_caps(members, floors).err()),
            ("floors", above.map(|member| refusal(27, member))),
        ];
        let tree = self.tree_faults().into_iter().map(|fault| ("tree", fault));
        tree.chain(checks.into_iter().filter_map(found)).collect()
    }

    /// All faults of the job to be written as one of version 1 besides; `room` is
    /// the length of the output.
    fn faults_back(&self, room: usize) -> Vec<Fault> {
        let ends = dead_ends(&self.rows.parents);
        let spare = |(&mark, &end): (&u16, &u16)| end == 1 && mark != 1;
        let spare = self.rows.fillers.iter().zip(&ends).position(spare);
        let floor = self.floors.iter().position(|&floor| floor > 0);
        let short = room < self.rows.write().len();
        let checks = [
            ("marks", spare.map(|k| refusal(29, k + 1))),
            ("floors", floor.map(|member| refusal(30, member))),
            ("output", short.then(|| refusal(20, 0))),
        ];
        checks.into_iter().filter_map(found).collect()
    }

    /// The same rows with fillers of 0.
    fn back(self) -> Job {
        let fillers = vec![0; self.rows.parents.len()];
        Job {
            fillers,
            ..self.rows
        }
    }
}

fn found((of, check): (&'static str, Option<Refusal>)) -> Option<Fault> {
    Some((of, check?))
}

/// The rows, where the form is right, and all faults of a job of version 2.
fn look(bytes: &[u8]) -> (Option<Job2>, Vec<Fault>) {
    let faults = job::form_faults(bytes, &TWO);
    if !faults.is_empty() {
        return (None, faults);
    }
    let at = job::trailer(bytes);
    let floor = |j| job::number(bytes, at.member_rows + TWO.member_row * j + 16, 8);
    let job = Job2 {
        rows: job::rows(bytes, &TWO),
        floors: (0..at.members).map(floor).collect(),
    };
    let faults = job.faults();
    (Some(job), faults)
}

/// An answer, and all faults in the order of the refusals, the first of which is
/// the refusal.
pub type Found<T> = (Answer<T>, Vec<Fault>);

fn first<T>(value: Option<T>, faults: Vec<Fault>) -> Found<T> {
    let answer = match faults.first() {
        Some(&(_, fault)) => Err(fault),
        None => Ok(value.expect("what has no fault has rows")),
    };
    (answer, faults)
}

/// Reads a job; `lent` has the lengths of the six lent lists.
pub fn read(bytes: &[u8], lent: [usize; 6]) -> Found<Job2> {
    let (job, faults) = look(bytes);
    let short = lent.iter().any(|&length| length < ARCS);
    let room = short.then_some(("lists", refusal(10, 0)));
    first(job, room.into_iter().chain(faults).collect())
}

/// The bytes of the job of version 1; `room` is the length of the output.
pub fn to_1(bytes: &[u8], room: usize) -> Found<Vec<u8>> {
    let (job, mut faults) = look(bytes);
    faults.extend(job.iter().flat_map(|job| job.faults_back(room)));
    first(job.map(|job| job.back().write()), faults)
}

/// The job of version 2 with the same rows, every dead end marked and floors of 0.
pub fn with_dead_ends(job: Job) -> Job2 {
    let floors = vec![0; job.caps.len()];
    let fillers = dead_ends(&job.parents);
    let rows = Job { fillers, ..job };
    Job2 { rows, floors }
}

/// The bytes of the job of version 2; `room` is the length of the output.
pub fn to_2(bytes: &[u8], room: usize) -> Answer<Vec<u8>> {
    let written = with_dead_ends(job::read(bytes, [ARCS; 4])?).write();
    if room < written.len() {
        return Err(refusal(20, 0));
    }
    Ok(written)
}
