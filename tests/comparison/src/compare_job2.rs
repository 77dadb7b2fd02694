//! Jobs of version 2, and jobs converted from one version to the other: the calls
//! compared with the reference, on valid jobs, with faults, and on any bytes.

use crate::compare::Network;
use crate::compare_job::{front, job_length, job_read, JobLists, LentLists};
use crate::ffi::{self, ZilqodurJobLength};
use crate::filled;
use crate::generate;
use crate::generate_job;
use crate::generate_job2;
use crate::job::{Job, ONE, TWO};
use crate::job2::{self, Job2};
use crate::lent::Lent;
use crate::rare_job2;
use crate::reference::{Answer, AMOUNT, ARCS, COST};
use crate::rng::Rng;
use crate::tally::Tally;

/// The six lists lent to the reader.
struct Lists {
    rows: JobLists,
    marks: Vec<u16>,
    floors: Vec<u64>,
}

impl Lists {
    fn new(rng: &mut Rng) -> Lists {
        let [parents, costs, marks, caps, proposals, floors] = generate_job::lent_lengths(rng);
        Lists {
            rows: JobLists {
                parents: filled(rng, parents, |n| n as u16),
                costs: filled(rng, costs, |n| n as u32),
                caps: filled(rng, caps, |n| n),
                proposals: filled(rng, proposals, |n| n as i64),
            },
            marks: filled(rng, marks, |n| n as u16),
            floors: filled(rng, floors, |n| n),
        }
    }

    fn lengths(&self) -> [usize; 6] {
        let [parents, costs, caps, proposals] = self.rows.lengths();
        let (marks, floors) = (self.marks.len(), self.floors.len());
        [parents, costs, marks, caps, proposals, floors]
    }

    fn fill(&mut self, job: &Job2) {
        self.rows.fill(&job.rows);
        front(&mut self.marks, &job.rows.fillers);
        front(&mut self.floors, &job.floors);
    }
}

fn read_job2(tally: &mut Tally, bytes: &[u8], mut lists: Lists) {
    let (answer, faults) = job2::read(bytes, lists.lengths());
    rare_job2::note_read(tally, bytes, answer.as_ref().ok(), &faults);
    let (lent, mut rows) = (Lent::new(bytes), LentLists::new(&lists.rows));
    let (mut marks, mut floors) = (Lent::new(&lists.marks), Lent::new(&lists.floors));
    let given = ffi::read_job2(
        lent.list(),
        rows.parents.list_mut(),
        rows.costs.list_mut(),
        marks.list_mut(),
        rows.caps.list_mut(),
        rows.proposals.list_mut(),
        floors.list_mut(),
    );
    answer.iter().for_each(|job| lists.fill(job));
    let expected = job_read(answer.as_ref().map(|job| &job.rows));
    let members = marks.holds(&lists.marks) && floors.holds(&lists.floors);
    let hold = lent.holds(bytes) && rows.hold(&lists.rows) && members;
    tally.case("read_job2", expected.refusal, [given, expected], hold);
}

/// A conversion, and the one that leads back.
struct Conversion {
    name: &'static str,
    there: fn(&[u8], &mut [u8]) -> ZilqodurJobLength,
    back: fn(&[u8], &mut [u8]) -> ZilqodurJobLength,
    and_back: &'static str,
}

const TO_2: Conversion = Conversion {
    name: "job_to_2",
    there: ffi::job_to_2,
    back: ffi::job_to_1,
    and_back: "job to version 2 and back",
};

const TO_1: Conversion = Conversion {
    name: "job_to_1",
    there: ffi::job_to_1,
    back: ffi::job_to_2,
    and_back: "job to version 1 and back",
};

impl Conversion {
    /// The call on an output of this content, which is to give this answer. A job
    /// that is written is converted back.
    fn compare(&self, tally: &mut Tally, bytes: &[u8], out: &[u8], answer: Answer<Vec<u8>>) {
        let (lent, mut lent_out) = (Lent::new(bytes), Lent::new(out));
        let given = (self.there)(lent.list(), lent_out.list_mut());
        let mut written = out.to_vec();
        answer.iter().for_each(|bytes| front(&mut written, bytes));
        let expected = job_length(answer.map(|bytes| bytes.len()));
        let lists = lent.holds(bytes) && lent_out.holds(&written);
        rare_job2::note_room(tally, self.name, &expected, out.len());
        tally.case(self.name, expected.refusal, [given, expected], lists);
        if expected.refusal == 0 {
            let there = &lent_out.list()[..expected.length];
            let mut again = vec![0xFF; bytes.len()];
            let given = (self.back)(there, &mut again);
            let expected = job_length(Ok(bytes.len()));
            tally.case(self.and_back, 0, [given, expected], again == bytes);
        }
    }
}

/// An output most often as long as the converted job, if there is one.
fn output(rng: &mut Rng, converted: &Answer<Vec<u8>>) -> Vec<u8> {
    let length = converted.as_ref().map_or(100, Vec::len);
    let length = generate::length(rng, length);
    filled(rng, length, |n| n as u8)
}

pub fn to_2(tally: &mut Tally, bytes: &[u8], out: &[u8]) {
    TO_2.compare(tally, bytes, out, job2::to_2(bytes, out.len()));
}

pub fn to_1(tally: &mut Tally, bytes: &[u8], out: &[u8]) {
    let (answer, faults) = job2::to_1(bytes, out.len());
    rare_job2::note_first(tally, &faults);
    TO_1.compare(tally, bytes, out, answer);
}

/// The reader and the conversions.
fn compare(tally: &mut Tally, rng: &mut Rng, bytes: &[u8]) {
    read_job2(tally, bytes, Lists::new(rng));
    let out = output(rng, &job2::to_2(bytes, usize::MAX));
    to_2(tally, bytes, &out);
    let out = output(rng, &job2::to_1(bytes, usize::MAX).0);
    to_1(tally, bytes, &out);
}

/// The same, and the reader of version 1 and the report.
fn compare_both(tally: &mut Tally, rng: &mut Rng, bytes: &[u8]) {
    compare(tally, rng, bytes);
    crate::compare_job(tally, rng, bytes);
}

/// Jobs of both versions: valid, with faults, with changed bytes; and any bytes.
pub fn round(tally: &mut Tally, rng: &mut Rng, network: &Network) {
    let valid = generate_job2::valid(rng, network);
    compare_both(tally, rng, &valid.write());
    let mut rows = valid.clone();
    generate_job2::damage(rng, &mut rows);
    compare(tally, rng, &rows.write());
    let mut bytes = rng.pick(&[&valid, &valid, &rows]).write();
    for _ in 0..1 + rng.below(2) {
        generate_job::damage_bytes(rng, &mut bytes, &TWO);
    }
    compare_both(tally, rng, &bytes);
    let bytes = generate_job::arbitrary(rng, &TWO);
    compare(tally, rng, &bytes);
    round_of_1(tally, rng, network);
}

fn round_of_1(tally: &mut Tally, rng: &mut Rng, network: &Network) {
    let valid = generate_job::valid(rng, &network.parents, &network.costs);
    compare(tally, rng, &valid.write());
    let mut rows = valid.clone();
    generate_job::damage_rows(rng, &mut rows);
    compare(tally, rng, &rows.write());
    let mut bytes = valid.write();
    generate_job::damage_bytes(rng, &mut bytes, &ONE);
    compare(tally, rng, &bytes);
}

/// The empty job, stars at the greatest length and past it, and as many arc rows as
/// there is room for.
pub fn longest(tally: &mut Tally) {
    let rng = &mut Rng::new(tally.seed);
    compare_both(tally, rng, &[]);
    for (arcs, members, note, mark) in [
        (ARCS, ARCS, 255, 1),
        (ARCS, ARCS, 256, 1),
        (ARCS + 1, ARCS, 247, 1),
        (ARCS + 1, ARCS + 1, 223, 1),
        (4_123, 0, 7, 0),
        (4_123, 0, 7, 2),
        (4_123, 0, 8, 2),
        (4_124, 0, 0, 2),
    ] {
        for floor in [0, 1, AMOUNT, AMOUNT + 1] {
            let job = star(arcs, members, vec![0xFF; note], (mark, floor));
            compare_both(tally, rng, &job.write());
        }
    }
}

/// A job of version 2 with the mark at the last vertex and the floor at the last member.
fn star(arcs: usize, members: usize, note: Vec<u8>, (mark, floor): (u16, u64)) -> Job2 {
    let mut fillers = vec![1; arcs];
    fillers[arcs - 1] = mark;
    let mut floors = vec![0; members];
    if let Some(last) = floors.last_mut() {
        *last = floor;
    }
    let rows = Job {
        note,
        parents: vec![0; arcs],
        fillers,
        costs: vec![COST; arcs],
        caps: vec![AMOUNT; members],
        proposals: vec![-(AMOUNT as i64); members],
    };
    Job2 { rows, floors }
}
