//! One call that reads or writes a job's bytes compared with the reference: the
//! answer, and every lent list with the canaries around it.

use crate::ffi::{self, *};
use crate::job::{self, Job};
use crate::lent::Lent;
use crate::rare;
use crate::reference::{Answer, Refusal, ARCS};
use crate::report;
use crate::tally::Tally;
use std::sync::LazyLock;

/// The four lists lent to the job reader, or handed to the job writer.
pub struct JobLists {
    pub parents: Vec<u16>,
    pub costs: Vec<u32>,
    pub caps: Vec<u64>,
    pub proposals: Vec<i64>,
}

pub fn front<T: Clone>(list: &mut [T], rows: &[T]) {
    list[..rows.len()].clone_from_slice(rows);
}

impl JobLists {
    /// A job's rows.
    fn of(job: &Job) -> JobLists {
        JobLists {
            parents: job.parents.clone(),
            costs: job.costs.clone(),
            caps: job.caps.clone(),
            proposals: job.proposals.clone(),
        }
    }

    /// Room for every job.
    fn room() -> JobLists {
        JobLists {
            parents: vec![7; ARCS],
            costs: vec![7; ARCS],
            caps: vec![7; ARCS],
            proposals: vec![7; ARCS],
        }
    }

    pub fn lengths(&self) -> [usize; 4] {
        [
            self.parents.len(),
            self.costs.len(),
            self.caps.len(),
            self.proposals.len(),
        ]
    }

    /// Puts the job's rows at the front of the lists.
    pub fn fill(&mut self, job: &Job) {
        front(&mut self.parents, &job.parents);
        front(&mut self.costs, &job.costs);
        front(&mut self.caps, &job.caps);
        front(&mut self.proposals, &job.proposals);
    }
}

/// The same lists with canaries around them.
pub struct LentLists {
    pub parents: Lent<u16>,
    pub costs: Lent<u32>,
    pub caps: Lent<u64>,
    pub proposals: Lent<i64>,
}

impl LentLists {
    pub fn new(lists: &JobLists) -> LentLists {
        LentLists {
            parents: Lent::new(&lists.parents),
            costs: Lent::new(&lists.costs),
            caps: Lent::new(&lists.caps),
            proposals: Lent::new(&lists.proposals),
        }
    }

    fn read(&mut self, bytes: &[u8]) -> ZilqodurJob {
        ffi::read_job(
            bytes,
            self.parents.list_mut(),
            self.costs.list_mut(),
            self.caps.list_mut(),
            self.proposals.list_mut(),
        )
    }

    fn length(&self, note: &[u8]) -> ZilqodurJobLength {
        ffi::job_length(
            note,
            self.parents.list(),
            self.costs.list(),
            self.caps.list(),
            self.proposals.list(),
        )
    }

    fn write(&self, note: &[u8], out: &mut [u8]) -> ZilqodurJobLength {
        ffi::write_job(
            note,
            self.parents.list(),
            self.costs.list(),
            self.caps.list(),
            self.proposals.list(),
            out,
        )
    }

    pub fn hold(&self, lists: &JobLists) -> bool {
        let arcs = self.parents.holds(&lists.parents) && self.costs.holds(&lists.costs);
        arcs && self.caps.holds(&lists.caps) && self.proposals.holds(&lists.proposals)
    }
}

pub fn job_read(answer: Result<&Job, &Refusal>) -> ZilqodurJob {
    match answer {
        Ok(job) => ZilqodurJob {
            arcs: job.parents.len(),
            members: job.caps.len(),
            note: job.note.len(),
            ..Default::default()
        },
        Err(r) => ZilqodurJob {
            refusal: r.number,
            place: r.place,
            ..Default::default()
        },
    }
}

pub fn read_job(tally: &mut Tally, bytes: &[u8], lists: JobLists) {
    let answer = job::read(bytes, lists.lengths());
    compare_read(tally, bytes, lists, answer.as_ref());
}

/// The job reader, which is to give this answer. A job that it accepts is
/// written again.
fn compare_read(
    tally: &mut Tally,
    bytes: &[u8],
    mut lists: JobLists,
    answer: Result<&Job, &Refusal>,
) {
    let (lent, mut lent_lists) = (Lent::new(bytes), LentLists::new(&lists));
    let given = lent_lists.read(lent.list());
    answer.iter().for_each(|job| lists.fill(job));
    let expected = job_read(answer);
    let note = answer.map_or(true, |job| bytes.starts_with(&job.note));
    let lists = note && lent.holds(bytes) && lent_lists.hold(&lists);
    tally.case("read_job", expected.refusal, [given, expected], lists);
    if let Ok(job) = answer {
        write_again(tally, bytes, job);
    }
}

/// The job writer on what was read from these bytes.
fn write_again(tally: &mut Tally, bytes: &[u8], job: &Job) {
    let (lent, mut out) = (LentLists::new(&JobLists::of(job)), vec![0xFF; bytes.len()]);
    let given = lent.write(&job.note, &mut out);
    let expected = job_length(Ok(bytes.len()));
    tally.case("job written again", 0, [given, expected], out == bytes);
}

pub fn job_length(answer: Answer<usize>) -> ZilqodurJobLength {
    match answer {
        Ok(length) => ZilqodurJobLength {
            length,
            ..Default::default()
        },
        Err(r) => ZilqodurJobLength {
            refusal: r.number,
            place: r.place,
            length: 0,
        },
    }
}

/// The job writer, and the length on the same note and lists. A job that is
/// written is read back.
pub fn write_job(tally: &mut Tally, job: &Job, out: &[u8]) {
    let faults = job.faults(out.len());
    rare::note_job_faults(tally, &faults);
    let lists = JobLists::of(job);
    let (note, lent) = (Lent::new(&job.note), LentLists::new(&lists));
    let kept = || note.holds(&job.note) && lent.hold(&lists);
    let given = lent.length(note.list());
    let expected = job_length(job::length(job, &faults));
    tally.case("job_length", expected.refusal, [given, expected], kept());
    let answer = job::write(job, &faults);
    let (mut lent_out, mut written) = (Lent::new(out), out.to_vec());
    answer.iter().for_each(|bytes| front(&mut written, bytes));
    let given = lent.write(note.list(), lent_out.list_mut());
    let expected = job_length(answer.map(|bytes| bytes.len()));
    let lists = kept() && lent_out.holds(&written);
    tally.case("write_job", expected.refusal, [given, expected], lists);
    if expected.refusal == 0 {
        let bytes = &lent_out.list()[..expected.length];
        compare_read(tally, bytes, JobLists::room(), Ok(job));
    }
}

/// What the report's buffer holds before a call: no byte of a report's text.
static UNWRITTEN: LazyLock<Vec<u8>> =
    LazyLock::new(|| (0..REPORT_ROOM).map(|i| 128 + (i % 127) as u8).collect());

/// Answers the text that is expected.
pub fn report(tally: &mut Tally, bytes: &[u8]) -> String {
    let text = report::text(bytes);
    let (lent, mut out) = (Lent::new(bytes), Lent::new(&UNWRITTEN));
    let given = ffi::report(lent.list(), out.list_mut().try_into().unwrap());
    let expected = ZilqodurReport {
        length: text.len(),
        ..Default::default()
    };
    let mut written = UNWRITTEN.clone();
    front(&mut written, text.as_bytes());
    let lists = lent.holds(bytes) && out.holds(&written);
    tally.case("report", 0, [given, expected], lists);
    text
}
