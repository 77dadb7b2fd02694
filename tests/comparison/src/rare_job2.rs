//! The cases of jobs of version 2, and of conversions, that a run of all rounds is
//! to meet: faults that stand at once, and jobs of every kind.

use crate::ffi::ZilqodurJobLength;
use crate::job::{self, Fault, TWO};
use crate::job2::Job2;
use crate::rare::note;
use crate::reference::{dead_ends, ARCS};
use crate::tally::Tally;

/// What is at fault, and by which refusal.
type Of = (&'static str, u32);

/// Pairs that are to be the first two faults of a job that is read. 13 leaves no
/// rows to look at, and 17 and 18 cannot meet.
#[rustfmt::skip]
const READ: [(Of, Of); 19] = [
    (("lists", 10), ("form", 11)), (("form", 11), ("form", 12)), (("form", 12), ("form", 13)),
    (("lists", 10), ("tree", 16)), (("tree", 16), ("tree", 1)), (("tree", 16), ("tree", 18)),
    (("tree", 1), ("tree", 3)), (("tree", 3), ("tree", 4)), (("tree", 4), ("tree", 17)),
    (("tree", 17), ("tree", 3)), (("tree", 3), ("tree", 18)), (("tree", 4), ("tree", 18)),
    (("tree", 17), ("members", 15)), (("tree", 18), ("members", 15)),
    (("members", 15), ("caps", 7)), (("caps", 7), ("proposals", 7)),
    (("proposals", 7), ("floors", 7)), (("floors", 7), ("floors", 27)),
    (("lists", 10), ("floors", 27)),
];

/// The same of a job to be converted to version 1. A floor above its cap is above 0.
#[rustfmt::skip]
const BACK: [(Of, Of); 5] = [
    (("floors", 27), ("marks", 29)), (("floors", 27), ("floors", 30)),
    (("marks", 29), ("floors", 30)), (("marks", 29), ("output", 20)),
    (("floors", 30), ("output", 20)),
];

/// What is to be met with an empty output.
const NO_ROOM_2: [u32; 9] = [11, 12, 13, 14, 1, 3, 4, 15, 7];
#[rustfmt::skip]
const NO_ROOM_1: [u32; 14] = [11, 12, 13, 16, 1, 3, 4, 17, 18, 15, 7, 27, 29, 30];

/// What the rows of arcs before a mark above 1 are refused by.
const EARLIER: [u32; 3] = [3, 4, 17];

const PAST: &str = "16 at an arc past those of every tree";
const SPARE: &str = "a job with a dead end that is not marked";
const FLOOR: &str = "a job with a floor above 0";
const EQUAL: &str = "a job with a floor above 0 that is the cap";
const LONGEST: &str = "the longest job of version 2";

fn meeting(first: Of, second: Of) -> String {
    format!("{first:?} before {second:?} in a job of version 2")
}

/// Notes the first two faults of a job that is read or converted to version 1.
pub fn note_first(tally: &mut Tally, faults: &[Fault]) {
    if let [(a_of, a), (b_of, b), ..] = faults {
        let meeting = meeting((a_of, a.number), (b_of, b.number));
        tally.met.insert(meeting);
    }
}

fn earlier(number: u32) -> String {
    format!("16 before {number} at an earlier arc")
}

fn by_version_1(number: u32) -> String {
    format!("{number} of version 1's reader on a job of version 2")
}

/// Notes the faults of a job, or what is rare about one that is read.
pub fn note_read(tally: &mut Tally, bytes: &[u8], job: Option<&Job2>, faults: &[Fault]) {
    note_first(tally, faults);
    if let [(_, mark), others @ ..] = faults {
        let before = |n| move |(_, f): &Fault| f.number == n && f.place < mark.place;
        for number in EARLIER.into_iter().filter(|_| mark.number == 16) {
            note(tally, &earlier(number), others.iter().any(before(number)));
        }
        note(tally, PAST, mark.number == 16 && mark.place > ARCS);
    }
    if let Some(job) = job {
        let spare = job.rows.fillers != dead_ends(&job.rows.parents);
        let mut limits = job.floors.iter().zip(&job.rows.caps);
        note(tally, SPARE, spare);
        note(tally, FLOOR, job.floors.iter().any(|&floor| floor > 0));
        note(tally, EQUAL, limits.any(|(f, cap)| *f > 0 && f == cap));
        note(tally, LONGEST, bytes.len() == TWO.longest);
        let refused = job::read(bytes, [ARCS; 4]).err();
        let number = refused.map_or(0, |refusal| refusal.number);
        tally.met.insert(by_version_1(number));
    }
}

fn no_room(name: &str, number: u32) -> String {
    format!("{number} in {name} with an empty output")
}

fn more_room(name: &str) -> String {
    format!("an output longer than the job in {name}")
}

/// Notes a conversion to an output of so many bytes.
pub fn note_room(tally: &mut Tally, name: &str, answer: &ZilqodurJobLength, room: usize) {
    let accepted = answer.refusal == 0;
    note(tally, &no_room(name, answer.refusal), room == 0);
    note(tally, &more_room(name), accepted && room > answer.length);
}

/// All that is to be met.
pub fn wanted() -> impl Iterator<Item = String> {
    let faults = READ.iter().chain(&BACK).map(|&(a, b)| meeting(a, b));
    let to_2 = NO_ROOM_2.map(|number| no_room("job_to_2", number));
    let to_1 = NO_ROOM_1.map(|number| no_room("job_to_1", number));
    let more = ["job_to_2", "job_to_1"].map(more_room);
    let by_1 = [11, 12].map(by_version_1);
    let named = [PAST, SPARE, FLOOR, EQUAL, LONGEST].map(String::from);
    let rooms = to_2.into_iter().chain(to_1).chain(more).chain(by_1);
    faults.chain(rooms).chain(EARLIER.map(earlier)).chain(named)
}
