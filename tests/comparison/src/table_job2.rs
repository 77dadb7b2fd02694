//! The sample job (specification, §10) in both versions: the reference gives the
//! lengths and refusals that are named here, and the archive the same.

use crate::compare_job;
use crate::compare_job2;
use crate::job::Job;
use crate::job2::{self, Job2};
use crate::reference::{refuse, Answer};
use crate::report;
use crate::table::named;
use crate::tally::Tally;

fn to_2(tally: &mut Tally, bytes: &[u8], room: usize, expected: Answer<usize>) {
    let found = job2::to_2(bytes, room).map(|bytes| bytes.len());
    named(tally, found, expected);
    compare_job2::to_2(tally, bytes, &vec![77; room]);
}

fn to_1(tally: &mut Tally, bytes: &[u8], room: usize, expected: Answer<usize>) {
    let found = job2::to_1(bytes, room).0.map(|bytes| bytes.len());
    named(tally, found, expected);
    compare_job2::to_1(tally, bytes, &vec![77; room]);
}

/// The sample job without its second member.
fn spare(job: &Job, floors: [u64; 2]) -> Vec<u8> {
    let mut spare = job2::with_dead_ends(job.clone());
    spare.rows.fillers = vec![0, 1, 0, 1];
    spare.rows.caps.remove(1);
    spare.rows.proposals.remove(1);
    spare.floors = floors.to_vec();
    spare.write()
}

pub fn compare(tally: &mut Tally, job: &Job) {
    let (bytes, second) = (job.write(), job2::with_dead_ends(job.clone()));
    let bytes2 = second.write();
    for (room, expected) in [(119, refuse(20, 0)), (120, Ok(120)), (123, Ok(120))] {
        to_2(tally, &bytes, room, expected);
    }
    for (room, expected) in [(95, refuse(20, 0)), (96, Ok(96)), (99, Ok(96))] {
        to_1(tally, &bytes2, room, expected);
    }
    to_1(tally, &bytes, 96, refuse(12, 0));
    to_2(tally, &bytes2, 120, refuse(12, 0));
    for room in [0, 100] {
        to_1(tally, &spare(job, [0, 0]), room, refuse(29, 3));
        to_1(tally, &spare(job, [1, 0]), room, refuse(29, 3));
        let floors = vec![0, 1, 100];
        let floored = Job2 {
            floors,
            ..second.clone()
        };
        to_1(tally, &floored.write(), room, refuse(30, 1));
    }
    let refused = "refused 12 at 0\n".to_string();
    named(tally, Ok(report::text(&bytes2)), Ok(refused));
    compare_job::report(tally, &bytes2);
}
