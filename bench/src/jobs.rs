//! The entries that read, write or convert jobs beside the same in Rust.

use crate::entries::{used, written, Calls};
use crate::ffi::{ZilqodurJob, ZilqodurJobLength};
use crate::job::Job;
use crate::networks::Network;
use crate::reference::ARCS;
use crate::{ffi, same};
use std::hint::black_box;

/// The lists that the job readers fill. That of version 1 has no marks and no
/// floors.
#[derive(Debug, PartialEq)]
struct Lists {
    parents: [u16; ARCS],
    costs: [u32; ARCS],
    marks: [u16; ARCS],
    caps: [u64; ARCS],
    proposals: [i64; ARCS],
    floors: [u64; ARCS],
}

const LISTS: Lists = Lists {
    parents: [7; ARCS],
    costs: [7; ARCS],
    marks: [7; ARCS],
    caps: [7; ARCS],
    proposals: [7; ARCS],
    floors: [7; ARCS],
};

type Read = fn(&[u8], &mut [u16], &mut [u32], &mut [u64], &mut [i64]) -> ZilqodurJob;

#[rustfmt::skip]
type Read2 = fn(
    &[u8], &mut [u16], &mut [u32], &mut [u16], &mut [u64], &mut [i64], &mut [u64],
) -> ZilqodurJob;

impl Lists {
    fn fill(&mut self, read: Read, bytes: &[u8]) -> ZilqodurJob {
        read(
            bytes,
            &mut self.parents,
            &mut self.costs,
            &mut self.caps,
            &mut self.proposals,
        )
    }

    fn fill2(&mut self, read: Read2, bytes: &[u8]) -> ZilqodurJob {
        read(
            bytes,
            &mut self.parents,
            &mut self.costs,
            &mut self.marks,
            &mut self.caps,
            &mut self.proposals,
            &mut self.floors,
        )
    }
}

type Length = fn(&[u8], &[u16], &[u32], &[u64], &[i64]) -> ZilqodurJobLength;

fn length_of(length: Length, job: &Job) -> ZilqodurJobLength {
    length(
        &job.note,
        &job.parents,
        &job.costs,
        &job.caps,
        &job.proposals,
    )
}

type Write = fn(&[u8], &[u16], &[u32], &[u64], &[i64], &mut [u8]) -> ZilqodurJobLength;

fn write(write: Write, job: &Job, out: &mut [u8]) -> ZilqodurJobLength {
    write(
        &job.note,
        &job.parents,
        &job.costs,
        &job.caps,
        &job.proposals,
        out,
    )
}

type Convert = fn(&[u8], &mut [u8]) -> ZilqodurJobLength;

/// Panics where two answers or lists differ.
pub fn compare(n: &Network) {
    let (mut a, mut b) = (LISTS, LISTS);
    let read = a.fill(ffi::read_job, &n.bytes);
    assert_eq!(read, b.fill(same::read_job, &n.bytes));
    assert!(a == b, "the job readers fill other lists");
    assert_eq!(
        length_of(ffi::job_length, &n.job),
        length_of(same::job_length, &n.job)
    );
    assert_eq!(
        written(n.bytes.len(), |out| write(ffi::write_job, &n.job, out)),
        written(n.bytes.len(), |out| write(same::write_job, &n.job, out)),
    );
    compare_versions(n);
}

/// The reader of version 2 and the conversions on jobs of both versions, of which
/// the network's own has floors, the output just long enough and too short.
fn compare_versions(n: &Network) {
    for bytes in [&n.bytes, &n.bytes2, &n.own2] {
        let (mut a, mut b) = (LISTS, LISTS);
        let read = a.fill2(ffi::read_job2, bytes);
        assert_eq!(read, b.fill2(same::read_job2, bytes));
        assert!(a == b, "the readers of version 2 fill other lists");
        let sides: [(Convert, Convert, usize); 2] = [
            (ffi::job_to_2, same::job_to_2, n.bytes2.len()),
            (ffi::job_to_1, same::job_to_1, n.bytes.len()),
        ];
        for (engine, same, length) in sides {
            for room in [length - 1, length] {
                assert_eq!(
                    written(room, |out| engine(bytes, out)),
                    written(room, |out| same(bytes, out)),
                );
            }
        }
    }
}

pub fn reader(n: &Network) -> Calls<'_> {
    let (mut a, mut b) = (LISTS, LISTS);
    vec![
        Box::new(move || used(a.fill(ffi::read_job, black_box(&n.bytes)))),
        Box::new(move || used(b.fill(same::read_job, black_box(&n.bytes)))),
    ]
}

pub fn length(n: &Network) -> Calls<'_> {
    vec![
        Box::new(move || used(length_of(ffi::job_length, black_box(&n.job)))),
        Box::new(move || used(length_of(same::job_length, black_box(&n.job)))),
    ]
}

pub fn writer(n: &Network) -> Calls<'_> {
    let (mut a, mut b) = (vec![0; n.bytes.len()], vec![0; n.bytes.len()]);
    vec![
        Box::new(move || used(write(ffi::write_job, black_box(&n.job), &mut a))),
        Box::new(move || used(write(same::write_job, black_box(&n.job), &mut b))),
    ]
}

pub fn reader2(n: &Network) -> Calls<'_> {
    let (mut a, mut b) = (LISTS, LISTS);
    vec![
        Box::new(move || used(a.fill2(ffi::read_job2, black_box(&n.own2)))),
        Box::new(move || used(b.fill2(same::read_job2, black_box(&n.own2)))),
    ]
}

pub fn to_2(n: &Network) -> Calls<'_> {
    let (mut a, mut b) = (vec![0; n.bytes2.len()], vec![0; n.bytes2.len()]);
    vec![
        Box::new(move || used(ffi::job_to_2(black_box(&n.bytes), &mut a))),
        Box::new(move || used(same::job_to_2(black_box(&n.bytes), &mut b))),
    ]
}

pub fn to_1(n: &Network) -> Calls<'_> {
    let (mut a, mut b) = (vec![0; n.bytes.len()], vec![0; n.bytes.len()]);
    vec![
        Box::new(move || used(ffi::job_to_1(black_box(&n.bytes2), &mut a))),
        Box::new(move || used(same::job_to_1(black_box(&n.bytes2), &mut b))),
    ]
}
