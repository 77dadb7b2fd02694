//! The job writer: all checks, then the note, the rows and the trailer, each
//! number byte by byte.

use super::check::check_lengths;
use super::dead_ends::write_dead_ends;
use super::job::floor_width;
use crate::ffi::ZilqodurJobLength;
use crate::job::{Version, NOTE, ONE};
use crate::reference::{check_caps, check_proposal, refuse, Answer, ARCS};

/// 1 to 4, then 6 and 7 on the caps and on the proposals, then 19; answers the
/// number of bytes.
fn length(
    note: &[u8],
    parents: &[u16],
    costs: &[u32],
    caps: &[u64],
    proposals: &[i64],
) -> Answer<usize> {
    // First, since the marks have room for the most arcs.
    check_lengths(parents, &[costs.len()])?;
    let mut marks = [0; ARCS];
    let members = write_dead_ends(parents, costs, &mut marks[..parents.len()])?;
    check_caps(members, caps)?;
    check_proposal(members, proposals)?;
    if note.len() > NOTE {
        return refuse(19, 0);
    }
    Ok(note.len() + 8 * parents.len() + 16 * members + 16)
}

/// Writes the lowest bytes of a number, the least significant first.
fn put(out: &mut [u8], at: usize, width: usize, number: u64) {
    let mut left = number;
    for i in 0..width {
        out[at + i] = (left % 256) as u8;
        left /= 256;
    }
}

/// The contents of a job whose floors are 0.
pub struct Contents<'a> {
    pub note: &'a [u8],
    pub parents: &'a [u16],
    pub fillers: &'a [u16],
    pub costs: &'a [u32],
    pub caps: &'a [u64],
    pub proposals: &'a [i64],
}

fn write_arc_rows(job: &Contents, at: usize, out: &mut [u8]) {
    for i in 0..job.parents.len() {
        put(out, at + 8 * i, 2, u64::from(job.parents[i]));
        put(out, at + 8 * i + 2, 2, u64::from(job.fillers[i]));
        put(out, at + 8 * i + 4, 4, u64::from(job.costs[i]));
    }
}

fn write_member_rows(version: &Version, job: &Contents, at: usize, out: &mut [u8]) {
    for j in 0..job.caps.len() {
        let row = at + version.member_row * j;
        put(out, row, 8, job.caps[j]);
        put(out, row + 8, 8, job.proposals[j] as u64);
        put(out, row + 16, floor_width(version), 0);
    }
}

fn write_trailer(version: &Version, job: &Contents, at: usize, out: &mut [u8]) {
    let (arc_rows, arcs) = (job.note.len(), job.parents.len());
    let (member_rows, members) = (arc_rows + 8 * arcs, job.caps.len());
    put(out, at, 4, arc_rows as u64);
    put(out, at + 4, 4, member_rows as u64);
    put(out, at + 8, 2, arcs as u64);
    put(out, at + 10, 2, members as u64);
    put(out, at + 12, 2, u64::from(version.number));
    out[at + 14] = 0x54;
    out[at + 15] = 0x4A;
}

/// Writes the note, the rows and the trailer.
pub fn put_job(version: &Version, job: &Contents, out: &mut [u8]) {
    for (i, &byte) in job.note.iter().enumerate() {
        out[i] = byte;
    }
    let rows = job.note.len() + 8 * job.parents.len();
    let end = rows + version.member_row * job.caps.len();
    write_arc_rows(job, job.note.len(), out);
    write_member_rows(version, job, rows, out);
    write_trailer(version, job, end, out);
}

pub fn check_space(space: usize, length: usize) -> Answer<()> {
    if space < length {
        return refuse(20, 0);
    }
    Ok(())
}

/// 20 follows the other checks.
fn write(
    note: &[u8],
    parents: &[u16],
    costs: &[u32],
    caps: &[u64],
    proposals: &[i64],
    out: &mut [u8],
) -> Answer<usize> {
    let length = length(note, parents, costs, caps, proposals)?;
    check_space(out.len(), length)?;
    let fillers = &[0; ARCS][..parents.len()];
    let job = Contents {
        note,
        parents,
        fillers,
        costs,
        caps,
        proposals,
    };
    put_job(&ONE, &job, out);
    Ok(length)
}

pub fn answer(found: Answer<usize>) -> ZilqodurJobLength {
    match found {
        Ok(length) => ZilqodurJobLength {
            length,
            ..Default::default()
        },
        Err(r) => ZilqodurJobLength {
            refusal: r.number,
            place: r.place,
            length: 0,
        },
    }
}

#[inline(never)]
pub fn job_length(
    note: &[u8],
    parents: &[u16],
    costs: &[u32],
    caps: &[u64],
    proposals: &[i64],
) -> ZilqodurJobLength {
    answer(length(note, parents, costs, caps, proposals))
}

#[inline(never)]
pub fn write_job(
    note: &[u8],
    parents: &[u16],
    costs: &[u32],
    caps: &[u64],
    proposals: &[i64],
    out: &mut [u8],
) -> ZilqodurJobLength {
    answer(write(note, parents, costs, caps, proposals, out))
}
