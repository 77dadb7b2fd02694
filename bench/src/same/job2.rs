//! The reader of version 2, and the conversions between the versions.

use super::dead_ends::write_dead_ends;
use super::job::{answer, check_job, check_room, read_contents, Column};
use super::writer::{self, check_space, put_job, Contents};
use crate::ffi::{ZilqodurJob, ZilqodurJobLength};
use crate::job::{trailer, Layout, Version, ONE, TWO};
use crate::reference::{refuse, Answer, ARCS};

fn read_marks(bytes: &[u8], at: &Layout, marks: &mut [u16]) {
    Column::of_arcs(at, 2, 2).read(bytes, &mut marks[..at.arcs], |n| n as u16);
}

fn read_floors(bytes: &[u8], at: &Layout, floors: &mut [u64]) {
    Column::of_members(at, &TWO, 16, 8).read(bytes, &mut floors[..at.members], |n| n);
}

#[inline(never)]
pub fn read_job2(
    bytes: &[u8],
    parents: &mut [u16],
    costs: &mut [u32],
    marks: &mut [u16],
    caps: &mut [u64],
    proposals: &mut [i64],
    floors: &mut [u64],
) -> ZilqodurJob {
    let arcs = [parents.len(), costs.len(), marks.len()];
    let members = [caps.len(), proposals.len(), floors.len()];
    let checked = check_room(&arcs)
        .and_then(|()| check_room(&members))
        .and_then(|()| check_job(bytes, &TWO));
    answer(checked.map(|()| {
        let at = read_contents(&TWO, bytes, parents, costs, caps, proposals);
        read_marks(bytes, &at, marks);
        read_floors(bytes, &at, floors);
        at
    }))
}

/// 29 vertex by vertex.
fn check_marks(bytes: &[u8]) -> Answer<()> {
    let at = trailer(bytes);
    let (mut parents, mut marks, mut costs) = ([0; ARCS], [0; ARCS], [0; ARCS]);
    let mut ends = [0; ARCS];
    let (parents, costs) = (&mut parents[..at.arcs], &mut costs[..at.arcs]);
    let ends = &mut ends[..at.arcs];
    Column::of_arcs(&at, 0, 2).read(bytes, parents, |n| n as u16);
    read_marks(bytes, &at, &mut marks);
    Column::of_arcs(&at, 4, 4).read(bytes, costs, |n| n as u32);
    write_dead_ends(parents, costs, ends)?;
    for i in 0..at.arcs {
        if ends[i] == 1 && marks[i] != 1 {
            return refuse(29, i + 1);
        }
    }
    Ok(())
}

/// 30 member by member.
fn check_floors(bytes: &[u8]) -> Answer<()> {
    let at = trailer(bytes);
    let mut floors = [0; ARCS];
    read_floors(bytes, &at, &mut floors);
    for (j, &floor) in floors[..at.members].iter().enumerate() {
        if floor > 0 {
            return refuse(30, j);
        }
    }
    Ok(())
}

fn length_in(version: &Version, bytes: &[u8]) -> usize {
    let at = trailer(bytes);
    at.arc_rows + 8 * at.arcs + version.member_row * at.members + 16
}

/// Writes the job as one of the other version, with marks of the dead ends or
/// fillers of 0.
fn convert(from: &Version, to: &Version, bytes: &[u8], out: &mut [u8]) -> Answer<usize> {
    let length = length_in(to, bytes);
    check_space(out.len(), length)?;
    let (mut parents, mut costs) = ([0; ARCS], [0; ARCS]);
    let (mut caps, mut proposals) = ([0; ARCS], [0; ARCS]);
    let at = read_contents(
        from,
        bytes,
        &mut parents,
        &mut costs,
        &mut caps,
        &mut proposals,
    );
    let mut fillers = [0; ARCS];
    if to.number == 2 {
        let (parents, costs) = (&parents[..at.arcs], &costs[..at.arcs]);
        write_dead_ends(parents, costs, &mut fillers[..at.arcs])?;
    }
    let job = Contents {
        note: &bytes[..at.arc_rows],
        parents: &parents[..at.arcs],
        fillers: &fillers[..at.arcs],
        costs: &costs[..at.arcs],
        caps: &caps[..at.members],
        proposals: &proposals[..at.members],
    };
    put_job(to, &job, out);
    Ok(length)
}

#[inline(never)]
pub fn job_to_2(bytes: &[u8], out: &mut [u8]) -> ZilqodurJobLength {
    let checked = check_job(bytes, &ONE);
    writer::answer(checked.and_then(|()| convert(&ONE, &TWO, bytes, out)))
}

#[inline(never)]
pub fn job_to_1(bytes: &[u8], out: &mut [u8]) -> ZilqodurJobLength {
    let checked = check_job(bytes, &TWO)
        .and_then(|()| check_marks(bytes))
        .and_then(|()| check_floors(bytes));
    writer::answer(checked.and_then(|()| convert(&TWO, &ONE, bytes, out)))
}
