//! The checks of a job of either version on local lists, and the reader of version
//! 1: the checks, then the rows again into the lent lists.

use super::check::check_tree;
use super::count_members;
use super::dead_ends::write_dead_ends;
use super::floors::check_limits;
use crate::ffi::ZilqodurJob;
use crate::job::{layout, number, trailer, Layout, Version, ONE};
use crate::reference::{check_caps, check_proposal, refuse, Answer, ARCS};

/// Where the numbers of a column stand: the first, and how many bytes the rows are
/// apart.
pub struct Column {
    pub width: usize,
    pub at: usize,
    pub stride: usize,
}

impl Column {
    /// A number of each arc row.
    pub fn of_arcs(at: &Layout, offset: usize, width: usize) -> Column {
        Column {
            width,
            at: at.arc_rows + offset,
            stride: 8,
        }
    }

    /// A number of each member row.
    pub fn of_members(at: &Layout, version: &Version, offset: usize, width: usize) -> Column {
        Column {
            width,
            at: at.member_rows + offset,
            stride: version.member_row,
        }
    }

    /// Reads the column into all of the list.
    pub fn read<T>(&self, bytes: &[u8], out: &mut [T], entry: impl Fn(u64) -> T) {
        for (i, place) in out.iter_mut().enumerate() {
            *place = entry(number(bytes, self.at + self.stride * i, self.width));
        }
    }
}

pub fn floor_width(version: &Version) -> usize {
    version.member_row - ONE.member_row
}

/// 14 in version 1, 16 in version 2.
fn check_fillers(bytes: &[u8], at: &Layout, version: &Version) -> Answer<()> {
    for i in 0..at.arcs {
        let filler = number(bytes, at.arc_rows + 2 + 8 * i, 2);
        match version.number {
            1 if filler != 0 => return refuse(14, i + 1),
            2 if filler > 1 => return refuse(16, i + 1),
            _ => (),
        }
    }
    Ok(())
}

/// The members of the tree whose marks are the fillers of the arc rows.
fn marked_members(bytes: &[u8], at: &Layout, parents: &[u16], costs: &[u32]) -> Answer<usize> {
    let mut marks = [0; ARCS];
    let marks = &mut marks[..at.arcs];
    Column::of_arcs(at, 2, 2).read(bytes, marks, |n| n as u16);
    check_tree(parents, costs, marks)?;
    Ok(count_members(marks))
}

/// The members of the tree in the arc rows.
fn row_members(bytes: &[u8], at: &Layout, version: &Version) -> Answer<usize> {
    if at.arcs > ARCS {
        return refuse(1, 0);
    }
    let (mut parents, mut costs) = ([0; ARCS], [0; ARCS]);
    let (parents, costs) = (&mut parents[..at.arcs], &mut costs[..at.arcs]);
    Column::of_arcs(at, 0, 2).read(bytes, parents, |n| n as u16);
    Column::of_arcs(at, 4, 4).read(bytes, costs, |n| n as u32);
    if version.number == 2 {
        return marked_members(bytes, at, parents, costs);
    }
    let mut marks = [0; ARCS];
    write_dead_ends(parents, costs, &mut marks[..at.arcs])
}

fn check_proposals(bytes: &[u8], at: &Layout, version: &Version) -> Answer<()> {
    let mut proposals = [0; ARCS];
    let proposals = &mut proposals[..at.members];
    Column::of_members(at, version, 8, 8).read(bytes, proposals, |n| n as i64);
    check_proposal(at.members, proposals)
}

/// Version 1 has no floors.
fn check_floors(bytes: &[u8], at: &Layout, version: &Version, caps: &[u64]) -> Answer<()> {
    if version.number == 1 {
        return Ok(());
    }
    let mut floors = [0; ARCS];
    let floors = &mut floors[..at.members];
    Column::of_members(at, version, 16, 8).read(bytes, floors, |n| n);
    check_limits(at.members, caps, floors)
}

/// 1, 3, 4, 17 and 18, 15, then 7 and 27.
fn check_values(bytes: &[u8], at: &Layout, version: &Version) -> Answer<()> {
    if row_members(bytes, at, version)? != at.members {
        return refuse(15, 0);
    }
    let mut caps = [0; ARCS];
    let caps = &mut caps[..at.members];
    Column::of_members(at, version, 0, 8).read(bytes, caps, |n| n);
    check_caps(at.members, caps)?;
    check_proposals(bytes, at, version)?;
    check_floors(bytes, at, version, caps)
}

/// The trailer is read again for each check, as the engine does.
pub fn check_job(bytes: &[u8], version: &Version) -> Answer<()> {
    layout(bytes, version)?;
    check_fillers(bytes, &trailer(bytes), version)?;
    check_values(bytes, &trailer(bytes), version)
}

pub fn check_room(lent: &[usize]) -> Answer<()> {
    for &length in lent {
        if length < ARCS {
            return refuse(10, 0);
        }
    }
    Ok(())
}

/// Reads what jobs of both versions hold into the front of the lists.
pub fn read_contents(
    version: &Version,
    bytes: &[u8],
    parents: &mut [u16],
    costs: &mut [u32],
    caps: &mut [u64],
    proposals: &mut [i64],
) -> Layout {
    let at = trailer(bytes);
    let (m, n) = (at.arcs, at.members);
    Column::of_arcs(&at, 0, 2).read(bytes, &mut parents[..m], |n| n as u16);
    Column::of_arcs(&at, 4, 4).read(bytes, &mut costs[..m], |n| n as u32);
    Column::of_members(&at, version, 0, 8).read(bytes, &mut caps[..n], |n| n);
    Column::of_members(&at, version, 8, 8).read(bytes, &mut proposals[..n], |n| n as i64);
    at
}

pub fn answer(read: Answer<Layout>) -> ZilqodurJob {
    match read {
        Ok(layout) => ZilqodurJob {
            arcs: layout.arcs,
            members: layout.members,
            note: layout.arc_rows,
            ..Default::default()
        },
        Err(r) => ZilqodurJob {
            refusal: r.number,
            place: r.place,
            ..Default::default()
        },
    }
}

fn read(
    bytes: &[u8],
    parents: &mut [u16],
    costs: &mut [u32],
    caps: &mut [u64],
    proposals: &mut [i64],
) -> Answer<Layout> {
    check_room(&[parents.len(), costs.len(), caps.len(), proposals.len()])?;
    check_job(bytes, &ONE)?;
    Ok(read_contents(&ONE, bytes, parents, costs, caps, proposals))
}

#[inline(never)]
pub fn read_job(
    bytes: &[u8],
    parents: &mut [u16],
    costs: &mut [u32],
    caps: &mut [u64],
    proposals: &mut [i64],
) -> ZilqodurJob {
    answer(read(bytes, parents, costs, caps, proposals))
}
