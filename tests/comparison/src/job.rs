//! The job bytes (specification, §8): the form of both versions, the reader and
//! the writer of version 1, and rows of any content written out.

use crate::reference::{
    check_caps, check_proposal, dead_ends, refuse, tree_faults, Answer, Refusal, Tree, ARCS,
};

/// What sets the versions of jobs apart.
pub struct Version {
    pub number: u16,
    /// The most bytes of a job.
    pub longest: usize,
    /// The bytes of a member row.
    pub member_row: usize,
}

pub const ONE: Version = Version {
    number: 1,
    longest: 24_823,
    member_row: 16,
};

pub const TWO: Version = Version {
    number: 2,
    longest: 33_007,
    member_row: 24,
};

/// The most bytes of a note.
pub const NOTE: usize = 255;

/// What a job of version 1 holds: the note, the arc rows and the member rows.
#[derive(Clone)]
pub struct Job {
    pub note: Vec<u8>,
    pub parents: Vec<u16>,
    pub fillers: Vec<u16>,
    pub costs: Vec<u32>,
    pub caps: Vec<u64>,
    pub proposals: Vec<i64>,
}

impl Job {
    /// A job of version 1 marks every dead end.
    pub fn tree(&self) -> Answer<Tree> {
        Tree::new(&self.parents, &self.costs, &dead_ends(&self.parents))
    }

    pub fn write(&self) -> Vec<u8> {
        self.write_as(&ONE, &[])
    }

    /// The bytes of a version. A member row ends with its floor where it has one.
    pub fn write_as(&self, version: &Version, floors: &[u64]) -> Vec<u8> {
        let mut bytes = self.note.clone();
        for k in 0..self.parents.len() {
            bytes.extend(self.parents[k].to_le_bytes());
            bytes.extend(self.fillers[k].to_le_bytes());
            bytes.extend(self.costs[k].to_le_bytes());
        }
        let members = bytes.len();
        for j in 0..self.caps.len() {
            bytes.extend(self.caps[j].to_le_bytes());
            bytes.extend(self.proposals[j].to_le_bytes());
            bytes.extend(floors.get(j).into_iter().flat_map(|n| n.to_le_bytes()));
        }
        bytes.extend((self.note.len() as u32).to_le_bytes());
        bytes.extend((members as u32).to_le_bytes());
        bytes.extend((self.parents.len() as u16).to_le_bytes());
        bytes.extend((self.caps.len() as u16).to_le_bytes());
        bytes.extend(version.number.to_le_bytes());
        bytes.extend([0x54, 0x4A]);
        bytes
    }

    /// All faults of what the writer is handed, in the order of the refusals;
    /// `room` is the length of its output.
    pub fn faults(&self, room: usize) -> Vec<Fault> {
        let (caps, proposals) = (&self.caps, &self.proposals);
        let marks = dead_ends(&self.parents);
        let members = marks.iter().filter(|&&mark| mark == 1).count();
        let length = self.note.len() + 8 * self.parents.len() + 16 * members + 16;
        let checks = [
            ("caps", fault(caps.len() != members, 6)),
            ("caps", check_caps(caps.len(), caps)),
            ("proposals", fault(proposals.len() != members, 6)),
            ("proposals", check_proposal(proposals.len(), proposals)),
            ("note", fault(self.note.len() > NOTE, 19)),
            ("output", fault(room < length, 20)),
        ];
        let found = |(list, check): (_, Answer<()>)| Some((list, check.err()?));
        // The marks of the dead ends are at fault in no tree, so 1 to 4 are left.
        let tree = tree_faults(&self.parents, &self.costs, &marks).into_iter();
        let tree = tree.filter(|fault| fault.number <= 4);
        tree.map(|fault| ("tree", fault))
            .chain(checks.into_iter().filter_map(found))
            .collect()
    }
}

/// What is at fault, and the refusal.
pub type Fault = (&'static str, Refusal);

fn fault(found: bool, number: u32) -> Answer<()> {
    if found {
        refuse(number, 0)
    } else {
        Ok(())
    }
}

/// The bytes that the writer writes, given its faults.
pub fn write(job: &Job, faults: &[Fault]) -> Answer<Vec<u8>> {
    match faults.first() {
        Some(&(_, fault)) => Err(fault),
        None => Ok(job.write()),
    }
}

/// How many they are, whatever the length of the output.
pub fn length(job: &Job, faults: &[Fault]) -> Answer<usize> {
    match faults.first() {
        Some(&(_, fault)) if fault.number != 20 => Err(fault),
        _ => Ok(job.write().len()),
    }
}

/// The little-endian number of so many bytes from a place on.
pub fn number(bytes: &[u8], offset: usize, width: usize) -> u64 {
    let digits = bytes[offset..offset + width].iter().rev();
    digits.fold(0, |n, &byte| n << 8 | u64::from(byte))
}

/// Where the rows stand, and how many there are.
pub struct Layout {
    pub arc_rows: usize,
    pub arcs: usize,
    pub member_rows: usize,
    pub members: usize,
}

/// What the trailer says of the rows. The job has a trailer.
pub fn trailer(bytes: &[u8]) -> Layout {
    let end = bytes.len() - 16;
    Layout {
        arc_rows: number(bytes, end, 4) as usize,
        arcs: number(bytes, end + 8, 2) as usize,
        member_rows: number(bytes, end + 4, 4) as usize,
        members: number(bytes, end + 10, 2) as usize,
    }
}

fn check_size(bytes: &[u8], version: &Version) -> Answer<()> {
    fault(bytes.len() < 16 || bytes.len() > version.longest, 11)
}

/// The version and the closing bytes. The job has a trailer.
fn check_signature(bytes: &[u8], version: &Version) -> Answer<()> {
    let end = bytes.len() - 16;
    let other = number(bytes, end + 12, 2) != u64::from(version.number);
    fault(other || bytes[end + 14..] != [0x54, 0x4A], 12)
}

/// Where the rows stand. The job has a trailer.
fn check_parts(bytes: &[u8], version: &Version) -> Answer<()> {
    let found = trailer(bytes);
    let meet = found.arc_rows + 8 * found.arcs == found.member_rows;
    let end = found.member_rows + version.member_row * found.members + 16;
    fault(found.arc_rows > NOTE || !meet || end != bytes.len(), 13)
}

/// The size, the version and closing bytes, then where the rows stand.
pub fn layout(bytes: &[u8], version: &Version) -> Answer<Layout> {
    check_size(bytes, version)?;
    check_signature(bytes, version)?;
    check_parts(bytes, version)?;
    Ok(trailer(bytes))
}

/// All faults of the form, in the order of the refusals.
pub fn form_faults(bytes: &[u8], version: &Version) -> Vec<Fault> {
    let checks = [check_size, check_signature, check_parts];
    let count = if bytes.len() < 16 { 1 } else { 3 };
    let found = |check: &fn(&[u8], &Version) -> Answer<()>| check(bytes, version).err();
    let found = checks[..count].iter().filter_map(found);
    found.map(|fault| ("form", fault)).collect()
}

/// The rows of a job whose form is right.
pub fn rows(bytes: &[u8], version: &Version) -> Job {
    let at = trailer(bytes);
    let arc = |k: usize, offset, width| number(bytes, at.arc_rows + 8 * k + offset, width);
    let row = |j: usize| at.member_rows + version.member_row * j;
    let member = |j: usize, offset| number(bytes, row(j) + offset, 8);
    Job {
        note: bytes[..at.arc_rows].to_vec(),
        parents: (0..at.arcs).map(|k| arc(k, 0, 2) as u16).collect(),
        fillers: (0..at.arcs).map(|k| arc(k, 2, 2) as u16).collect(),
        costs: (0..at.arcs).map(|k| arc(k, 4, 4) as u32).collect(),
        caps: (0..at.members).map(|j| member(j, 0)).collect(),
        proposals: (0..at.members).map(|j| member(j, 8) as i64).collect(),
    }
}

/// Reads a job; `lent` has the lengths of the four lent lists.
pub fn read(bytes: &[u8], lent: [usize; 4]) -> Answer<Job> {
    if lent.iter().any(|&length| length < ARCS) {
        return refuse(10, 0);
    }
    let layout = layout(bytes, &ONE)?;
    let job = rows(bytes, &ONE);
    if let Some(k) = job.fillers.iter().position(|&filler| filler != 0) {
        return refuse(14, k + 1);
    }
    if job.tree()?.members.len() != layout.members {
        return refuse(15, 0);
    }
    check_caps(layout.members, &job.caps)?;
    check_proposal(layout.members, &job.proposals)?;
    Ok(job)
}
