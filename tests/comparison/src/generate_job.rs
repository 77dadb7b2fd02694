//! Pseudo-random job bytes: valid, with every kind of damage, and arbitrary.

use crate::generate;
use crate::job::{Job, Version, NOTE};
use crate::reference::{ARCS, COST};
use crate::rng::Rng;

/// A note, of any length that it may have.
pub fn note(rng: &mut Rng) -> Vec<u8> {
    let any = rng.below(256);
    let length = rng.pick(&[0, 1, 17, NOTE, any]);
    (0..length).map(|_| rng.next() as u8).collect()
}

/// A valid job on the tree with every dead end marked.
pub fn valid(rng: &mut Rng, parents: &[u16], costs: &[u32]) -> Job {
    let mut job = Job {
        note: note(rng),
        parents: parents.to_vec(),
        fillers: vec![0; parents.len()],
        costs: costs.to_vec(),
        caps: Vec::new(),
        proposals: Vec::new(),
    };
    let tree = job.tree().expect("the tree is accepted");
    job.caps = generate::caps(rng, &tree);
    job.proposals = generate::proposal(rng, &tree);
    job
}

/// Damages the rows of a job; the trailer follows them.
pub fn damage_rows(rng: &mut Rng, job: &mut Job) {
    let (arcs, members) = (job.parents.len(), job.caps.len());
    match rng.below(14) {
        0 => job.note.resize(256 + rng.below(40), 7),
        1 => resize_arcs(job, 0),
        2 => {
            let more = ARCS + 1 + rng.below(2_076);
            resize_arcs(job, rng.pick(&[ARCS + 1, ARCS + 2, more]));
        }
        3 => resize_arcs(job, rng.pick(&[arcs + 1, arcs.saturating_sub(1)])),
        4 => resize_members(job, rng.pick(&[0, members + 1, members.saturating_sub(1)])),
        5 if arcs > 0 => job.fillers[rng.below(arcs)] = rng.pick(&[1, 0x100, 0x8000, 0xFFFF]),
        6 if arcs > 0 => {
            let k = rng.below(arcs);
            job.parents[k] = rng.pick(&[k + 1, k + 2, 65_535]) as u16;
        }
        7 if arcs > 0 => job.costs[rng.below(arcs)] = rng.pick(&[COST + 1, u32::MAX, 1 << 31]),
        8..=10 => {
            generate::damage_caps(rng, &mut job.caps);
            job.caps.resize(members, 0);
        }
        _ => {
            generate::damage_proposal(rng, &mut job.proposals);
            job.proposals.resize(members, 0);
        }
    }
}

/// Damages what the job writer is handed beside the tree, most often in more than one place.
pub fn damage_lists(rng: &mut Rng, job: &mut Job) {
    if rng.one_in(2) {
        generate::damage_caps(rng, &mut job.caps);
    }
    if rng.one_in(2) {
        generate::damage_proposal(rng, &mut job.proposals);
    }
    if rng.one_in(2) {
        job.note.resize(rng.pick(&[NOTE + 1, 300]), 7);
    }
}

pub fn resize_arcs(job: &mut Job, arcs: usize) {
    job.parents.resize(arcs, 0);
    job.fillers.resize(arcs, 0);
    job.costs.resize(arcs, 1);
}

pub fn resize_members(job: &mut Job, members: usize) {
    job.caps.resize(members, 5);
    job.proposals.resize(members, 5);
}

/// Damages the bytes of a job of the version, most often its trailer.
pub fn damage_bytes(rng: &mut Rng, bytes: &mut Vec<u8>, version: &Version) {
    if bytes.len() < 16 {
        bytes.push(0x4A);
        return;
    }
    let end = bytes.len() - 16;
    match rng.below(12) {
        0 => bytes.truncate(rng.pick(&[0, 1, 15, 16, 17, end, end + 15])),
        1 => bytes.extend(vec![0; 1 + rng.below(20)]),
        2 => {
            let most = version.longest;
            lengthen(bytes, rng.pick(&[most, most + 1, most + 16, 70_000]));
        }
        3 => bytes[end + rng.below(16)] ^= 1 << rng.below(8),
        4 => bytes[end + rng.below(16)] = rng.next() as u8,
        5 => bytes[end + 12 + rng.below(4)] = rng.pick(&[0, 1, 2, 0x54, 0x4A, 0xFF]),
        6 => bytes.swap(end + 14, end + 15),
        // Counts and offsets that agree only when sums wrap around.
        7 => add(bytes, end + 8, 2, rng.pick(&[1 << 13, 1 << 14, 1 << 15])),
        8 => add(bytes, end + 10, 2, rng.pick(&[1 << 12, 1 << 13, 1 << 15])),
        9 => {
            let by = rng.pick(&[8, 16, 256, 1 << 16, 1 << 31, u64::MAX - 7, u64::MAX - 15]);
            add(bytes, end, 4, by);
            if rng.one_in(2) {
                add(bytes, end + 4, 4, by);
                let rows = by / version.member_row as u64;
                add(bytes, end + 10, 2, rows.wrapping_neg());
            }
        }
        10 => {
            let at = rng.below(bytes.len());
            bytes.insert(at, rng.next() as u8);
        }
        _ => {
            let at = rng.below(bytes.len());
            bytes[at] = rng.next() as u8;
        }
    }
}

/// Adds to the little-endian number at the offset, dropping what overflows.
fn add(bytes: &mut [u8], offset: usize, width: usize, by: u64) {
    let mut number = [0; 8];
    number[..width].copy_from_slice(&bytes[offset..offset + width]);
    let sum = u64::from_le_bytes(number).wrapping_add(by).to_le_bytes();
    bytes[offset..offset + width].copy_from_slice(&sum[..width]);
}

/// Puts zero bytes before the trailer, up to the length.
fn lengthen(bytes: &mut Vec<u8>, length: usize) {
    let trailer = bytes.split_off(bytes.len() - 16);
    bytes.resize(length.max(bytes.len() + 16) - 16, 0);
    bytes.extend(trailer);
}

/// Arbitrary bytes, half of them with the version and the right closing bytes.
pub fn arbitrary(rng: &mut Rng, version: &Version) -> Vec<u8> {
    let most = rng.pick(&[20, 64, 300, version.longest]);
    let length = rng.below(most + 1);
    let mut bytes: Vec<u8> = (0..length).map(|_| rng.next() as u8).collect();
    if length >= 16 && rng.one_in(2) {
        bytes[length - 4..].copy_from_slice(&[version.number as u8, 0, 0x54, 0x4A]);
        if rng.one_in(2) {
            fit(rng, &mut bytes, version);
        }
    }
    bytes
}

/// Sets the trailer so that rows of arbitrary bytes meet and end exactly
/// where the length allows it.
fn fit(rng: &mut Rng, bytes: &mut [u8], version: &Version) {
    let end = bytes.len() - 16;
    let note = (end % 8 + 8 * rng.below(8)).min(end);
    let arcs = rng.below((end - note) / 8 + 1);
    let members = (end - note - 8 * arcs) / version.member_row;
    bytes[end..end + 4].copy_from_slice(&(note as u32).to_le_bytes());
    let rows = (note + 8 * arcs) as u32;
    bytes[end + 4..end + 8].copy_from_slice(&rows.to_le_bytes());
    bytes[end + 8..end + 10].copy_from_slice(&(arcs as u16).to_le_bytes());
    bytes[end + 10..end + 12].copy_from_slice(&(members as u16).to_le_bytes());
    // Fillers, or marks, of zero, so that the reader goes on to the tree.
    for k in 0..arcs {
        bytes[note + 8 * k + 2..note + 8 * k + 4].fill(0);
    }
}

/// Lengths of the lent lists, most often long enough.
pub fn lent_lengths<const LISTS: usize>(rng: &mut Rng) -> [usize; LISTS] {
    let mut lengths = [ARCS; LISTS];
    for length in &mut lengths {
        if rng.one_in(80) {
            *length = rng.pick(&[0, 1, ARCS - 1]);
        } else if rng.one_in(3) {
            *length = ARCS + rng.below(200);
        }
    }
    lengths
}
