//! The archive's C interface, and the same calls on slices.

use crate::reference::ARCS;

#[repr(C)]
#[derive(Clone, Copy, Debug, Default, PartialEq)]
pub struct ZilqodurCheck {
    pub refusal: u32,
    pub place: usize,
}

#[repr(C)]
#[derive(Clone, Copy, Debug, Default, PartialEq)]
pub struct ZilqodurMembers {
    pub refusal: u32,
    pub place: usize,
    pub members: usize,
}

#[repr(C)]
#[derive(Clone, Copy, Debug, Default, PartialEq)]
pub struct ZilqodurNeeds {
    pub refusal: u32,
    pub place: usize,
    pub whole: u64,
    pub members: usize,
}

#[repr(C)]
#[derive(Clone, Copy, Debug, Default, PartialEq)]
pub struct ZilqodurGroup {
    pub refusal: u32,
    pub place: usize,
    pub size: usize,
    pub cost: u64,
}

/// The verdict is 0 in a refusal, 1 where the shares add up, 2 where they do not.
#[repr(C)]
#[derive(Clone, Copy, Debug, Default, PartialEq)]
pub struct ZilqodurTotal {
    pub refusal: u32,
    pub place: usize,
    pub verdict: u32,
    pub difference: i64,
}

/// The verdict is 0 in a refusal, 1 where there is no group, 2 where one is
/// found.
#[repr(C)]
#[derive(Clone, Copy, Debug, Default, PartialEq)]
pub struct ZilqodurSearch {
    pub refusal: u32,
    pub place: usize,
    pub verdict: u32,
    pub amount: u64,
    pub size: usize,
    pub group: [u64; 16],
}

#[repr(C)]
#[derive(Clone, Copy, Debug, Default, PartialEq)]
pub struct ZilqodurCapSums {
    pub refusal: u32,
    pub place: usize,
    pub total: u64,
}

#[repr(C)]
#[derive(Clone, Copy, Debug, Default, PartialEq)]
pub struct ZilqodurLevel {
    pub refusal: u32,
    pub place: usize,
    pub shortfall: u64,
    pub members: usize,
}

#[repr(C)]
#[derive(Clone, Copy, Debug, Default, PartialEq)]
pub struct ZilqodurMargin {
    pub refusal: u32,
    pub place: usize,
    pub margin: u64,
    pub users: usize,
}

/// Entry c of the totals is what is paid in class c, entry 4 + c what it costs.
#[repr(C)]
#[derive(Clone, Copy, Debug, Default, PartialEq)]
pub struct ZilqodurClassSplit {
    pub refusal: u32,
    pub place: usize,
    pub members: usize,
    pub totals: [u64; 8],
}

/// The verdict is 0 in a refusal, 1 where the next list is written, 2 at the end.
#[repr(C)]
#[derive(Clone, Copy, Debug, Default, PartialEq)]
pub struct ZilqodurStep {
    pub refusal: u32,
    pub place: usize,
    pub verdict: u32,
}

#[repr(C)]
#[derive(Clone, Copy, Debug, PartialEq)]
pub struct ZilqodurState {
    pub arcs: usize,
    pub parents: [u16; ARCS],
    pub costs: [u32; ARCS],
    pub marks: [u16; ARCS],
    pub shares: [u64; ARCS],
    pub committed: u32,
}

const _: () = assert!(size_of::<ZilqodurState>() == 16_392);

/// The kind is 0 for arrive and 1 for leave; every other number is a new cost.
#[repr(C)]
#[derive(Clone, Copy, Debug, Default, PartialEq)]
pub struct ZilqodurEvent {
    pub vertex: usize,
    pub kind: u32,
    pub amount: u32,
}

#[repr(C)]
#[derive(Clone, Copy, Debug, PartialEq)]
pub struct ZilqodurStateAnswer {
    pub refusal: u32,
    pub place: usize,
    pub members: usize,
    pub state: ZilqodurState,
}

#[repr(C)]
#[derive(Clone, Copy, Debug, Default, PartialEq)]
pub struct ZilqodurQuote {
    pub event: ZilqodurEvent,
    pub committed: u32,
}

#[repr(C)]
#[derive(Clone, Copy, Debug, PartialEq)]
pub struct ZilqodurQuoteAnswer {
    pub refusal: u32,
    pub place: usize,
    pub members: usize,
    pub quote: ZilqodurQuote,
    pub shares: [u64; ARCS],
}

const _: () = assert!(size_of::<ZilqodurQuoteAnswer>() == 8_232);

#[repr(C)]
#[derive(Clone, Copy, Debug, Default, PartialEq)]
pub struct ZilqodurJob {
    pub refusal: u32,
    pub place: usize,
    pub arcs: usize,
    pub members: usize,
    pub note: usize,
}

#[repr(C)]
#[derive(Clone, Copy, Debug, Default, PartialEq)]
pub struct ZilqodurJobLength {
    pub refusal: u32,
    pub place: usize,
    pub length: usize,
}

pub const REPORT_ROOM: usize = 196_608;

#[repr(C)]
#[derive(Clone, Copy, Debug, Default, PartialEq)]
pub struct ZilqodurReport {
    pub refusal: u32,
    pub place: usize,
    pub length: usize,
}

unsafe extern "C" {
    fn zilqodur_check_tree(
        parents: *const u16,
        parents_count: usize,
        costs: *const u32,
        costs_count: usize,
        marks: *const u16,
        marks_count: usize,
    ) -> ZilqodurCheck;
    fn zilqodur_check_caps(members: usize, caps: *const u64, caps_count: usize) -> ZilqodurCheck;
    fn zilqodur_check_proposal(
        members: usize,
        proposal: *const i64,
        proposal_count: usize,
    ) -> ZilqodurCheck;
    fn zilqodur_mark_dead_ends(
        parents: *const u16,
        parents_count: usize,
        costs: *const u32,
        costs_count: usize,
        out: *mut u16,
        out_count: usize,
    ) -> ZilqodurMembers;
    fn zilqodur_count_members(
        parents: *const u16,
        parents_count: usize,
        costs: *const u32,
        costs_count: usize,
        marks: *const u16,
        marks_count: usize,
    ) -> ZilqodurMembers;
    fn zilqodur_list_members(
        parents: *const u16,
        parents_count: usize,
        costs: *const u32,
        costs_count: usize,
        marks: *const u16,
        marks_count: usize,
        out: *mut u16,
        out_count: usize,
    ) -> ZilqodurMembers;
    fn zilqodur_list_needs(
        parents: *const u16,
        parents_count: usize,
        costs: *const u32,
        costs_count: usize,
        marks: *const u16,
        marks_count: usize,
        out: *mut u64,
        out_count: usize,
    ) -> ZilqodurNeeds;
    fn zilqodur_group_cost(
        parents: *const u16,
        parents_count: usize,
        costs: *const u32,
        costs_count: usize,
        marks: *const u16,
        marks_count: usize,
        group: *const [u64; 16],
    ) -> ZilqodurGroup;
    fn zilqodur_check_total(
        parents: *const u16,
        parents_count: usize,
        costs: *const u32,
        costs_count: usize,
        marks: *const u16,
        marks_count: usize,
        proposal: *const i64,
        proposal_count: usize,
    ) -> ZilqodurTotal;
    fn zilqodur_find_group(
        parents: *const u16,
        parents_count: usize,
        costs: *const u32,
        costs_count: usize,
        marks: *const u16,
        marks_count: usize,
        proposal: *const i64,
        proposal_count: usize,
    ) -> ZilqodurSearch;
    fn zilqodur_list_cap_sums(
        parents: *const u16,
        parents_count: usize,
        costs: *const u32,
        costs_count: usize,
        marks: *const u16,
        marks_count: usize,
        caps: *const u64,
        caps_count: usize,
        out: *mut u64,
        out_count: usize,
    ) -> ZilqodurCapSums;
    fn zilqodur_split_level(
        parents: *const u16,
        parents_count: usize,
        costs: *const u32,
        costs_count: usize,
        marks: *const u16,
        marks_count: usize,
        caps: *const u64,
        caps_count: usize,
        floors: *const u64,
        floors_count: usize,
        out: *mut u64,
        out_count: usize,
    ) -> ZilqodurLevel;
    fn zilqodur_split_by_arc(
        parents: *const u16,
        parents_count: usize,
        costs: *const u32,
        costs_count: usize,
        marks: *const u16,
        marks_count: usize,
        out: *mut u64,
        out_count: usize,
    ) -> ZilqodurMembers;
    fn zilqodur_split_margin(
        parents: *const u16,
        parents_count: usize,
        costs: *const u32,
        costs_count: usize,
        marks: *const u16,
        marks_count: usize,
        arc: usize,
        out: *mut u64,
        out_count: usize,
    ) -> ZilqodurMargin;
    fn zilqodur_split_classes(
        parents: *const u16,
        parents_count: usize,
        costs: *const u32,
        costs_count: usize,
        marks: *const u16,
        marks_count: usize,
        classes: usize,
        out: *mut u64,
        out_count: usize,
    ) -> ZilqodurClassSplit;
    fn zilqodur_next_parents(parents: *mut u16, parents_count: usize) -> ZilqodurStep;
    fn zilqodur_make_state(
        parents: *const u16,
        parents_count: usize,
        costs: *const u32,
        costs_count: usize,
        marks: *const u16,
        marks_count: usize,
    ) -> ZilqodurStateAnswer;
    fn zilqodur_ask(state: ZilqodurState, event: ZilqodurEvent) -> ZilqodurQuoteAnswer;
    fn zilqodur_commit(state: ZilqodurState, quote: ZilqodurQuote) -> ZilqodurStateAnswer;
    fn zilqodur_read_job(
        bytes: *const u8,
        bytes_count: usize,
        parents: *mut u16,
        parents_count: usize,
        costs: *mut u32,
        costs_count: usize,
        caps: *mut u64,
        caps_count: usize,
        proposals: *mut i64,
        proposals_count: usize,
    ) -> ZilqodurJob;
    fn zilqodur_job_length(
        note: *const u8,
        note_count: usize,
        parents: *const u16,
        parents_count: usize,
        costs: *const u32,
        costs_count: usize,
        caps: *const u64,
        caps_count: usize,
        proposals: *const i64,
        proposals_count: usize,
    ) -> ZilqodurJobLength;
    fn zilqodur_write_job(
        note: *const u8,
        note_count: usize,
        parents: *const u16,
        parents_count: usize,
        costs: *const u32,
        costs_count: usize,
        caps: *const u64,
        caps_count: usize,
        proposals: *const i64,
        proposals_count: usize,
        out: *mut u8,
        out_count: usize,
    ) -> ZilqodurJobLength;
    fn zilqodur_read_job2(
        bytes: *const u8,
        bytes_count: usize,
        parents: *mut u16,
        parents_count: usize,
        costs: *mut u32,
        costs_count: usize,
        marks: *mut u16,
        marks_count: usize,
        caps: *mut u64,
        caps_count: usize,
        proposals: *mut i64,
        proposals_count: usize,
        floors: *mut u64,
        floors_count: usize,
    ) -> ZilqodurJob;
    fn zilqodur_job_to_2(
        bytes: *const u8,
        bytes_count: usize,
        out: *mut u8,
        out_count: usize,
    ) -> ZilqodurJobLength;
    fn zilqodur_job_to_1(
        bytes: *const u8,
        bytes_count: usize,
        out: *mut u8,
        out_count: usize,
    ) -> ZilqodurJobLength;
    fn zilqodur_report(
        bytes: *const u8,
        bytes_count: usize,
        out: *mut [u8; REPORT_ROOM],
    ) -> ZilqodurReport;
}

// Safe: the pointers and lengths are those of live slices that do not overlap.

pub fn check_tree(parents: &[u16], costs: &[u32], marks: &[u16]) -> ZilqodurCheck {
    unsafe {
        zilqodur_check_tree(
            parents.as_ptr(),
            parents.len(),
            costs.as_ptr(),
            costs.len(),
            marks.as_ptr(),
            marks.len(),
        )
    }
}

pub fn check_caps(members: usize, caps: &[u64]) -> ZilqodurCheck {
    unsafe { zilqodur_check_caps(members, caps.as_ptr(), caps.len()) }
}

pub fn check_proposal(members: usize, proposal: &[i64]) -> ZilqodurCheck {
    unsafe { zilqodur_check_proposal(members, proposal.as_ptr(), proposal.len()) }
}

pub fn mark_dead_ends(parents: &[u16], costs: &[u32], out: &mut [u16]) -> ZilqodurMembers {
    unsafe {
        zilqodur_mark_dead_ends(
            parents.as_ptr(),
            parents.len(),
            costs.as_ptr(),
            costs.len(),
            out.as_mut_ptr(),
            out.len(),
        )
    }
}

pub fn count_members(parents: &[u16], costs: &[u32], marks: &[u16]) -> ZilqodurMembers {
    unsafe {
        zilqodur_count_members(
            parents.as_ptr(),
            parents.len(),
            costs.as_ptr(),
            costs.len(),
            marks.as_ptr(),
            marks.len(),
        )
    }
}

pub fn list_members(
    parents: &[u16],
    costs: &[u32],
    marks: &[u16],
    out: &mut [u16],
) -> ZilqodurMembers {
    unsafe {
        zilqodur_list_members(
            parents.as_ptr(),
            parents.len(),
            costs.as_ptr(),
            costs.len(),
            marks.as_ptr(),
            marks.len(),
            out.as_mut_ptr(),
            out.len(),
        )
    }
}

pub fn list_needs(parents: &[u16], costs: &[u32], marks: &[u16], out: &mut [u64]) -> ZilqodurNeeds {
    unsafe {
        zilqodur_list_needs(
            parents.as_ptr(),
            parents.len(),
            costs.as_ptr(),
            costs.len(),
            marks.as_ptr(),
            marks.len(),
            out.as_mut_ptr(),
            out.len(),
        )
    }
}

pub fn group_cost(
    parents: &[u16],
    costs: &[u32],
    marks: &[u16],
    group: &[u64; 16],
) -> ZilqodurGroup {
    unsafe {
        zilqodur_group_cost(
            parents.as_ptr(),
            parents.len(),
            costs.as_ptr(),
            costs.len(),
            marks.as_ptr(),
            marks.len(),
            group,
        )
    }
}

pub fn check_total(
    parents: &[u16],
    costs: &[u32],
    marks: &[u16],
    proposal: &[i64],
) -> ZilqodurTotal {
    unsafe {
        zilqodur_check_total(
            parents.as_ptr(),
            parents.len(),
            costs.as_ptr(),
            costs.len(),
            marks.as_ptr(),
            marks.len(),
            proposal.as_ptr(),
            proposal.len(),
        )
    }
}

pub fn find_group(
    parents: &[u16],
    costs: &[u32],
    marks: &[u16],
    proposal: &[i64],
) -> ZilqodurSearch {
    unsafe {
        zilqodur_find_group(
            parents.as_ptr(),
            parents.len(),
            costs.as_ptr(),
            costs.len(),
            marks.as_ptr(),
            marks.len(),
            proposal.as_ptr(),
            proposal.len(),
        )
    }
}

pub fn list_cap_sums(
    parents: &[u16],
    costs: &[u32],
    marks: &[u16],
    caps: &[u64],
    out: &mut [u64],
) -> ZilqodurCapSums {
    unsafe {
        zilqodur_list_cap_sums(
            parents.as_ptr(),
            parents.len(),
            costs.as_ptr(),
            costs.len(),
            marks.as_ptr(),
            marks.len(),
            caps.as_ptr(),
            caps.len(),
            out.as_mut_ptr(),
            out.len(),
        )
    }
}

pub fn split_level(
    parents: &[u16],
    costs: &[u32],
    marks: &[u16],
    caps: &[u64],
    floors: &[u64],
    out: &mut [u64],
) -> ZilqodurLevel {
    unsafe {
        zilqodur_split_level(
            parents.as_ptr(),
            parents.len(),
            costs.as_ptr(),
            costs.len(),
            marks.as_ptr(),
            marks.len(),
            caps.as_ptr(),
            caps.len(),
            floors.as_ptr(),
            floors.len(),
            out.as_mut_ptr(),
            out.len(),
        )
    }
}

pub fn split_by_arc(
    parents: &[u16],
    costs: &[u32],
    marks: &[u16],
    out: &mut [u64],
) -> ZilqodurMembers {
    unsafe {
        zilqodur_split_by_arc(
            parents.as_ptr(),
            parents.len(),
            costs.as_ptr(),
            costs.len(),
            marks.as_ptr(),
            marks.len(),
            out.as_mut_ptr(),
            out.len(),
        )
    }
}

pub fn split_margin(
    parents: &[u16],
    costs: &[u32],
    marks: &[u16],
    arc: usize,
    out: &mut [u64],
) -> ZilqodurMargin {
    unsafe {
        zilqodur_split_margin(
            parents.as_ptr(),
            parents.len(),
            costs.as_ptr(),
            costs.len(),
            marks.as_ptr(),
            marks.len(),
            arc,
            out.as_mut_ptr(),
            out.len(),
        )
    }
}

pub fn split_classes(
    parents: &[u16],
    costs: &[u32],
    marks: &[u16],
    classes: usize,
    out: &mut [u64],
) -> ZilqodurClassSplit {
    unsafe {
        zilqodur_split_classes(
            parents.as_ptr(),
            parents.len(),
            costs.as_ptr(),
            costs.len(),
            marks.as_ptr(),
            marks.len(),
            classes,
            out.as_mut_ptr(),
            out.len(),
        )
    }
}

pub fn next_parents(parents: &mut [u16]) -> ZilqodurStep {
    unsafe { zilqodur_next_parents(parents.as_mut_ptr(), parents.len()) }
}

pub fn make_state(parents: &[u16], costs: &[u32], marks: &[u16]) -> ZilqodurStateAnswer {
    unsafe {
        zilqodur_make_state(
            parents.as_ptr(),
            parents.len(),
            costs.as_ptr(),
            costs.len(),
            marks.as_ptr(),
            marks.len(),
        )
    }
}

pub fn ask(state: &ZilqodurState, event: ZilqodurEvent) -> ZilqodurQuoteAnswer {
    unsafe { zilqodur_ask(*state, event) }
}

pub fn commit(state: &ZilqodurState, quote: ZilqodurQuote) -> ZilqodurStateAnswer {
    unsafe { zilqodur_commit(*state, quote) }
}

pub fn read_job(
    bytes: &[u8],
    parents: &mut [u16],
    costs: &mut [u32],
    caps: &mut [u64],
    proposals: &mut [i64],
) -> ZilqodurJob {
    unsafe {
        zilqodur_read_job(
            bytes.as_ptr(),
            bytes.len(),
            parents.as_mut_ptr(),
            parents.len(),
            costs.as_mut_ptr(),
            costs.len(),
            caps.as_mut_ptr(),
            caps.len(),
            proposals.as_mut_ptr(),
            proposals.len(),
        )
    }
}

pub fn job_length(
    note: &[u8],
    parents: &[u16],
    costs: &[u32],
    caps: &[u64],
    proposals: &[i64],
) -> ZilqodurJobLength {
    unsafe {
        zilqodur_job_length(
            note.as_ptr(),
            note.len(),
            parents.as_ptr(),
            parents.len(),
            costs.as_ptr(),
            costs.len(),
            caps.as_ptr(),
            caps.len(),
            proposals.as_ptr(),
            proposals.len(),
        )
    }
}

pub fn write_job(
    note: &[u8],
    parents: &[u16],
    costs: &[u32],
    caps: &[u64],
    proposals: &[i64],
    out: &mut [u8],
) -> ZilqodurJobLength {
    unsafe {
        zilqodur_write_job(
            note.as_ptr(),
            note.len(),
            parents.as_ptr(),
            parents.len(),
            costs.as_ptr(),
            costs.len(),
            caps.as_ptr(),
            caps.len(),
            proposals.as_ptr(),
            proposals.len(),
            out.as_mut_ptr(),
            out.len(),
        )
    }
}

pub fn read_job2(
    bytes: &[u8],
    parents: &mut [u16],
    costs: &mut [u32],
    marks: &mut [u16],
    caps: &mut [u64],
    proposals: &mut [i64],
    floors: &mut [u64],
) -> ZilqodurJob {
    unsafe {
        zilqodur_read_job2(
            bytes.as_ptr(),
            bytes.len(),
            parents.as_mut_ptr(),
            parents.len(),
            costs.as_mut_ptr(),
            costs.len(),
            marks.as_mut_ptr(),
            marks.len(),
            caps.as_mut_ptr(),
            caps.len(),
            proposals.as_mut_ptr(),
            proposals.len(),
            floors.as_mut_ptr(),
            floors.len(),
        )
    }
}

pub fn job_to_2(bytes: &[u8], out: &mut [u8]) -> ZilqodurJobLength {
    unsafe { zilqodur_job_to_2(bytes.as_ptr(), bytes.len(), out.as_mut_ptr(), out.len()) }
}

pub fn job_to_1(bytes: &[u8], out: &mut [u8]) -> ZilqodurJobLength {
    unsafe { zilqodur_job_to_1(bytes.as_ptr(), bytes.len(), out.as_mut_ptr(), out.len()) }
}

pub fn report(bytes: &[u8], out: &mut [u8; REPORT_ROOM]) -> ZilqodurReport {
    unsafe { zilqodur_report(bytes.as_ptr(), bytes.len(), out) }
}
