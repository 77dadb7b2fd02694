// Audits and splits the tree T of docs/SPECIFICATION.md, §10, with a member at every dead end, then with one spare; then
// somebody asks what arriving there would cost, and arrives. At the end, all parent lists of three arcs. The
// declarations are those of include/zilqodur.h.

#[repr(C)]
struct ZilqodurMembers {
    refusal: u32,
    place: usize,
    members: usize,
}

#[repr(C)]
struct ZilqodurTotal {
    refusal: u32,
    place: usize,
    verdict: u32,
    difference: i64,
}

#[repr(C)]
struct ZilqodurSearch {
    refusal: u32,
    place: usize,
    verdict: u32,
    amount: u64,
    size: usize,
    group: [u64; 16],
}

#[repr(C)]
struct ZilqodurLevel {
    refusal: u32,
    place: usize,
    shortfall: u64,
    members: usize,
}

#[repr(C)]
struct ZilqodurStep {
    refusal: u32,
    place: usize,
    verdict: u32,
}

#[repr(C)]
#[derive(Clone, Copy)]
struct ZilqodurState {
    arcs: usize,
    parents: [u16; 1023],
    costs: [u32; 1023],
    marks: [u16; 1023],
    shares: [u64; 1023],
    committed: u32,
}

#[repr(C)]
#[derive(Clone, Copy)]
struct ZilqodurEvent {
    vertex: usize,
    kind: u32,
    amount: u32,
}

#[repr(C)]
struct ZilqodurStateAnswer {
    refusal: u32,
    place: usize,
    members: usize,
    state: ZilqodurState,
}

#[repr(C)]
#[derive(Clone, Copy)]
struct ZilqodurQuote {
    event: ZilqodurEvent,
    committed: u32,
}

#[repr(C)]
struct ZilqodurQuoteAnswer {
    refusal: u32,
    place: usize,
    members: usize,
    quote: ZilqodurQuote,
    shares: [u64; 1023],
}

#[link(name = "capi", kind = "static")]
unsafe extern "C" {
    fn zilqodur_mark_dead_ends(
        parents: *const u16,
        parents_count: usize,
        costs: *const u32,
        costs_count: usize,
        out: *mut u16,
        out_count: usize,
    ) -> ZilqodurMembers;

    fn zilqodur_check_total(
        parents: *const u16,
        parents_count: usize,
        costs: *const u32,
        costs_count: usize,
        marks: *const u16,
        marks_count: usize,
        proposal: *const i64,
        proposal_count: usize,
    ) -> ZilqodurTotal;

    fn zilqodur_find_group(
        parents: *const u16,
        parents_count: usize,
        costs: *const u32,
        costs_count: usize,
        marks: *const u16,
        marks_count: usize,
        proposal: *const i64,
        proposal_count: usize,
    ) -> ZilqodurSearch;

    fn zilqodur_split_level(
        parents: *const u16,
        parents_count: usize,
        costs: *const u32,
        costs_count: usize,
        marks: *const u16,
        marks_count: usize,
        caps: *const u64,
        caps_count: usize,
        floors: *const u64,
        floors_count: usize,
        out: *mut u64,
        out_count: usize,
    ) -> ZilqodurLevel;

    fn zilqodur_split_by_arc(
        parents: *const u16,
        parents_count: usize,
        costs: *const u32,
        costs_count: usize,
        marks: *const u16,
        marks_count: usize,
        out: *mut u64,
        out_count: usize,
    ) -> ZilqodurMembers;

    fn zilqodur_next_parents(parents: *mut u16, parents_count: usize) -> ZilqodurStep;

    fn zilqodur_make_state(
        parents: *const u16,
        parents_count: usize,
        costs: *const u32,
        costs_count: usize,
        marks: *const u16,
        marks_count: usize,
    ) -> ZilqodurStateAnswer;

    fn zilqodur_ask(state: ZilqodurState, event: ZilqodurEvent) -> ZilqodurQuoteAnswer;

    fn zilqodur_commit(state: ZilqodurState, quote: ZilqodurQuote) -> ZilqodurStateAnswer;
}

const ADDS_UP: u32 = 1;
const OFF: u32 = 2;
const NO_GROUP: u32 = 1;
const GROUP: u32 = 2;
const STEP_NEXT: u32 = 1;
const ARRIVE: u32 = 0;

const PARENTS: [u16; 4] = [0, 1, 1, 0];
const COSTS: [u32; 4] = [6, 1, 5, 4];

fn mark_dead_ends(out: &mut [u16]) -> ZilqodurMembers {
    // Safety: each pointer and count are those of one slice, and `out` is borrowed alone.
    unsafe {
        zilqodur_mark_dead_ends(
            PARENTS.as_ptr(),
            PARENTS.len(),
            COSTS.as_ptr(),
            COSTS.len(),
            out.as_mut_ptr(),
            out.len(),
        )
    }
}

fn check_total(marks: &[u16], proposal: &[i64]) -> ZilqodurTotal {
    // Safety: each pointer and count are those of one slice, and nothing is written.
    unsafe {
        zilqodur_check_total(
            PARENTS.as_ptr(),
            PARENTS.len(),
            COSTS.as_ptr(),
            COSTS.len(),
            marks.as_ptr(),
            marks.len(),
            proposal.as_ptr(),
            proposal.len(),
        )
    }
}

fn find_group(marks: &[u16], proposal: &[i64]) -> ZilqodurSearch {
    // Safety: each pointer and count are those of one slice, and nothing is written.
    unsafe {
        zilqodur_find_group(
            PARENTS.as_ptr(),
            PARENTS.len(),
            COSTS.as_ptr(),
            COSTS.len(),
            marks.as_ptr(),
            marks.len(),
            proposal.as_ptr(),
            proposal.len(),
        )
    }
}

fn split_level(marks: &[u16], caps: &[u64], floors: &[u64], out: &mut [u64]) -> ZilqodurLevel {
    // Safety: each pointer and count are those of one slice, and `out` is borrowed alone.
    unsafe {
        zilqodur_split_level(
            PARENTS.as_ptr(),
            PARENTS.len(),
            COSTS.as_ptr(),
            COSTS.len(),
            marks.as_ptr(),
            marks.len(),
            caps.as_ptr(),
            caps.len(),
            floors.as_ptr(),
            floors.len(),
            out.as_mut_ptr(),
            out.len(),
        )
    }
}

fn split_by_arc(marks: &[u16], out: &mut [u64]) -> ZilqodurMembers {
    // Safety: each pointer and count are those of one slice, and `out` is borrowed alone.
    unsafe {
        zilqodur_split_by_arc(
            PARENTS.as_ptr(),
            PARENTS.len(),
            COSTS.as_ptr(),
            COSTS.len(),
            marks.as_ptr(),
            marks.len(),
            out.as_mut_ptr(),
            out.len(),
        )
    }
}

fn next_parents(list: &mut [u16]) -> ZilqodurStep {
    // Safety: the pointer and the count are those of one slice, which is borrowed alone.
    unsafe { zilqodur_next_parents(list.as_mut_ptr(), list.len()) }
}

fn make_state(marks: &[u16]) -> ZilqodurStateAnswer {
    // Safety: each pointer and count are those of one slice, and nothing is written.
    unsafe {
        zilqodur_make_state(
            PARENTS.as_ptr(),
            PARENTS.len(),
            COSTS.as_ptr(),
            COSTS.len(),
            marks.as_ptr(),
            marks.len(),
        )
    }
}

fn ask(state: &ZilqodurState, event: ZilqodurEvent) -> ZilqodurQuoteAnswer {
    // Safety: both are handed over by value.
    unsafe { zilqodur_ask(*state, event) }
}

fn commit(state: &ZilqodurState, quote: ZilqodurQuote) -> ZilqodurStateAnswer {
    // Safety: both are handed over by value.
    unsafe { zilqodur_commit(*state, quote) }
}

fn joined(numbers: &[u64]) -> String {
    numbers.iter().map(|n| format!(" {n}")).collect()
}

fn print_group(s: &ZilqodurSearch) {
    let group: Vec<u64> = (0..1024).filter(|j| s.group[(j / 64) as usize] >> (j % 64) & 1 == 1).collect();
    println!("audit group {} of {}:{}", s.amount, s.size, joined(&group));
}

fn print_audit(marks: &[u16], proposal: &[i64]) {
    let t = check_total(marks, proposal);
    let s = find_group(marks, proposal);
    // The two functions refuse the same lists by the same numbers.
    assert_eq!((t.refusal, t.place), (s.refusal, s.place));
    if t.refusal != 0 {
        println!("audit refused {} at {}", t.refusal, t.place);
    }
    if t.verdict == OFF {
        println!("audit total {}", t.difference);
    }
    if s.verdict == GROUP {
        print_group(&s);
    }
    if t.verdict == ADDS_UP && s.verdict == NO_GROUP {
        println!("audit pass");
    }
}

fn print_level(marks: &[u16], caps: &[u64], floors: &[u64]) {
    let mut shares = [0; 3];
    let l = split_level(marks, caps, floors, &mut shares);
    if l.refusal != 0 {
        println!("level refused {} at {} short {}", l.refusal, l.place, l.shortfall);
    } else {
        println!("level{}", joined(&shares[..l.members]));
    }
}

fn print_by_arc(marks: &[u16], members: usize) {
    let mut shares = vec![0; members];
    let m = split_by_arc(marks, &mut shares);
    if m.refusal != 0 {
        println!("by-arc refused {} at {}", m.refusal, m.place);
    } else {
        println!("by-arc{}", joined(&shares[..m.members]));
    }
}

/// The shares that an arrival would lead to; the state stays as it is.
fn print_ask(state: &ZilqodurState, vertex: usize) -> ZilqodurQuote {
    let event = ZilqodurEvent {
        vertex,
        kind: ARRIVE,
        amount: 0,
    };
    let q = ask(state, event);
    if q.refusal != 0 {
        println!("ask refused {} at {}", q.refusal, q.place);
    } else {
        println!("ask{}", joined(&q.shares[..q.members]));
    }
    q.quote
}

/// The shares after the quote's event; a refused commit leaves the state as it is.
fn print_commit(state: &ZilqodurState, quote: ZilqodurQuote) -> ZilqodurState {
    let a = commit(state, quote);
    if a.refusal != 0 {
        println!("commit refused {} at {}", a.refusal, a.place);
    } else {
        println!("commit{}", joined(&a.state.shares[..a.members]));
    }
    a.state
}

/// From all zeros to the last list.
fn print_small_networks() {
    let mut list = [0; 3];
    print!("networks");
    loop {
        let digits: String = list.iter().map(u16::to_string).collect();
        print!(" {digits}");
        let s = next_parents(&mut list);
        assert_eq!((s.refusal, s.place), (0, 0));
        if s.verdict != STEP_NEXT {
            break;
        }
    }
    println!();
}

fn main() {
    let mut marks = [0; 4];
    let m = mark_dead_ends(&mut marks);
    if m.refusal != 0 {
        println!("tree refused {} at {}", m.refusal, m.place);
        return;
    }
    print_audit(&marks, &[7, 5, 4]);
    print_audit(&marks, &[8, 4, 4]);
    print_audit(&marks, &[8, 4, 5]);
    print_audit(&marks, &[8, 4, 2_000_000_000_001]);
    print_level(&marks, &[100, 100, 100], &[0, 0, 0]);
    print_level(&marks, &[3, 8, 100], &[0, 0, 0]);
    // Member 1 pays at least 7.
    print_level(&marks, &[100, 100, 100], &[0, 7, 0]);
    print_by_arc(&marks, m.members);
    // Vertex 3 is a plot that is not yet sold: nobody pays for its arc.
    marks[2] = 0;
    print_by_arc(&marks, m.members - 1);
    let state = make_state(&marks).state;
    let quote = print_ask(&state, 3);
    // The plot is sold.
    let state = print_commit(&state, quote);
    // A quote is carried out once.
    let state = print_commit(&state, quote);
    print_ask(&state, 3);
    print_small_networks();
}
