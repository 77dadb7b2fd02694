//! States, events and quotes (specification, §11).

use crate::job::Fault;
use crate::reference::{refusal, refuse, tree_faults, Answer, Refusal, Tree, ARCS};

/// At this number of events committed no quote is carried out.
pub const EVENTS: u32 = 1_000_000;

/// A tree, its shares and the number of events committed, each list with one
/// entry for each of the most arcs.
#[derive(Clone, PartialEq)]
pub struct State {
    pub arcs: usize,
    pub parents: Vec<u16>,
    pub costs: Vec<u32>,
    pub marks: Vec<u16>,
    pub shares: Vec<u64>,
    pub committed: u32,
}

#[derive(Clone, Copy)]
pub enum Change {
    Arrive,
    Leave,
    NewCost(u32),
}

#[derive(Clone, Copy)]
pub struct Event {
    pub vertex: usize,
    pub change: Change,
}

#[derive(Clone, Copy)]
pub struct Quote {
    pub event: Event,
    pub committed: u32,
}

/// The list with 0 past its end.
fn padded<T: Clone + Default>(list: &[T]) -> Vec<T> {
    let mut padded = list.to_vec();
    padded.resize(ARCS, T::default());
    padded
}

impl State {
    fn new(parents: &[u16], costs: &[u32], marks: &[u16], shares: &[u64]) -> State {
        State {
            arcs: parents.len(),
            parents: padded(parents),
            costs: padded(costs),
            marks: padded(marks),
            shares: padded(shares),
            committed: 0,
        }
    }

    /// The lists of the state's tree, which has no more than the most arcs.
    pub fn lists(&self) -> (&[u16], &[u32], &[u16]) {
        let arcs = self.arcs;
        (
            &self.parents[..arcs],
            &self.costs[..arcs],
            &self.marks[..arcs],
        )
    }

    /// The faults of the state's tree; of one with too many arcs it has not all.
    fn tree_faults(&self) -> Vec<Refusal> {
        if self.arcs > ARCS {
            return vec![refusal(1, 0)];
        }
        let (parents, costs, marks) = self.lists();
        tree_faults(parents, costs, marks)
    }

    /// The state with one entry changed, at a vertex that it has.
    fn changed(&self, event: Event) -> State {
        let mut next = self.clone();
        let i = event.vertex - 1;
        match event.change {
            Change::Arrive => next.marks[i] = 1,
            Change::Leave => next.marks[i] = 0,
            Change::NewCost(amount) => next.costs[i] = amount,
        }
        next
    }

    /// The faults of the state and the event, in the order of the refusals; where
    /// there is none, those of the tree reached.
    pub fn faults(&self, event: Event) -> Vec<Fault> {
        let named = |name| move |fault| (name, fault);
        let mut faults: Vec<Fault> = self.tree_faults().into_iter().map(named("state")).collect();
        if let Err(fault) = self.check_event(event) {
            faults.push(("event", fault));
        }
        if faults.is_empty() {
            let reached = self.changed(event).tree_faults();
            faults.extend(reached.into_iter().map(named("tree reached")));
        }
        faults
    }

    /// 21, then 22 where the vertex has an entry.
    fn check_event(&self, event: Event) -> Answer<()> {
        let vertex = event.vertex;
        if vertex == 0 || vertex > self.arcs {
            return refuse(21, vertex);
        }
        let mark = self.marks.get(vertex - 1);
        match (event.change, mark) {
            (Change::Arrive, Some(1)) | (Change::Leave, Some(0)) => refuse(22, vertex),
            _ => Ok(()),
        }
    }

    /// 23 and 24, then the faults of the quote's event.
    pub fn quote_faults(&self, quote: Quote, of_event: &[Fault]) -> Vec<Fault> {
        let other = quote.committed != self.committed;
        let full = self.committed >= EVENTS;
        let numbers = [(other, 23), (full, 24)].into_iter();
        let numbers = numbers.filter(|&(holds, _)| holds);
        let numbers = numbers.map(|(_, number)| ("quote", refusal(number, 0)));
        numbers.chain(of_event.iter().copied()).collect()
    }

    /// The number of members after the event and the state made of the tree
    /// reached, where there is no fault.
    fn reach(&self, event: Event, faults: &[Fault]) -> Answer<(usize, State)> {
        if let Some(&(_, fault)) = faults.first() {
            return Err(fault);
        }
        let next = self.changed(event);
        let (parents, costs, marks) = next.lists();
        let (found, made) = make(parents, costs, marks);
        found.map(|members| (members, made))
    }

    /// The number of members after the event, its quote and the shares, given the
    /// faults of the event.
    pub fn ask(&self, event: Event, faults: &[Fault]) -> Answer<(usize, Quote, Vec<u64>)> {
        let (members, made) = self.reach(event, faults)?;
        let committed = self.committed;
        Ok((members, Quote { event, committed }, made.shares))
    }

    /// The number of members after the quote's event and the next state, given
    /// the faults of the quote.
    pub fn commit(&self, quote: Quote, faults: &[Fault]) -> (Answer<usize>, State) {
        match self.reach(quote.event, faults) {
            Ok((members, mut next)) => {
                next.committed = self.committed + 1;
                (Ok(members), next)
            }
            Err(fault) => (Err(fault), self.clone()),
        }
    }
}

/// The number of members and the state made of the tree.
pub fn make(parents: &[u16], costs: &[u32], marks: &[u16]) -> (Answer<usize>, State) {
    match Tree::new(parents, costs, marks) {
        Ok(tree) => {
            let shares = tree.by_arc();
            let state = State::new(parents, costs, marks, &shares);
            (Ok(shares.len()), state)
        }
        Err(fault) => (Err(fault), State::new(&[], &[], &[], &[])),
    }
}
