//! The level split: the keys of all vertices, found together in rounds. A key
//! is level * 1024 + limit: at it a member has the level, one more where its
//! number is below the limit, and at most its cap.

use super::floors::{check_limits, find_stop};
use super::{check_tree, count_members, write_counted, write_members, VERTICES};
use crate::ffi::ZilqodurLevel;
use crate::reference::{check_output, Answer, AMOUNT, ARCS};

const LAST_KEY: u64 = AMOUNT * 1024;

/// Every so many rounds the middle is tried.
const TURNS: u32 = 8;

fn share_at(cap: u64, number: u64, key: u64) -> u64 {
    cap.min(key / 1024 + u64::from(number < key % 1024))
}

/// The lists of the search, one entry a vertex.
struct Search {
    caps: [u64; VERTICES],
    numbers: [u16; VERTICES],
    links: [u16; VERTICES],
    lows: [u64; VERTICES],
    highs: [u64; VERTICES],
    rests: [u64; VERTICES],
    pivots: [u64; VERTICES],
    sums: [u64; VERTICES],
    held: [u64; VERTICES],
    flags: [u16; VERTICES],
    roots: [u16; VERTICES],
    counts: [u64; VERTICES],
}

fn key_of(level: u64) -> u64 {
    level.min(AMOUNT) * 1024
}

impl Search {
    fn gauge(&mut self, order: &[u16]) {
        for &entry in order {
            let v = usize::from(entry);
            let link = self.links[v];
            let root = match link {
                0 => entry,
                _ => self.roots[usize::from(link)],
            };
            self.roots[v] = root;
            let r = usize::from(root);
            let level = self.pivots[v] / 1024;
            let own = self.rests[v].wrapping_add(self.caps[v].min(level));
            let free = u64::from(level < self.caps[v]);
            let (plain, count) = match link {
                0 => (0, 0),
                _ => (self.held[r], self.counts[r]),
            };
            self.held[r] = plain.wrapping_add(own);
            self.counts[r] = count.wrapping_add(free);
        }
    }

    fn guess_roots(&mut self, order: &[u16], bounds: &[u64], turn: u32) {
        for &entry in order {
            let v = usize::from(entry);
            if self.links[v] != 0 {
                continue;
            }
            let (plain, count, bound) = (self.held[v], self.counts[v], bounds[v - 1]);
            let level = self.pivots[v] / 1024;
            self.pivots[v] = if turn % TURNS == 0 || count == 0 {
                self.lows[v] / 2 + self.highs[v] / 2
            } else if bound < plain {
                let down = (plain - bound - 1) / count;
                key_of(level.saturating_sub(down).saturating_sub(1))
            } else {
                let up = (bound - plain) / count;
                key_of(level.saturating_add(up))
            };
            let want = bound.saturating_sub(plain);
            self.counts[v] = if want < count { want } else { 0 };
        }
    }

    fn count_off(&mut self, order: &[u16]) {
        for &entry in order {
            let v = usize::from(entry);
            let r = usize::from(self.roots[v]);
            let (guess, before) = (self.pivots[r], self.counts[r]);
            let left = before - u64::from(before > 0 && guess / 1024 < self.caps[v]);
            self.counts[r] = left;
            if left != before && left == 0 {
                self.pivots[r] = guess.wrapping_add(u64::from(self.numbers[v]) + 1);
            }
        }
    }

    fn spread(&mut self, order: &[u16]) {
        for &entry in order {
            let v = usize::from(entry);
            self.pivots[v] = match self.links[v] {
                0 => self.pivots[v].clamp(self.lows[v] + 1, self.highs[v] - 1),
                link => self.pivots[usize::from(link)],
            };
        }
    }

    fn evaluate(&mut self, order: &[u16], bounds: &[u64]) {
        for &entry in order.iter().rev() {
            let v = usize::from(entry);
            let share = share_at(self.caps[v], u64::from(self.numbers[v]), self.pivots[v]);
            let total = self.sums[v] + self.rests[v] + share;
            self.sums[v] = 0;
            self.held[v] = total;
            self.sums[usize::from(self.links[v])] += total.max(bounds[v - 1]);
        }
        self.sums[0] = 0;
    }

    fn settle(&mut self, order: &[u16], bounds: &[u64]) {
        for &entry in order {
            let v = usize::from(entry);
            let above = self.flags[usize::from(self.links[v])];
            let (held, bound) = (self.held[v], bounds[v - 1]);
            let flag = if bound < held {
                above
            } else if above == 1 || held != bound {
                1
            } else {
                2
            };
            self.flags[v] = flag;
            match flag {
                0 => self.highs[v] = self.pivots[v],
                _ => self.lows[v] = self.pivots[v],
            }
        }
    }

    fn keep_open(&mut self, order: &mut [u16], bounds: &[u64]) -> usize {
        let mut next = 0;
        for i in 0..order.len() {
            let v = usize::from(order[i]);
            let p = usize::from(self.links[v]);
            let flag = self.flags[v];
            if flag != self.flags[p] {
                self.links[v] = 0;
                if p != 0 {
                    self.rests[p] += bounds[v - 1];
                }
            }
            order[next] = order[i];
            next += usize::from(flag != 2 && self.lows[v] + 1 < self.highs[v]);
        }
        next
    }
}

/// The level rule at bounds, of which none is below the sum of those of its
/// child arcs.
pub fn write_shares(
    parents: &[u16],
    vertices: &[u16],
    caps: &[u64],
    bounds: &[u64],
    out: &mut [u64],
) {
    let m = parents.len();
    let mut search = Search {
        caps: [0; VERTICES],
        numbers: [0; VERTICES],
        links: [0; VERTICES],
        lows: [0; VERTICES],
        highs: [LAST_KEY + 1; VERTICES],
        rests: [0; VERTICES],
        pivots: [0; VERTICES],
        sums: [0; VERTICES],
        held: [0; VERTICES],
        flags: [0; VERTICES],
        roots: [0; VERTICES],
        counts: [0; VERTICES],
    };
    for (j, &v) in vertices.iter().enumerate() {
        search.caps[usize::from(v)] = caps[j];
        search.numbers[usize::from(v)] = j as u16;
    }
    let mut order = [0; ARCS];
    for i in 0..m {
        order[i] = i as u16 + 1;
        search.links[i + 1] = parents[i];
    }
    let (mut count, mut turn) = (m, 1);
    while count > 0 {
        let open = &mut order[..count];
        search.gauge(open);
        search.guess_roots(open, bounds, turn);
        search.count_off(open);
        search.spread(open);
        search.evaluate(open, bounds);
        search.settle(open, bounds);
        count = search.keep_open(open, bounds);
        turn = turn % TURNS + 1;
    }
    for (j, &v) in vertices.iter().enumerate() {
        out[j] = share_at(caps[j], j as u64, search.lows[usize::from(v)]);
    }
}

/// The level rule at the adjusted needs, where nothing stops it.
fn write_level(
    parents: &[u16],
    costs: &[u32],
    vertices: &[u16],
    caps: &[u64],
    floors: &[u64],
    out: &mut [u64],
) -> Answer<()> {
    let mut adjusted = [0; ARCS];
    let adjusted = &mut adjusted[..parents.len()];
    find_stop(parents, costs, vertices, caps, floors, adjusted)?;
    write_shares(parents, vertices, caps, adjusted, out);
    Ok(())
}

fn checked(
    parents: &[u16],
    costs: &[u32],
    marks: &[u16],
    caps: &[u64],
    floors: &[u64],
    out: &mut [u64],
) -> Answer<usize> {
    check_tree(parents, costs, marks)?;
    let (mut vertices, mut counted) = ([0; ARCS], [0; ARCS]);
    let counted = &mut counted[..parents.len()];
    write_counted(parents, costs, marks, counted);
    let members = count_members(marks);
    check_limits(members, caps, floors)?;
    check_output(out.len(), members)?;
    let vertices = &mut vertices[..members];
    write_members(marks, vertices);
    write_level(parents, counted, vertices, caps, floors, out)?;
    Ok(members)
}

pub fn answer(found: Answer<usize>) -> ZilqodurLevel {
    match found {
        Ok(members) => ZilqodurLevel {
            members,
            ..Default::default()
        },
        Err(r) => ZilqodurLevel {
            refusal: r.number,
            place: r.place,
            shortfall: r.shortfall,
            members: 0,
        },
    }
}

#[inline(never)]
pub fn split_level(
    parents: &[u16],
    costs: &[u32],
    marks: &[u16],
    caps: &[u64],
    floors: &[u64],
    out: &mut [u64],
) -> ZilqodurLevel {
    answer(checked(parents, costs, marks, caps, floors, out))
}
