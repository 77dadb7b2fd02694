//! The groups of all arcs, in heaps by their keys.

use super::heap::Heaps;

#[derive(Clone, Default)]
struct Group {
    /// The users below their caps.
    users: [u64; 16],
    size: u64,
    /// How many of them are below the mark.
    raised: u64,
    /// The heap of the users by the key at which they reach their cap.
    caps: u16,
}

impl Group {
    fn rank(&self, mark: u64) -> u64 {
        let word = (mark / 64) as usize;
        let part = self.users[word] & ((1 << (mark % 64)) - 1);
        let below: u32 = self.users[..word].iter().map(|w| w.count_ones()).sum();
        u64::from(below + part.count_ones())
    }

    /// The user that has so many users below it.
    fn user_at(&self, mut rank: u64) -> u64 {
        let mut word = 0;
        while u64::from(self.users[word].count_ones()) <= rank {
            rank -= u64::from(self.users[word].count_ones());
            word += 1;
        }
        let mut bits = self.users[word];
        for _ in 0..rank {
            bits &= bits - 1;
        }
        word as u64 * 64 + u64::from(bits.trailing_zeros())
    }

    fn write_shares(&self, level: u64, mark: u64, out: &mut [u64]) {
        for (word, &bits) in self.users.iter().enumerate() {
            let mut left = bits;
            while left > 0 {
                let user = word * 64 + left.trailing_zeros() as usize;
                out[user] = level + u64::from((user as u64) < mark);
                left &= left - 1;
            }
        }
    }

    fn remove(&mut self, user: usize) {
        self.users[user / 64] &= !(1 << (user % 64));
        self.size -= 1;
        self.raised -= 1;
    }
}

/// Group j + 1 starts as member j alone, and so does the heap j + 1.
pub struct Groups {
    groups: Vec<Group>,
    by_key: Heaps,
    by_cap: Heaps,
}

impl Groups {
    pub fn new(caps: &[u64]) -> Groups {
        let mut groups = vec![Group::default(); caps.len() + 1];
        let mut cap_keys = vec![u64::MAX; caps.len() + 1];
        for (j, &cap) in caps.iter().enumerate() {
            if cap > 0 {
                cap_keys[j + 1] = (cap - 1) * 1024 + j as u64 + 1;
                groups[j + 1].users[j / 64] = 1 << (j % 64);
                groups[j + 1].size = 1;
                groups[j + 1].caps = j as u16 + 1;
            }
        }
        let mut keys = vec![0; caps.len() + 1];
        keys[0] = u64::MAX;
        Groups {
            groups,
            by_key: Heaps::new(keys),
            by_cap: Heaps::new(cap_keys),
        }
    }

    /// The heap of a member's own group, empty where its cap is 0.
    pub fn alone(&self, member: usize) -> u16 {
        self.groups[member + 1].caps
    }

    pub fn join(&mut self, a: u16, b: u16) -> u16 {
        self.by_key.meld(a, b)
    }

    /// Gives units to a heap's groups; answers the heap, and the units that are
    /// left when all users are at their caps.
    pub fn pour(&mut self, mut heap: u16, mut units: u64) -> (u16, u64) {
        while units > 0 && heap > 0 {
            let root = usize::from(heap);
            let cap = self.by_cap.key[usize::from(self.groups[root].caps)];
            let next = self.by_key.second(heap);
            units = self.raise(root, cap.min(next), units);
            let key = self.by_key.key[root];
            if key == cap {
                heap = self.leave(heap);
            } else if key == next {
                heap = self.merge(heap);
            }
        }
        (heap, units)
    }

    /// Raises a group to a key, or as far as the units last; answers the units
    /// that are left.
    fn raise(&mut self, root: usize, end: u64, units: u64) -> u64 {
        let (group, key) = (&mut self.groups[root], &mut self.by_key.key[root]);
        let raised = group.rank(end % 1024);
        let cost = group.size * (end / 1024 - *key / 1024) + raised - group.raised;
        if cost <= units {
            group.raised = raised;
            *key = end;
            return units - cost;
        }
        let steps = units + group.raised;
        group.raised = steps % group.size;
        *key = (*key / 1024 + steps / group.size) * 1024 + group.user_at(group.raised);
        0
    }

    /// Takes the user that has reached its cap out of the first group.
    fn leave(&mut self, heap: u16) -> u16 {
        let group = &mut self.groups[usize::from(heap)];
        group.remove(usize::from(group.caps) - 1);
        group.caps = self.by_cap.pop(group.caps);
        if group.size > 0 {
            return heap;
        }
        self.by_key.pop(heap)
    }

    /// Merges the first group into the next one, which has the same key.
    fn merge(&mut self, heap: u16) -> u16 {
        let next = self.by_key.pop(heap);
        let group = self.groups[usize::from(heap)].clone();
        self.groups[usize::from(heap)].size = 0;
        let other = &mut self.groups[usize::from(next)];
        for (words, more) in other.users.iter_mut().zip(group.users) {
            *words |= more;
        }
        other.size += group.size;
        other.raised += group.raised;
        other.caps = self.by_cap.meld(other.caps, group.caps);
        next
    }

    /// Users that are in no group have reached their caps.
    pub fn write_shares(&self, caps: &[u64], out: &mut [u64]) {
        out.copy_from_slice(caps);
        for (group, key) in self.groups.iter().zip(&self.by_key.key) {
            if group.size > 0 {
                group.write_shares(key / 1024, key % 1024, out);
            }
        }
    }
}
