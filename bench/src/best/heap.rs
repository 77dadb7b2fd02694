//! Skew heaps over the numbers 1 to n, any two of which can be melded. The
//! least key stands at the root; 0 is the empty heap.

pub struct Heaps {
    pub key: Vec<u64>,
    left: Vec<u16>,
    right: Vec<u16>,
}

impl Heaps {
    /// A heap of one for each key; the key at place 0 belongs to the empty heap.
    pub fn new(key: Vec<u64>) -> Heaps {
        Heaps {
            left: vec![0; key.len()],
            right: vec![0; key.len()],
            key,
        }
    }

    pub fn meld(&mut self, mut a: u16, mut b: u16) -> u16 {
        if a == 0 || b == 0 {
            return a + b;
        }
        if self.key[usize::from(b)] < self.key[usize::from(a)] {
            (a, b) = (b, a);
        }
        let root = usize::from(a);
        let right = self.meld(self.right[root], b);
        self.right[root] = self.left[root];
        self.left[root] = right;
        a
    }

    /// The heap without its root.
    pub fn pop(&mut self, root: u16) -> u16 {
        let root = usize::from(root);
        self.meld(self.left[root], self.right[root])
    }

    /// The least key below the root.
    pub fn second(&self, root: u16) -> u64 {
        let (left, right) = (self.left[usize::from(root)], self.right[usize::from(root)]);
        self.key[usize::from(left)].min(self.key[usize::from(right)])
    }
}
