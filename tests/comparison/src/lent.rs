//! Lists lent to an entry, with canaries on both sides.

use std::sync::atomic::{AtomicUsize, Ordering};

/// Canaries on each side of a list. With none, a memory checker sees every
/// access outside it.
pub static MARGIN: AtomicUsize = AtomicUsize::new(9);

pub trait Entry: Copy + PartialEq {
    const CANARY: Self;
}

impl Entry for u8 {
    const CANARY: u8 = 0xA5;
}

impl Entry for u16 {
    const CANARY: u16 = 0xC35A;
}

impl Entry for u32 {
    const CANARY: u32 = 0xA5C3_5AF1;
}

impl Entry for u64 {
    const CANARY: u64 = 0xA5C3_5AF1_69B4_D287;
}

impl Entry for i64 {
    const CANARY: i64 = 0x5AC3_A5F1_69B4_D287;
}

pub struct Lent<T> {
    buffer: Vec<T>,
    start: usize,
    end: usize,
}

impl<T: Entry> Lent<T> {
    pub fn new(list: &[T]) -> Lent<T> {
        let start = MARGIN.load(Ordering::Relaxed);
        let end = start + list.len();
        let mut buffer = vec![T::CANARY; end + start];
        buffer[start..end].copy_from_slice(list);
        Lent { buffer, start, end }
    }

    pub fn list(&self) -> &[T] {
        &self.buffer[self.start..self.end]
    }

    pub fn list_mut(&mut self) -> &mut [T] {
        &mut self.buffer[self.start..self.end]
    }

    /// Whether the list holds the expected entries and no canary has changed.
    pub fn holds(&self, expected: &[T]) -> bool {
        let (before, after) = (&self.buffer[..self.start], &self.buffer[self.end..]);
        let mut canaries = before.iter().chain(after);
        self.list() == expected && canaries.all(|&entry| entry == T::CANARY)
    }
}
