//! Queues of entries (time, node): a binary heap, a radix heap, and buckets.
use std::cmp::Reverse;
use std::collections::BinaryHeap;

pub type Entry = (u64, u32);

/// A queue that pops entries in the order of times, if none is pushed below the last popped one.
pub trait Queue {
    fn new() -> Self;
    fn push(&mut self, entry: Entry);
    fn pop(&mut self) -> Option<Entry>;
}

impl Queue for BinaryHeap<Reverse<Entry>> {
    fn new() -> Self {
        BinaryHeap::new()
    }

    #[inline(always)]
    fn push(&mut self, entry: Entry) {
        BinaryHeap::push(self, Reverse(entry));
    }

    #[inline(always)]
    fn pop(&mut self) -> Option<Entry> {
        BinaryHeap::pop(self).map(|least| least.0)
    }
}

/// Entries by the highest bit in which their window differs from the current one, whose entries are the
/// unordered list 0. A window is the times that agree except for this many low bits; with 0 it is the radix
/// heap of Ahuja, Mehlhorn, Orlin and Tarjan (Journal of the ACM 37, 1990).
pub struct Buckets {
    lists: Vec<Vec<Entry>>,
    window: u64,
    bits: u32,
    len: usize,
}

impl Buckets {
    pub fn new(bits: u32) -> Buckets {
        Buckets { lists: vec![Vec::new(); 65], window: 0, bits, len: 0 }
    }

    /// The list of a window; an earlier window counts as the current one.
    #[inline(always)]
    fn place(&self, time: u64) -> usize {
        let window = time >> self.bits;
        if window <= self.window { 0 } else { 64 - (window ^ self.window).leading_zeros() as usize }
    }

    #[inline(always)]
    pub fn push(&mut self, entry: Entry) {
        let place = self.place(entry.0);
        self.lists[place].push(entry);
        self.len += 1;
    }

    /// If the window is empty, moves to the next one with entries.
    #[inline(always)]
    fn settle(&mut self) {
        if self.len > 0 && self.lists[0].is_empty() {
            self.spread();
        }
    }

    fn spread(&mut self) {
        let next = (1..65).find(|list| !self.lists[*list].is_empty()).expect("a list with entries");
        let mut from = std::mem::take(&mut self.lists[next]);
        self.window = from.iter().map(|entry| entry.0 >> self.bits).min().expect("an entry");
        for entry in &from {
            let place = self.place(entry.0);
            self.lists[place].push(*entry);
        }
        from.clear();
        self.lists[next] = from;
    }

    /// The first time of the window; None if nothing is left.
    #[inline(always)]
    pub fn least(&mut self) -> Option<u64> {
        self.settle();
        (self.len > 0).then_some(self.window << self.bits)
    }

    /// Pops at most `most` entries of the window.
    #[inline(always)]
    pub fn take(&mut self, most: usize, out: &mut Vec<Entry>) {
        self.settle();
        let list = &mut self.lists[0];
        let from = list.len() - list.len().min(most);
        self.len -= list.len() - from;
        out.extend_from_slice(&list[from..]);
        list.truncate(from);
    }
}

pub struct RadixHeap(Buckets);

impl Queue for RadixHeap {
    fn new() -> Self {
        RadixHeap(Buckets::new(0))
    }

    #[inline(always)]
    fn push(&mut self, entry: Entry) {
        self.0.push(entry);
    }

    #[inline(always)]
    fn pop(&mut self) -> Option<Entry> {
        self.0.settle();
        let least = self.0.lists[0].pop();
        self.0.len -= usize::from(least.is_some());
        least
    }
}
