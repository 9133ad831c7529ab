//! A MultiQueue (Rihani, Sanders, Dementiev, SPAA 2015) with std's atomics. Heaps are 128 bytes apart, each
//! behind a word with its least time. A pop takes from the one of two whose word is less, and doesn't wait
//! for a heap that another worker has.
use crate::alone::read_ahead;
use crate::network::{HORIZON, NONE, Network};
use crate::queues::{Buckets, Entry};
use std::cell::UnsafeCell;
use std::cmp::Reverse;
use std::collections::BinaryHeap;
use std::sync::atomic::{AtomicU64, Ordering::Acquire, Ordering::Relaxed, Ordering::Release, Ordering::SeqCst};

const EMPTY: u64 = 1 << 48;
const OUT: u64 = EMPTY + 1;

/// This many fresh entries are pushed even while a node with many arcs is scanned.
const MOST_FRESH: usize = 64;

/// The settings of workers.
#[derive(Clone, Copy)]
pub struct Settings {
    pub workers: usize,
    /// For each worker.
    pub heaps: usize,
    /// The size of batches.
    pub batch: usize,
    /// One turn in this many inspects others' heaps, and a worker pushes to its own; 0: all heaps are alike.
    pub steal: u64,
    /// The number of low bits of a window's times, if heaps are buckets.
    pub bits: u32,
}

/// A heap of the pool.
pub trait Heap: Send {
    fn new(bits: u32) -> Self;
    fn push(&mut self, entry: Entry);
    fn take(&mut self, most: usize, out: &mut Vec<Entry>);
    fn least(&mut self) -> Option<u64>;
}

impl Heap for BinaryHeap<Reverse<Entry>> {
    fn new(_: u32) -> Self {
        BinaryHeap::new()
    }

    fn push(&mut self, entry: Entry) {
        BinaryHeap::push(self, Reverse(entry));
    }

    fn take(&mut self, most: usize, out: &mut Vec<Entry>) {
        out.extend((0..most).map_while(|_| self.pop()).map(|least| least.0));
    }

    fn least(&mut self) -> Option<u64> {
        self.peek().map(|least| least.0.0)
    }
}

impl Heap for Buckets {
    fn new(bits: u32) -> Self {
        Buckets::new(bits)
    }

    fn push(&mut self, entry: Entry) {
        Buckets::push(self, entry);
    }

    fn take(&mut self, most: usize, out: &mut Vec<Entry>) {
        Buckets::take(self, most, out);
    }

    fn least(&mut self) -> Option<u64> {
        Buckets::least(self)
    }
}

#[repr(align(128))]
struct Word(AtomicU64);

#[repr(align(128))]
struct Slot<H>(UnsafeCell<H>);

struct Pool<H> {
    words: Vec<Word>,
    slots: Vec<Slot<H>>,
}

/// A slot is used only by the worker that put OUT into its word.
unsafe impl<H: Send> Sync for Pool<H> {}

impl<H: Heap> Pool<H> {
    fn open(heaps: usize, bits: u32) -> Pool<H> {
        Pool {
            words: (0..heaps).map(|_| Word(AtomicU64::new(EMPTY))).collect(),
            slots: (0..heaps).map(|_| Slot(UnsafeCell::new(H::new(bits)))).collect(),
        }
    }

    fn seen(&self, heap: usize) -> u64 {
        self.words[heap].0.load(Relaxed)
    }

    /// The result of using a heap; None if its word isn't the one seen.
    fn with<T>(&self, heap: usize, seen: u64, used: impl FnOnce(&mut H) -> T) -> Option<T> {
        if seen == OUT || self.words[heap].0.compare_exchange(seen, OUT, Acquire, Relaxed).is_err() {
            return None;
        }
        let content = unsafe { &mut *self.slots[heap].0.get() };
        let got = used(content);
        self.words[heap].0.store(content.least().unwrap_or(EMPTY), Release);
        Some(got)
    }

    /// Pushes all entries to a heap, or to the next one at home.
    fn push(&self, mut heap: usize, entries: &mut Vec<Entry>) {
        while self.with(heap, self.seen(heap), |content| entries.drain(..).for_each(|entry| content.push(entry))).is_none() {
            heap = (heap + 1) % self.words.len();
        }
    }

    /// Pops a batch of the one of two heaps with the lesser word. Returns whether there was an entry.
    fn pop(&self, first: usize, second: usize, most: usize, out: &mut Vec<Entry>) -> bool {
        let (x, y) = (self.seen(first), self.seen(second));
        let (heap, seen) = if y < x { (second, y) } else { (first, x) };
        seen < EMPTY && self.with(heap, seen, |content| content.take(most, out)).is_some()
    }
}

fn next(word: &mut u64) -> u64 {
    *word ^= *word << 13;
    *word ^= *word >> 7;
    *word ^= *word << 17;
    *word >> 8
}

/// The worker's part of a run.
struct Worker<'a, H> {
    network: &'a Network,
    labels: &'a Vec<AtomicU64>,
    pool: &'a Pool<H>,
    idlers: &'a AtomicU64,
    settings: Settings,
    me: usize,
    word: u64,
    turns: u64,
}

impl<H: Heap> Worker<'_, H> {
    fn own(&mut self) -> usize {
        self.me * self.settings.heaps + next(&mut self.word) as usize % self.settings.heaps
    }

    /// The heaps that a pop inspects.
    fn draws(&mut self, idle: u32) -> (usize, usize) {
        let (all, heaps) = (self.pool.words.len(), self.settings.heaps);
        let is_home = self.settings.steal > 0;
        let first = if is_home { self.own() } else { next(&mut self.word) as usize % all };
        if is_home && heaps > 1 && idle == 0 && self.turns % self.settings.steal != 0 {
            let base = self.me * heaps;
            return (first, base + (first - base + 1) % heaps);
        }
        (first, (first + 1 + next(&mut self.word) as usize % (all - 1)) % all)
    }

    fn send(&mut self, fresh: &mut Vec<Entry>) {
        if !fresh.is_empty() {
            let heap = if self.settings.steal > 0 { self.own() } else { next(&mut self.word) as usize % self.pool.words.len() };
            self.pool.push(heap, fresh);
        }
    }

    fn scan(&mut self, (time, node): Entry, fresh: &mut Vec<Entry>) {
        if self.labels[node as usize].load(Relaxed) < time {
            return;
        }
        for arc in self.network.leaving(node) {
            let arrival = self.network.arrive(arc, time);
            let label = &self.labels[arc.head as usize];
            if arrival <= HORIZON && arrival < label.load(Relaxed) && arrival < label.fetch_min(arrival, Relaxed) {
                fresh.push((arrival, arc.head));
                if fresh.len() >= MOST_FRESH {
                    self.send(fresh);
                }
            }
        }
        if fresh.len() >= self.settings.batch {
            self.send(fresh);
        }
    }

    /// Works until all workers find nothing, after some tries of each.
    fn work(&mut self) {
        let (mut taken, mut fresh) = (Vec::with_capacity(64), Vec::with_capacity(128));
        let (mut idle, patience) = (0, 2 * self.pool.words.len() as u32);
        loop {
            self.turns += 1;
            let (first, second) = self.draws(idle);
            if !self.pool.pop(first, second, self.settings.batch, &mut taken) {
                idle += 1;
                if idle == patience {
                    self.idlers.fetch_add(1, SeqCst);
                }
                if idle >= patience && self.idlers.load(SeqCst) == self.settings.workers as u64 {
                    return;
                }
                (0..1u32 << idle.min(6)).for_each(|_| std::hint::spin_loop());
                continue;
            }
            if idle >= patience {
                self.idlers.fetch_sub(1, SeqCst);
            }
            idle = 0;
            if taken.len() > 1 {
                read_ahead(self.network, self.labels, &taken);
            }
            for entry in taken.drain(..) {
                self.scan(entry, &mut fresh);
            }
            self.send(&mut fresh);
        }
    }
}

/// Searches, by one thread, what the workers left.
fn finish(network: &Network, labels: &mut [u64], mut open: BinaryHeap<Reverse<Entry>>) {
    while let Some(Reverse((time, node))) = open.pop() {
        if labels[node as usize] < time {
            continue;
        }
        for arc in network.leaving(node) {
            let arrival = network.arrive(arc, time);
            if arrival <= HORIZON && arrival < labels[arc.head as usize] {
                labels[arc.head as usize] = arrival;
                open.push(Reverse((arrival, arc.head)));
            }
        }
    }
}

pub fn search<H: Heap>(network: &Network, source: u32, departure: u64, settings: Settings) -> Vec<u64> {
    let labels: Vec<AtomicU64> = (0..network.nodes + 1).map(|_| AtomicU64::new(NONE)).collect();
    let pool: Pool<H> = Pool::open((settings.workers * settings.heaps).max(2), settings.bits);
    let idlers = AtomicU64::new(0);
    labels[source as usize].store(departure, SeqCst);
    pool.push(0, &mut vec![(departure, source)]);
    std::thread::scope(|scope| {
        let worker = |me: usize| Worker {
            network,
            labels: &labels,
            pool: &pool,
            idlers: &idlers,
            settings,
            me,
            word: 0x9E37_79B9_7F4A_7C15 ^ (me as u64 + 1),
            turns: 0,
        };
        for me in 1..settings.workers {
            let mut worker = worker(me);
            scope.spawn(move || worker.work());
        }
        worker(0).work();
    });
    let mut labels: Vec<u64> = labels.into_iter().map(AtomicU64::into_inner).collect();
    let mut open = Vec::new();
    for slot in pool.slots {
        let mut content = slot.0.into_inner();
        while content.least().is_some() {
            content.take(64, &mut open);
        }
    }
    finish(network, &mut labels, open.into_iter().map(Reverse).collect());
    labels
}
