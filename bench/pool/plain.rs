//! The same protocol in plain Rust: words and heaps 128 bytes apart, with std's atomics.
use std::cell::UnsafeCell;
use std::cmp::Reverse;
use std::collections::BinaryHeap;
use std::sync::atomic::{AtomicU64, Ordering};
use std::time::Instant;

const EMPTY: u64 = 1 << 48;
const OUT: u64 = EMPTY + 1;
const PAIRS: u64 = 1_000_000;
const FILL: u64 = 1_000;
const ROUNDS: u32 = 7;

#[derive(Clone, Copy, PartialEq, Eq, PartialOrd, Ord)]
struct Entry {
    key: u64,
    node: u32,
}

#[repr(align(128))]
struct Word(AtomicU64);

#[repr(align(128))]
struct Slot(UnsafeCell<BinaryHeap<Reverse<Entry>>>);

struct Pool {
    words: Vec<Word>,
    slots: Vec<Slot>,
    put: Ordering,
}

unsafe impl Sync for Pool {}

impl Pool {
    fn open(heaps: usize, put: Ordering) -> Pool {
        Pool {
            words: (0..heaps).map(|_| Word(AtomicU64::new(EMPTY))).collect(),
            slots: (0..heaps).map(|_| Slot(UnsafeCell::new(BinaryHeap::new()))).collect(),
            put,
        }
    }

    fn take(&self, heap: usize, seen: u64) -> bool {
        self.words[heap]
            .0
            .compare_exchange(seen, OUT, Ordering::SeqCst, Ordering::SeqCst)
            .is_ok()
    }

    fn give(&self, heap: usize, content: &BinaryHeap<Reverse<Entry>>) {
        let word = content.peek().map_or(EMPTY, |least| least.0.key);
        self.words[heap].0.store(word, self.put);
    }

    fn push(&self, word: u64, entry: Entry) -> Result<(), Entry> {
        let heaps = self.words.len();
        let first = (word % heaps as u64) as usize;
        for attempt in 0..2 * heaps {
            let heap = (first + attempt) % heaps;
            let seen = self.words[heap].0.load(Ordering::SeqCst);
            if seen == OUT || !self.take(heap, seen) {
                continue;
            }
            let content = unsafe { &mut *self.slots[heap].0.get() };
            if content.try_reserve(1).is_err() {
                self.give(heap, content);
                return Err(entry);
            }
            content.push(Reverse(entry));
            self.give(heap, content);
            return Ok(());
        }
        Err(entry)
    }

    // None if both are empty or one is out
    fn pop(&self, first: u64, second: u64) -> Option<Entry> {
        let heaps = self.words.len() as u64;
        let i = (first % heaps) as usize;
        let j = ((first % heaps + 1 + second % (heaps - 1)) % heaps) as usize;
        let x = self.words[i].0.load(Ordering::SeqCst);
        let y = self.words[j].0.load(Ordering::SeqCst);
        if x == OUT || y == OUT || (x == EMPTY && y == EMPTY) {
            return None;
        }
        let (heap, seen) = if y < x || (y == x && j < i) { (j, y) } else { (i, x) };
        if !self.take(heap, seen) {
            return None;
        }
        let content = unsafe { &mut *self.slots[heap].0.get() };
        let least = content.pop();
        self.give(heap, content);
        least.map(|least| least.0)
    }
}

fn next(word: u64) -> u64 {
    let word = word ^ (word << 13);
    let word = word ^ (word >> 7);
    word ^ (word << 17)
}

fn pairs(pool: &Pool, seed: u64) -> u64 {
    let (mut word, mut last, mut popped) = (seed, 0, 0);
    for _ in 0..PAIRS {
        word = next(word);
        let key = last % 1_099_511_627_776 + word % 1_000;
        let _ = pool.push(word >> 20, Entry { key, node: 1 });
        word = next(word);
        if let Some(least) = pool.pop(word >> 8, word >> 32) {
            last = least.key;
            popped += 1;
        }
    }
    popped
}

fn round(threads: usize, put: Ordering) -> u64 {
    let pool = Pool::open(2 * threads, put);
    let mut word = 42;
    for place in 0..2 * threads as u64 * FILL {
        word = next(word);
        let _ = pool.push(place, Entry { key: word % 1_000_000, node: 1 });
    }
    std::thread::scope(|scope| {
        let started: Vec<_> = (1..threads as u64)
            .map(|more| {
                let pool = &pool;
                scope.spawn(move || pairs(pool, 1 + more))
            })
            .collect();
        pairs(&pool, 1) + started.into_iter().map(|it| it.join().unwrap()).sum::<u64>()
    })
}

fn main() {
    let put = if std::env::args().nth(1).as_deref() == Some("release") { Ordering::Release } else { Ordering::SeqCst };
    for threads in [1, 2, 4] {
        for _ in 0..ROUNDS {
            let start = Instant::now();
            let popped = round(threads, put);
            println!("{threads} {} {popped}", start.elapsed().as_nanos());
        }
    }
}
