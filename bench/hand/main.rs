//! Earliest arrivals in plain Rust, timed against the proved program on the same files and with the same
//! reports:
//!
//!   hand run METHOD GR SS TP DEPART THREADS OUT      METHOD: heap radix buckets multiqueue multiqueue_of_buckets
//!   hand several METHOD GR SS TP DEPART THREADS OUT  THREADS sources at once, each by one thread
//!   hand pairs GR P2P TP DEPART OUT
//!   hand check GR SS TP DEPART REPORT                searches again and compares
//!   hand walks GR TP NODE ROUNDS                     canonical walks from a node, in turns with a heap without walks
//!   hand make_pairs GR OUT COUNT NODES
//!   hand asked GR SS TP NODES DEPART OUT             the arrivals at the nodes of a file, from each source
//!   hand make_asked GR SS NODES SOURCES ASKED NEAR   sources and asked nodes among the NEAR nodes nearest to one
//!   hand scatter GR SS OUT_GR OUT_SS                 the same network and sources, with nodes numbered at random
//!
//! TP is `-` for none. All but walks, scatter and those that make files print the microseconds of reading, of the index, of all
//! searches, of the fastest search of `run` and of writing, and the sum of the arrivals. One file: `rustc -O
//! main.rs`.
mod alone;
mod multiqueue;
mod network;
mod pairs;
mod queues;
mod report;
mod scatter;
mod walks;

use alone::{buckets, dijkstra};
use multiqueue::{Settings, search};
use network::{NONE, Network, numbers_of, pairs_of, sources_of};
use queues::{Buckets, Entry, RadixHeap};
use std::cmp::Reverse;
use std::collections::BinaryHeap;
use std::fs::File;
use std::io::Write;
use std::sync::atomic::{AtomicUsize, Ordering::SeqCst};
use std::sync::{Condvar, Mutex};
use std::time::Instant;

type Heap = BinaryHeap<Reverse<Entry>>;

fn solve(method: &str, network: &Network, source: u32, departure: u64, workers: usize) -> Vec<u64> {
    let bits = network.window_bits();
    match method {
        "heap" => dijkstra::<Heap>(network, source, departure),
        "radix" => dijkstra::<RadixHeap>(network, source, departure),
        "buckets" => buckets(network, source, departure, bits),
        "multiqueue" => search::<Heap>(network, source, departure, Settings { workers, heaps: 2, batch: 1, steal: 0, bits }),
        "multiqueue_of_buckets" => search::<Buckets>(network, source, departure, Settings { workers, heaps: 2, batch: 32, steal: 8, bits }),
        _ => panic!("no such method"),
    }
}

fn sum(times: &[u64]) -> u64 {
    times.iter().filter(|time| **time != NONE).fold(0, |sum, time| sum.wrapping_add(*time))
}

/// The times of the parts of a run, in microseconds, and the sum of the arrivals.
#[derive(Default)]
struct Took {
    read: u128,
    index: u128,
    solve: u128,
    least: u128,
    write: u128,
    sum: u64,
}

impl Took {
    fn print(&self) {
        let Took { read, index, solve, least, write, sum } = self;
        println!("read_us {read} index_us {index} solve_us {solve} least_us {least} write_us {write} sum {sum}");
    }

    fn searched(&mut self, micros: u128) {
        self.least = if self.solve == 0 { micros } else { self.least.min(micros) };
        self.solve += micros;
    }
}

fn run(method: &str, network: &Network, sources: &[u32], departure: u64, workers: usize, out: &str, took: &mut Took) {
    let mut file = File::create(out).expect("a place for the report");
    for source in sources {
        let begun = Instant::now();
        let labels = solve(method, network, *source, departure, workers);
        took.searched(begun.elapsed().as_micros());
        took.sum = took.sum.wrapping_add(sum(&labels));
        let begun = Instant::now();
        report::of_problem(*source, departure, &labels, |text| file.write_all(text).expect("room for the report"));
        took.write += begun.elapsed().as_micros();
    }
}

/// Several sources at once: each thread takes the next one, and waits with its text until those before it are
/// written.
fn several(method: &str, network: &Network, sources: &[u32], departure: u64, threads: usize, out: &str, took: &mut Took) {
    let begun = Instant::now();
    let file = Mutex::new((File::create(out).expect("a place for the report"), 0, 0u64));
    let (turn, taken) = (Condvar::new(), AtomicUsize::new(0));
    let work = || loop {
        let at = taken.fetch_add(1, SeqCst);
        let Some(source) = sources.get(at) else { return };
        let labels = solve(method, network, *source, departure, 1);
        let mut text = Vec::with_capacity(20 * labels.len());
        report::of_problem(*source, departure, &labels, |part| text.extend_from_slice(part));
        let mut held = turn.wait_while(file.lock().unwrap(), |held| held.1 != at).unwrap();
        held.0.write_all(&text).expect("room for the report");
        held.1 += 1;
        held.2 = held.2.wrapping_add(sum(&labels));
        turn.notify_all();
    };
    std::thread::scope(|scope| {
        (1..threads).for_each(|_| drop(scope.spawn(work)));
        work();
    });
    took.sum = file.into_inner().unwrap().2;
    took.solve = begun.elapsed().as_micros();
}

fn all_pairs(network: &Network, file: &str, departure: u64, out: &str, took: &mut Took) {
    let pairs = pairs_of(file);
    let begun = Instant::now();
    let times = pairs::solve(network, &pairs, departure);
    took.solve = begun.elapsed().as_micros();
    let begun = Instant::now();
    let mut text = Vec::new();
    pairs.iter().zip(&times).for_each(|(pair, time)| report::of_pair(&mut text, *pair, departure, *time));
    std::fs::write(out, text).expect("room for the report");
    took.write = begun.elapsed().as_micros();
    took.sum = sum(&times);
}

fn all_asked(network: &Network, sources: &[u32], file: &str, departure: u64, out: &str, took: &mut Took) {
    let asked = sources_of(file);
    let begun = Instant::now();
    let found = pairs::solve_asked(network, sources, &asked, departure);
    took.solve = begun.elapsed().as_micros();
    let begun = Instant::now();
    let mut text = Vec::new();
    for (source, times) in sources.iter().zip(&found) {
        report::of_asked(&mut text, *source, departure, &asked, times);
        took.sum = took.sum.wrapping_add(sum(times));
    }
    std::fs::write(out, text).expect("room for the report");
    took.write = begun.elapsed().as_micros();
}

/// Compares a report with a new one.
fn check(network: &Network, sources: &[u32], departure: u64, file: &str, took: &mut Took) {
    let given = std::fs::read(file).expect("a report");
    let begun = Instant::now();
    let mut at = 0;
    for source in sources {
        let labels = solve("heap", network, *source, departure, 1);
        took.sum = took.sum.wrapping_add(sum(&labels));
        report::of_problem(*source, departure, &labels, |text| {
            assert!(given[at..].starts_with(text), "the report is wrong");
            at += text.len();
        });
    }
    assert!(at == given.len(), "the report is too long");
    took.solve = begun.elapsed().as_micros();
}

fn main() {
    let words: Vec<String> = std::env::args().skip(1).collect();
    let word = |at: usize| words.get(at).map_or("", |word| word.as_str());
    let number = |at: usize| word(at).parse::<u64>().expect("a number");
    let command = word(0);
    if command == "make_pairs" {
        return pairs::make(&Network::read(word(1), "-").0, word(2), number(3) as usize, number(4) as usize);
    }
    if command == "make_asked" {
        let counts = (number(4) as usize, number(5) as usize);
        return pairs::make_asked(&Network::read(word(1), "-").0, word(2), word(3), counts, number(6) as usize);
    }
    if command == "scatter" {
        return scatter::write(word(1), word(2), word(3), word(4));
    }
    if command == "walks" {
        return walks::compare(&Network::read(word(1), word(2)).0, numbers_of(word(1)), number(3) as u32, number(4) as usize);
    }
    let at = if ["pairs", "check", "asked"].contains(&command) { 1 } else { 2 };
    let (network, read, index) = Network::read(word(at), word(at + 2));
    let mut took = Took { read, index, ..Took::default() };
    match command {
        "run" => run(word(1), &network, &sources_of(word(3)), number(5), number(6) as usize, word(7), &mut took),
        "several" => several(word(1), &network, &sources_of(word(3)), number(5), number(6) as usize, word(7), &mut took),
        "pairs" => all_pairs(&network, word(2), number(4), word(5), &mut took),
        "asked" => all_asked(&network, &sources_of(word(2)), word(4), number(5), word(6), &mut took),
        "check" => check(&network, &sources_of(word(2)), number(4), word(5), &mut took),
        _ => panic!("see the head of main.rs"),
    }
    took.print();
}
