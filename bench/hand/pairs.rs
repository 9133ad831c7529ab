//! Many pairs: Dijkstra's algorithm with a binary heap that stops at the target, and a stamp with each label,
//! so that no array is cleared between two pairs.
use crate::network::{HORIZON, NONE, Network};
use crate::queues::Entry;
use std::cmp::Reverse;
use std::collections::BinaryHeap;
use std::io::Write;

struct Search {
    labels: Vec<(u64, u32)>,
    stamp: u32,
    heap: BinaryHeap<Reverse<Entry>>,
}

impl Search {
    fn new(network: &Network) -> Search {
        Search { labels: vec![(NONE, 0); network.nodes + 1], stamp: 0, heap: BinaryHeap::new() }
    }

    /// The label of a node in the last search.
    fn label(&self, node: u32) -> u64 {
        let (time, stamp) = self.labels[node as usize];
        if stamp == self.stamp { time } else { NONE }
    }

    /// Settles nodes from a source until `done` returns true. Returns the time and node of the last one.
    fn run(&mut self, network: &Network, source: u32, departure: u64, mut done: impl FnMut(u32) -> bool) -> Option<Entry> {
        self.stamp += 1;
        self.heap.clear();
        self.labels[source as usize] = (departure, self.stamp);
        self.heap.push(Reverse((departure, source)));
        let mut last = None;
        while let Some(Reverse((time, node))) = self.heap.pop() {
            if self.labels[node as usize].0 < time {
                continue;
            }
            last = Some((time, node));
            if done(node) {
                return last;
            }
            for arc in network.leaving(node) {
                let arrival = network.arrive(arc, time);
                let label = &mut self.labels[arc.head as usize];
                if arrival <= HORIZON && (label.1 != self.stamp || arrival < label.0) {
                    *label = (arrival, self.stamp);
                    self.heap.push(Reverse((arrival, arc.head)));
                }
            }
        }
        last
    }
}

/// Writes pairs, each from a random node to the last of the `nodes` nodes nearest to it.
pub fn make(network: &Network, out: &str, count: usize, nodes: usize) {
    let mut file = std::io::BufWriter::new(std::fs::File::create(out).expect("a place for pairs"));
    writeln!(file, "p aux sp p2p {count}").unwrap();
    let (mut search, mut word) = (Search::new(network), 1u64);
    for _ in 0..count {
        word = word.wrapping_mul(6364136223846793005).wrapping_add(1442695040888963407);
        let source = 1 + ((word >> 33) % network.nodes as u64) as u32;
        let mut settled = 0;
        let last = search.run(network, source, 0, |_| {
            settled += 1;
            settled == nodes
        });
        writeln!(file, "q {source} {}", last.map_or(source, |it| it.1)).unwrap();
    }
}

/// Writes sources and asked nodes, all of them random ones of the `near` nodes nearest to a random node.
pub fn make_asked(network: &Network, sources: &str, asked: &str, counts: (usize, usize), near: usize) {
    let mut found = Vec::with_capacity(near);
    Search::new(network).run(network, (network.nodes / 2).max(1) as u32, 0, |node| {
        found.push(node);
        found.len() == near
    });
    let mut word = 7u64;
    for (name, count) in [(sources, counts.0), (asked, counts.1)] {
        let mut file = std::io::BufWriter::new(std::fs::File::create(name).expect("a place for nodes"));
        writeln!(file, "p aux sp ss {count}").unwrap();
        for _ in 0..count {
            word = word.wrapping_mul(6364136223846793005).wrapping_add(1442695040888963407);
            writeln!(file, "s {}", found[(word >> 33) as usize % found.len()]).unwrap();
        }
    }
}

/// The arrivals at the asked nodes from each source: each search ends when all of them are settled.
pub fn solve_asked(network: &Network, sources: &[u32], asked: &[u32], departure: u64) -> Vec<Vec<u64>> {
    let mut search = Search::new(network);
    let mut awaited = vec![0u32; network.nodes + 1];
    let mut different = 0;
    for node in asked {
        different += usize::from(awaited[*node as usize] == 0);
        awaited[*node as usize] = 1;
    }
    let mut settled = vec![0u32; network.nodes + 1];
    let mut round = 0;
    let mut arrivals = |source: &u32| {
        let mut left = different;
        round += 1;
        search.run(network, *source, departure, |node| {
            if awaited[node as usize] == 1 && settled[node as usize] != round {
                settled[node as usize] = round;
                left -= 1;
            }
            left == 0
        });
        asked.iter().map(|node| search.label(*node)).collect()
    };
    sources.iter().map(&mut arrivals).collect()
}

/// The arrival of each pair; NONE if the target isn't reached.
pub fn solve(network: &Network, pairs: &[(u32, u32)], departure: u64) -> Vec<u64> {
    let mut search = Search::new(network);
    let mut arrival = |(source, target): &(u32, u32)| match search.run(network, *source, departure, |node| node == *target) {
        Some((time, node)) if node == *target => time,
        _ => NONE,
    };
    pairs.iter().map(&mut arrival).collect()
}
