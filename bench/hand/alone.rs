//! Searches of one thread.
use crate::network::{HORIZON, NONE, Network};
use crate::queues::{Buckets, Entry, Queue};
use std::hint::black_box;
use std::sync::atomic::{AtomicU64, Ordering::Relaxed};

/// Dijkstra's algorithm with stale entries skipped.
pub fn dijkstra<Q: Queue>(network: &Network, source: u32, departure: u64) -> Vec<u64> {
    let mut labels = vec![NONE; network.nodes + 1];
    let mut queue = Q::new();
    labels[source as usize] = departure;
    queue.push((departure, source));
    while let Some((time, node)) = queue.pop() {
        if labels[node as usize] < time {
            continue;
        }
        for arc in network.leaving(node) {
            let arrival = network.arrive(arc, time);
            let label = &mut labels[arc.head as usize];
            if arrival < *label && arrival <= HORIZON {
                *label = arrival;
                queue.push((arrival, arc.head));
            }
        }
    }
    labels
}

/// The storage of labels.
pub trait Labels {
    fn label(&self, node: u32) -> u64;
}

impl Labels for Vec<u64> {
    #[inline(always)]
    fn label(&self, node: u32) -> u64 {
        self[node as usize]
    }
}

impl Labels for Vec<AtomicU64> {
    #[inline(always)]
    fn label(&self, node: u32) -> u64 {
        self[node as usize].load(Relaxed)
    }
}

/// Prefetches what the scans of these entries will read. The loads of a loop don't depend on one another.
#[inline(always)]
pub fn read_ahead<L: Labels>(network: &Network, labels: &L, entries: &[Entry]) {
    let mut seen = 0;
    for entry in entries {
        seen ^= labels.label(entry.1) ^ u64::from(network.range(entry.1).0);
    }
    for entry in entries {
        seen ^= network.leaving(entry.1).first().map_or(0, |arc| u64::from(arc.head));
    }
    for entry in entries {
        for arc in network.leaving(entry.1) {
            seen ^= labels.label(arc.head);
        }
    }
    black_box(seen);
}

/// A label-correcting search over windows of times: 16 entries of the window are scanned together, in no
/// order.
pub fn buckets(network: &Network, source: u32, departure: u64, bits: u32) -> Vec<u64> {
    let mut labels = vec![NONE; network.nodes + 1];
    let mut queue = Buckets::new(bits);
    let mut hand: Vec<Entry> = Vec::with_capacity(16);
    labels[source as usize] = departure;
    queue.push((departure, source));
    loop {
        hand.clear();
        queue.take(16, &mut hand);
        if hand.is_empty() {
            return labels;
        }
        hand.retain(|entry| entry.0 <= labels[entry.1 as usize]);
        read_ahead(network, &labels, &hand);
        for (time, node) in &hand {
            if labels[*node as usize] < *time {
                continue;
            }
            for arc in network.leaving(*node) {
                let arrival = network.arrive(arc, *time);
                let label = &mut labels[arc.head as usize];
                if arrival < *label && arrival <= HORIZON {
                    *label = arrival;
                    queue.push((arrival, arc.head));
                }
            }
        }
    }
}
