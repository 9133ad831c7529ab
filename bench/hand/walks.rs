//! Canonical walks: a search over windows of times logs the arcs by which labels fell, and the log is
//! replayed afterwards.
use crate::alone::dijkstra;
use crate::network::{HORIZON, NONE, Network};
use crate::queues::{Buckets, Entry};
use std::cmp::Reverse;
use std::collections::{BinaryHeap, VecDeque};
use std::hint::black_box;
use std::time::Instant;

const NO_LEVEL: u32 = u32::MAX;

/// The most entries taken from the window at once, and the most arcs of them.
const AHEAD: usize = 16;
const ROOM: usize = 128;

/// The arc by which a node's label fell or was met: its tail, its place among those that leave the tail,
/// times two, plus 1 if the label was met.
#[derive(Clone, Copy, Default)]
struct Note {
    node: u32,
    from: u32,
    code: u32,
}

/// Notes, in a list that is filled some thousands ahead, so that the next push hits the cache.
#[derive(Default)]
struct Notes {
    list: Vec<Note>,
    count: usize,
}

impl Notes {
    #[inline(always)]
    fn push(&mut self, note: Note) {
        if self.count == self.list.len() {
            self.list.resize(self.count + 4096, Note::default());
        }
        self.list[self.count] = note;
        self.count += 1;
    }
}

/// Prefetches what the scans of these entries will read: the offsets of their arcs, and the first arc.
fn read_ahead(network: &Network, labels: &[u64], hand: &mut Vec<Entry>) {
    let mut seen = 0;
    for entry in hand.iter() {
        seen ^= labels[entry.1 as usize] ^ u64::from(network.range(entry.1).0);
    }
    hand.retain(|entry| labels[entry.1 as usize] == entry.0);
    for entry in hand {
        seen ^= network.leaving(entry.1).first().map_or(0, |arc| u64::from(arc.head));
    }
    black_box(seen);
}

/// The labels. The arcs of all entries of a hand are relaxed before any label changes.
fn search(network: &Network, source: u32, notes: &mut Option<Notes>) -> Vec<u64> {
    let mut labels = vec![NONE; network.nodes + 1];
    let mut queue = Buckets::new(network.window_bits() + 1);
    let (mut hand, mut list) = (Vec::with_capacity(AHEAD), [(0u64, Note::default()); ROOM]);
    labels[source as usize] = 0;
    queue.push((0, source));
    loop {
        hand.clear();
        queue.take(AHEAD, &mut hand);
        if hand.is_empty() {
            return labels;
        }
        read_ahead(network, &labels, &mut hand);
        let mut count = 0;
        for (time, node) in &hand {
            let arcs = network.leaving(*node);
            assert!(arcs.len() <= ROOM - count, "more arcs than this trial has room for");
            for (place, arc) in arcs.iter().enumerate() {
                let last = labels[arc.head as usize].min(HORIZON);
                if arc.class > 0 && last < *time {
                    continue;
                }
                let arrival = network.arrive(arc, *time);
                list[count % ROOM] = (arrival, Note { node: arc.head, from: *node, code: 2 * place as u32 });
                count += usize::from(arrival <= last);
            }
        }
        for (time, note) in &list[..count] {
            let label = &mut labels[note.node as usize];
            let again = *time == *label;
            if *time < *label {
                *label = *time;
                queue.push((*time, note.node));
            }
            if let Some(notes) = notes && (again || *time == labels[note.node as usize]) {
                notes.push(Note { code: note.code + u32::from(again), ..*note });
            }
        }
    }
}

/// How a node's walk ends: its number of arcs, its last arc (its number, or its place among those that leave
/// the tail), and that arc's tail.
#[derive(Clone, Copy, PartialEq)]
struct Link {
    level: u32,
    arc: u32,
    from: u32,
}

const NO_LINK: Link = Link { level: NO_LEVEL, arc: 0, from: 0 };
const SEED: Link = Link { level: 0, arc: 0, from: 0 };

/// A network with the numbers of its arcs in the order of tails, and the start of a search.
struct Roads<'a> {
    network: &'a Network,
    numbers: Vec<u32>,
    source: u32,
}

/// Lists for the replay: nodes with several arcs at their labels, each with the tail of such an arc; nodes
/// whose level changed, so that their heads may lie too low or too high; nodes that offer links by all their
/// arcs once more; and how many looks at ties were spent.
#[derive(Default)]
struct Listed {
    ties: Vec<(u32, u32)>,
    changed: Vec<u32>,
    waiting: VecDeque<u32>,
    looks: usize,
}

impl Roads<'_> {
    /// The number of the arc at a place among those that leave a node.
    fn number(&self, from: u32, place: u32) -> u32 {
        self.numbers[(self.network.range(from).0 + place) as usize]
    }

    fn no_links(&self) -> Vec<Link> {
        let mut links = vec![NO_LINK; self.network.nodes + 1];
        links[self.source as usize] = SEED;
        links
    }

    /// The links; None if some level stays too low or too many looks are spent: then all would be found anew.
    fn follow(&self, labels: &[u64], notes: &[Note]) -> Option<Vec<Link>> {
        let mut links = self.no_links();
        let mut listed = Listed::default();
        for note in notes {
            let new = Link { level: links[note.from as usize].level.saturating_add(1), arc: note.code / 2, from: note.from };
            if note.code % 2 == 0 {
                links[note.node as usize] = new;
            } else {
                listed.meet(self, &mut links, note.node, new);
                if !listed.pass_on(self.network, &mut links) {
                    return None;
                }
            }
        }
        for node in 1..links.len() {
            let link = links[node];
            if link.level != NO_LEVEL && link.from > 0 {
                if links[link.from as usize].level >= link.level {
                    return None;
                }
                links[node].arc = self.number(link.from, link.arc);
            }
        }
        self.mend(labels, &mut links, listed.waiting);
        Some(links)
    }

    /// Offers links by the tight arcs from the nodes that wait.
    fn mend(&self, labels: &[u64], links: &mut [Link], mut waiting: VecDeque<u32>) {
        while let Some(node) = waiting.pop_front() {
            for (place, arc) in self.network.leaving(node).iter().enumerate() {
                let old = links[arc.head as usize];
                let new = Link { level: links[node as usize].level + 1, arc: self.number(node, place as u32), from: node };
                let is_tight = self.network.arrive(arc, labels[node as usize]) == labels[arc.head as usize];
                if is_tight && (new.level, new.arc) < (old.level, old.arc) {
                    links[arc.head as usize] = new;
                    if new.level < old.level {
                        waiting.push_back(arc.head);
                    }
                }
            }
        }
    }

    /// The canonical links by their definition: the fewest tight arcs, then the lowest number.
    fn canonical(&self, labels: &[u64]) -> Vec<Link> {
        let mut links = self.no_links();
        self.mend(labels, &mut links, VecDeque::from([self.source]));
        links
    }
}

impl Listed {
    /// A node takes a link by its arc with another level. If the level rose, another of its arcs may be
    /// better.
    fn relevel(&mut self, links: &mut [Link], node: u32, new: Link) {
        let level = links[node as usize].level;
        links[node as usize] = new;
        if new.level < level {
            self.fall(node);
        } else if level < new.level {
            self.changed.push(node);
            self.looks += self.ties.len() + 256;
            self.waiting.extend(self.ties.iter().filter(|tie| tie.0 == node).map(|tie| tie.1));
        }
    }

    /// A node's level fell.
    fn fall(&mut self, node: u32) {
        self.waiting.push_back(node);
        self.changed.push(node);
        self.looks += 256;
    }

    /// A node was met.
    fn meet(&mut self, roads: &Roads, links: &mut [Link], node: u32, new: Link) {
        let old = links[node as usize];
        if old.level == 0 {
            return;
        }
        if (old.from, old.arc) == (new.from, new.arc) {
            return self.relevel(links, node, new);
        }
        self.ties.extend([(node, new.from), (node, old.from)]);
        if (new.level, roads.number(new.from, new.arc)) < (old.level, roads.number(old.from, old.arc)) {
            links[node as usize] = new;
            if new.level < old.level {
                self.fall(node);
            }
        }
    }

    /// Passes changed levels on to the nodes whose links have arcs from there. Returns false if too many
    /// looks are spent.
    fn pass_on(&mut self, network: &Network, links: &mut [Link]) -> bool {
        while let Some(node) = self.changed.pop() {
            if self.looks > 16 * links.len() + 65_536 {
                return false;
            }
            let level = links[node as usize].level;
            for arc in network.leaving(node) {
                let old = links[arc.head as usize];
                if old.from == node && 0 < old.level && old.level < NO_LEVEL && level < NO_LEVEL {
                    self.relevel(links, arc.head, Link { level: level + 1, ..old });
                }
            }
        }
        true
    }
}

/// Searches in turns: Dijkstra's algorithm with a binary heap without walks, the search over windows without
/// walks, and the one with a log and its replay. Checks labels and links, and prints the least and the median
/// time of each, its ratio to the heap's least, and in how many rounds all links would be found anew; that is
/// not in the times.
pub fn compare(network: &Network, numbers: Vec<u32>, source: u32, rounds: usize) {
    let heap = || dijkstra::<BinaryHeap<Reverse<Entry>>>(network, source, 0);
    let roads = Roads { network, numbers, source };
    let labels = heap();
    let links = roads.canonical(&labels);
    let (mut took, mut given_up) = ([const { Vec::new() }; 3], 0);
    for _ in 0..rounds {
        let begun = Instant::now();
        assert!(heap() == labels);
        took[0].push(begun.elapsed().as_micros());
        let begun = Instant::now();
        assert!(search(network, source, &mut None) == labels);
        took[1].push(begun.elapsed().as_micros());
        let begun = Instant::now();
        let mut notes = Some(Notes { list: Vec::with_capacity(network.nodes + network.nodes / 4), count: 0 });
        let found = search(network, source, &mut notes);
        let notes = notes.expect("the notes");
        let followed = roads.follow(&found, &notes.list[..notes.count]);
        took[2].push(begun.elapsed().as_micros());
        given_up += usize::from(followed.is_none());
        assert!(found == labels && followed.is_none_or(|followed| followed == links), "the walks are wrong");
    }
    took.iter_mut().for_each(|took| took.sort());
    for (name, took_by) in ["binary heap", "windows", "windows, walks"].iter().zip(&took) {
        println!("{name:15} least {:8} us, middle {:8}, {:.2}", took_by[0], took_by[rounds / 2], took_by[0] as f64 / took[0][0] as f64);
    }
    println!("given up in {given_up} of {rounds} rounds");
}
