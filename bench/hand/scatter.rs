//! The same network and sources with nodes numbered at random. Arcs keep their numbers, so timetables stay.
use std::fs::{File, read_to_string};
use std::io::{BufWriter, Write};

/// A random permutation of the numbers from 1 on, by Fisher and Yates.
fn numbers(nodes: usize) -> Vec<usize> {
    let mut found: Vec<usize> = (0..=nodes).collect();
    let mut word = 5u64;
    for at in (2..=nodes).rev() {
        word = word.wrapping_mul(6364136223846793005).wrapping_add(1442695040888963407);
        found.swap(at, 1 + (word >> 33) as usize % at);
    }
    found
}

/// Writes each line of a text with the fields that are nodes renumbered.
fn renumbered(from: &str, to: &str, numbers: &[usize], word: &str, fields: usize) {
    let mut out = BufWriter::with_capacity(1 << 20, File::create(to).expect("a place for the text"));
    for line in read_to_string(from).expect("a text").lines() {
        let parts: Vec<&str> = line.split(' ').collect();
        if parts[0] != word {
            writeln!(out, "{line}").unwrap();
            continue;
        }
        write!(out, "{word}").unwrap();
        for (at, part) in parts.iter().enumerate().skip(1) {
            if at <= fields {
                write!(out, " {}", numbers[part.parse::<usize>().expect("a node")]).unwrap();
            } else {
                write!(out, " {part}").unwrap();
            }
        }
        writeln!(out).unwrap();
    }
}

pub fn write(gr: &str, ss: &str, out_gr: &str, out_ss: &str) {
    let text = read_to_string(gr).expect("a network");
    let head = text.lines().find(|line| line.starts_with('p')).expect("a problem line");
    let nodes = head.split(' ').nth(2).and_then(|field| field.parse().ok()).expect("a number of nodes");
    let numbers = numbers(nodes);
    renumbered(gr, out_gr, &numbers, "a", 2);
    renumbered(ss, out_ss, &numbers, "s", 1);
}
