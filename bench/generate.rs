//! Road-like test inputs. One file, stock Rust: `rustc -O generate.rs`.
//!
//! `generate ARCS OUT [plain|odd|patterns] [seed]` writes OUT.gr, OUT.ss, OUT.tp and OUT.co: a grid of nodes
//! with about 2.5 arcs for each node, both ways along streets, with weights like travel times, some missing
//! streets and some fast roads; up to 100 sources; 16 kinds of timetable, given to a third of the arcs; and
//! the coordinates of the nodes, about 1,000 units from one to the next. `odd` writes the same texts with
//! tabs, carriage returns, runs of blanks and comments. `patterns` writes the same texts as `plain`, and
//! OUT.patterns.tp, in which a third of the arcs have one of 200 traffic patterns of 96 steps: the speed of
//! each quarter of an hour in a day with a rush in the morning and one in the evening. A unit of time is a
//! hundredth of a second there.
use std::fs::File;
use std::io::{BufWriter, Result, Write};

struct Words(u64);

impl Words {
    /// SplitMix64.
    fn next(&mut self) -> u64 {
        self.0 = self.0.wrapping_add(0x9E37_79B9_7F4A_7C15);
        let mut z = self.0;
        z = (z ^ (z >> 30)).wrapping_mul(0xBF58_476D_1CE4_E5B9);
        z = (z ^ (z >> 27)).wrapping_mul(0x94D0_49BB_1331_11EB);
        z ^ (z >> 31)
    }

    fn below(&mut self, n: u64) -> u64 {
        self.next() % n
    }
}

struct Style {
    odd: bool,
    words: Words,
}

impl Style {
    fn line(&mut self, out: &mut impl Write, fields: &[&str]) -> Result<()> {
        if !self.odd {
            writeln!(out, "{}", fields.join(" "))
        } else {
            let n = self.words.below(16);
            if n == 0 {
                writeln!(out, "c a comment, and a blank line\n")?;
            }
            let blanks = ["\t", "  ", " ", " \t "];
            let mut line = String::new();
            for (i, field) in fields.iter().enumerate() {
                if i > 0 || n == 1 {
                    line.push_str(blanks[(n as usize + i) % 4]);
                }
                line.push_str(field);
            }
            write!(out, "{line}{}", ["\r\n", " \n", "\n", "\t\r\n"][n as usize % 4])
        }
    }
}

/// The part of the full speed that a rush takes at a time, in thousandths: most in its middle, nothing from
/// its ends on.
fn lost(time: u64, middle: u64, half: u64, most: u64) -> u64 {
    most - (most * time.abs_diff(middle) / half).min(most)
}

/// Writes 200 classes of speeds, and which arcs have them.
fn patterns(base: &str, arcs: u64, mut words: Words) -> Result<()> {
    const CLASSES: u64 = 200;
    const STEPS: u64 = 96;
    let given: Vec<(u64, u64)> =
        (1..=arcs).filter_map(|e| if words.below(3) == 0 { Some((e, words.below(CLASSES) + 1)) } else { None }).collect();
    let mut tp = BufWriter::with_capacity(1 << 20, File::create(format!("{base}.patterns.tp"))?);
    writeln!(tp, "p tp {CLASSES} {}", given.len())?;
    for j in 1..=CLASSES {
        writeln!(tp, "k {j} speeds 8640000 {STEPS}")?;
        // In steps: a rush around eight and one around half past five, each of one to three hours on either
        // side.
        let rushes = [32, 70].map(|middle| (middle - 3 + words.below(7), 4 + words.below(9), 200 + words.below(500)));
        for step in 0..STEPS {
            let lost: u64 = rushes.iter().map(|(middle, half, most)| lost(step, *middle, *half, *most)).sum();
            writeln!(tp, "v {} {}", 90_000 * step, 1000 - lost - words.below(50))?;
        }
    }
    for (e, j) in &given {
        writeln!(tp, "t {e} {j}")?;
    }
    tp.flush()
}

fn grid(arcs: u64) -> (u64, u64) {
    let nodes = (arcs as f64 / 2.5).max(1.0);
    let width = nodes.sqrt().ceil() as u64;
    (width.max(2), ((nodes / width as f64).ceil() as u64).max(2))
}

fn main() -> Result<()> {
    let args: Vec<String> = std::env::args().collect();
    let want: u64 = args[1].parse().expect("a number of arcs");
    let base = &args[2];
    let style = args.get(3).map(String::as_str);
    let odd = style == Some("odd");
    let with_patterns = style == Some("patterns");
    let seed: u64 = args.get(4).map_or(1, |s| s.parse().expect("a seed"));
    let mut words = Words(seed);
    let mut style = Style { odd, words: Words(seed ^ 0xABCD) };
    let (width, height) = grid(want);
    let nodes = width * height;

    // Streets between neighbours; about one in three is missing, and every eighth row or column is fast.
    let mut arcs: Vec<(u64, u64, u64)> = Vec::with_capacity(want as usize);
    'all: loop {
        for y in 0..height {
            for x in 0..width {
                let u = y * width + x + 1;
                for (dx, dy) in [(1, 0), (0, 1)] {
                    if x + dx >= width || y + dy >= height {
                        continue;
                    }
                    if words.below(100) < 35 {
                        continue;
                    }
                    let v = (y + dy) * width + x + dx + 1;
                    let fast = (dy == 0 && y % 8 == 0) || (dx == 0 && x % 8 == 0);
                    let length = 200 + words.below(1800);
                    let weight = if fast { length / 3 } else { length };
                    for arc in [(u, v, weight), (v, u, weight + words.below(20))] {
                        arcs.push(arc);
                        if arcs.len() as u64 == want {
                            break 'all;
                        }
                    }
                }
            }
        }
    }

    let mut gr = BufWriter::with_capacity(1 << 20, File::create(format!("{base}.gr"))?);
    style.line(&mut gr, &["p", "sp", &nodes.to_string(), &arcs.len().to_string()])?;
    for (u, v, w) in &arcs {
        if odd {
            style.line(&mut gr, &["a", &u.to_string(), &v.to_string(), &w.to_string()])?;
        } else {
            writeln!(gr, "a {u} {v} {w}")?;
        }
    }
    gr.flush()?;

    let mut places = Words(seed ^ 0x5EED);
    let mut co = BufWriter::with_capacity(1 << 20, File::create(format!("{base}.co"))?);
    style.line(&mut co, &["p", "aux", "sp", "co", &nodes.to_string()])?;
    for y in 0..height {
        for x in 0..width {
            let node = y * width + x + 1;
            let (east, north) = (1000 * x + places.below(500), 1000 * y + places.below(500));
            style.line(&mut co, &["v", &node.to_string(), &east.to_string(), &north.to_string()])?;
        }
    }
    co.flush()?;

    let sources = nodes.min(100);
    let mut ss = BufWriter::new(File::create(format!("{base}.ss"))?);
    style.line(&mut ss, &["p", "aux", "sp", "ss", &sources.to_string()])?;
    for _ in 0..sources {
        style.line(&mut ss, &["s", &(words.below(nodes) + 1).to_string()])?;
    }
    ss.flush()?;

    let kinds = 16u64;
    let given: Vec<(usize, u64)> = (1..=arcs.len())
        .filter_map(|e| if words.below(3) == 0 { Some((e, words.below(kinds) + 1)) } else { None })
        .collect();
    let mut tp = BufWriter::with_capacity(1 << 20, File::create(format!("{base}.tp"))?);
    style.line(&mut tp, &["p", "tp", &kinds.to_string(), &given.len().to_string()])?;
    for j in 1..=kinds {
        let number = j.to_string();
        let low = (j * 1000).to_string();
        let high = (j * 1000 + 5000).to_string();
        match j % 4 {
            0 => style.line(&mut tp, &["k", &number, "plain"])?,
            1 => style.line(&mut tp, &["k", &number, "every", "600", &(j * 7).to_string()])?,
            2 => style.line(&mut tp, &["k", &number, "closed", &low, &high])?,
            _ => style.line(&mut tp, &["k", &number, "rush", &low, &high, "900"])?,
        }
    }
    for (e, j) in &given {
        if odd {
            style.line(&mut tp, &["t", &e.to_string(), &j.to_string()])?;
        } else {
            writeln!(tp, "t {e} {j}")?;
        }
    }
    tp.flush()?;
    if with_patterns { patterns(base, arcs.len() as u64, Words(seed ^ 0x7A77)) } else { Ok(()) }
}
