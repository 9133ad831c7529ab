//! Runs a program and measures it: `measure OUT WORD ..` writes its output to OUT and prints its
//! microseconds, its greatest memory in KiB and its status. A separate small program, since the memory that a
//! process had before `exec` counts as that of the program too.
use std::fs::File;
use std::process::{Command, Stdio};
use std::time::Instant;

/// The system's `struct rusage`: two times of two numbers each, then the greatest memory.
#[repr(C)]
#[derive(Default)]
struct Usage {
    times: [i64; 4],
    most: i64,
    others: [i64; 13],
}

unsafe extern "C" {
    fn wait4(process: i32, status: *mut i32, options: i32, usage: *mut Usage) -> i32;
}

fn main() {
    let words: Vec<String> = std::env::args().skip(1).collect();
    let out = File::create(&words[0]).expect("a place for the output");
    let begun = Instant::now();
    let child = Command::new(&words[1]).args(&words[2..]).stdin(Stdio::null()).stdout(out).stderr(Stdio::null()).spawn();
    let child = child.expect("a program");
    let (mut status, mut usage) = (0, Usage::default());
    let waited = unsafe { wait4(child.id() as i32, &mut status, 0, &mut usage) };
    let took = begun.elapsed().as_micros();
    assert!(waited == child.id() as i32, "the program can't be waited for");
    println!("{took} {} {status}", usage.most);
}
