//! The report's text.
use crate::network::NONE;

fn digits(text: &mut Vec<u8>, mut number: u64) {
    let mut found = [0u8; 20];
    let mut at = found.len();
    loop {
        at -= 1;
        found[at] = b'0' + (number % 10) as u8;
        number /= 10;
        if number == 0 {
            break;
        }
    }
    text.extend_from_slice(&found[at..]);
}

fn line(text: &mut Vec<u8>, word: u8, numbers: &[u64]) {
    text.push(word);
    for number in numbers {
        text.push(b' ');
        digits(text, *number);
    }
    text.push(b'\n');
}

fn arrival(text: &mut Vec<u8>, node: u64, time: u64) {
    if time == NONE {
        text.extend_from_slice(b"d ");
        digits(text, node);
        text.extend_from_slice(b" inf\n");
    } else {
        line(text, b'd', &[node, time]);
    }
}

/// Sends the report of a problem in pieces of at least 64 KiB; labels have an unused place for node 0.
pub fn of_problem(source: u32, departure: u64, labels: &[u64], mut send: impl FnMut(&[u8])) {
    let mut text = Vec::with_capacity(1 << 17);
    line(&mut text, b's', &[u64::from(source), departure]);
    for (node, time) in labels.iter().enumerate().skip(1) {
        arrival(&mut text, node as u64, *time);
        if text.len() >= 1 << 16 {
            send(&text);
            text.clear();
        }
    }
    send(&text);
}

/// The report of a problem at some nodes.
pub fn of_asked(text: &mut Vec<u8>, source: u32, departure: u64, nodes: &[u32], times: &[u64]) {
    line(text, b's', &[u64::from(source), departure]);
    nodes.iter().zip(times).for_each(|(node, time)| arrival(text, u64::from(*node), *time));
}

pub fn of_pair(text: &mut Vec<u8>, pair: (u32, u32), departure: u64, time: u64) {
    line(text, b'q', &[u64::from(pair.0), u64::from(pair.1), departure]);
    arrival(text, u64::from(pair.1), time);
}
