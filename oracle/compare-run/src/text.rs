//! The text form of calls and outcomes: decimal numbers, one space between, one line each.

use crate::parts::{Part, kind, parts, parts_below};
use calls::{Below, Call, Outcome};

fn push(line: &mut Vec<u64>, list: impl ExactSizeIterator<Item = u64>) {
    line.push(list.len() as u64);
    line.extend(list);
}

fn join(line: &[u64]) -> String {
    let words: Vec<String> = line.iter().map(u64::to_string).collect();
    words.join(" ")
}

/// The call's kind, then its parts in order: a number as it is, an f64 by its bits, a list by its length and elements.
pub fn call_line(call: &Call) -> String {
    numbered(kind(call), parts(&mut call.clone()))
}

/// The same of a call of the crates below.
pub fn below_line(call: &Below) -> String {
    numbered(call.number(), parts_below(&mut call.clone()))
}

fn numbered(number: usize, parts: Vec<Part<'_>>) -> String {
    let mut line = vec![number as u64];
    for part in parts {
        match part {
            Part::Size(n) => line.push(*n as u64),
            Part::Num8(n) => line.push((*n).into()),
            Part::Num32(n) => line.push((*n).into()),
            Part::Num64(n) => line.push(*n),
            Part::Flag(n) => line.push((*n).into()),
            Part::Sizes(list) => push(&mut line, list.iter().map(|&n| n as u64)),
            Part::Nums32(list) => push(&mut line, list.iter().map(|&n| n.into())),
            Part::Nums64(list) => push(&mut line, list.iter().copied()),
            Part::Floats(list) => push(&mut line, list.iter().map(|n| n.to_bits())),
        }
    }
    join(&line)
}

/// The refusal, expected and actual, the answer's fields, then each lent list by its length and elements.
pub fn outcome_line(o: &Outcome) -> String {
    let mut line = vec![o.number.into(), o.expected as u64, o.actual as u64];
    line.extend(&o.result);
    for list in &o.lists {
        push(&mut line, list.iter().copied());
    }
    join(&line)
}

/// The places of the call's longest list.
pub fn longest_list(call: &Call) -> usize {
    let lengths = parts(&mut call.clone()).iter().map(length).max();
    lengths.unwrap_or(0)
}

/// The places of a list, 0 for a number.
pub fn length(part: &Part<'_>) -> usize {
    match part {
        Part::Sizes(list) => list.len(),
        Part::Nums32(list) => list.len(),
        Part::Nums64(list) => list.len(),
        Part::Floats(list) => list.len(),
        _ => 0,
    }
}
