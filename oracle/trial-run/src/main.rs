//! Holds the program trial against hybit's Rust: the same trials, as text to the one and as a matrix to the other, and every byte
//! that the program writes. Texts that are no trial must get their message and nothing else.

mod bad;
mod trials;

use random::Random;
use std::env;
use std::io::Write;
use std::process::{Command, Stdio, exit};
use trials::Trial;

const PROGRAM: &str = "crates/trial/out/trial";

fn main() {
    let words: Vec<String> = env::args().skip(1).collect();
    if let [flag, lines, plots, entries] = &words[..]
        && flag == "--make"
    {
        let sizes = [lines, plots, entries].map(|word| word.parse().expect("a number"));
        let trial = Trial::of_size(sizes[0], sizes[1], sizes[2], &mut Random(1));
        print!("{}", trial.text());
        return;
    }
    let number = |place: usize, default: u64| {
        let word = words.get(place);
        word.map_or(default, |word| word.parse().expect("a number"))
    };
    compare(number(0, 1000), number(1, 1));
}

fn compare(count: u64, seed: u64) {
    let mut random = Random(seed);
    let mut lines = 0;
    for number in 0..count {
        let trial = Trial::random(&mut random);
        let text = trial.text();
        lines += trial.rows.len();
        same(&format!("trial {number}"), &text, &trial.expected());
    }
    for (text, message) in bad::TEXTS {
        same("a text that is no trial", text, message);
    }
    let large = Trial::of_size(4096, 4096, 256, &mut random);
    same("the large trial", &large.text(), &large.expected());
    let texts = bad::TEXTS.len();
    println!(
        "{count} trials with {lines} lines, one with a million entries, {texts} other texts: 0 differ"
    );
}

/// Stops unless the program writes what is expected of the input.
fn same(name: &str, input: &str, expected: &str) {
    let written = run(input);
    if written != expected {
        println!("{name} differs\n{input}\nexpected:\n{expected}\nwritten:\n{written}");
        exit(1);
    }
}

fn run(input: &str) -> String {
    let mut child = Command::new(PROGRAM)
        .stdin(Stdio::piped())
        .stdout(Stdio::piped())
        .spawn()
        .expect(PROGRAM);
    let mut stdin = child.stdin.take().unwrap();
    let text = input.to_owned();
    // A program that refuses its input stops reading, so the rest of it may find no reader.
    let writer = std::thread::spawn(move || stdin.write_all(text.as_bytes()));
    let output = child.wait_with_output().unwrap();
    let _ = writer.join().unwrap();
    String::from_utf8(output.stdout).unwrap()
}
