//! Samples of calls with the Rust's answers, written as what a program of the library is asked and what it must answer.

use std::collections::{BTreeMap, HashSet};
use std::fmt::{Display, Write};
use std::path::Path;
use std::process::ExitCode;

use crate::rng::Rng;

/// A sample of one driver: document 01's examples, and what it draws beside them.
pub trait Sample: Default {
    /// What a line of it is called in the report.
    const LINES: &str;

    /// Enough draws to fill every kind that can be filled.
    const DRAWS: usize = 60_000;

    fn examples(&mut self, rng: &mut Rng);

    fn draw(&mut self, rng: &mut Rng);

    fn taken(&self) -> &Taken;
}

/// Draws a sample and writes it into a folder.
pub fn run<S: Sample>(seed: u64, into: &Path) -> ExitCode {
    let mut sample = S::default();
    let mut rng = Rng::new(seed);
    sample.examples(&mut rng);
    for _ in 0..S::DRAWS {
        sample.draw(&mut rng);
    }
    let taken = sample.taken();
    for (kind, count) in &taken.kinds {
        println!("{count:5} {kind}");
    }
    println!("seed {seed}: {} {}", taken.lines.len(), S::LINES);
    taken.write(into)
}

/// The lines that were taken, with their answers.
#[derive(Default)]
pub struct Taken {
    /// How many lines of each kind there are.
    kinds: BTreeMap<String, usize>,
    lines: HashSet<String>,
    asked: String,
    answered: String,
}

impl Taken {
    /// Takes a line unless there are `most` of its kind already or it has been taken before.
    pub fn take(
        &mut self,
        kind: String,
        most: usize,
        asked: String,
        answer: impl FnOnce() -> String,
    ) {
        let count = self.kinds.entry(kind).or_default();
        if *count >= most || !self.lines.insert(asked.clone()) {
            return;
        }
        *count += 1;
        push_line(&mut self.asked, &asked);
        push_line(&mut self.answered, &answer());
    }

    fn write(&self, into: &Path) -> ExitCode {
        let written = std::fs::create_dir_all(into)
            .and_then(|()| std::fs::write(into.join("stdin"), &self.asked))
            .and_then(|()| std::fs::write(into.join("stdout"), &self.answered));
        match written {
            Ok(()) => ExitCode::SUCCESS,
            Err(error) => {
                eprintln!("{}: {error}", into.display());
                ExitCode::FAILURE
            }
        }
    }
}

fn push_line(text: &mut String, line: &str) {
    text.push_str(line);
    text.push('\n');
}

/// What every word of an output slice holds before a recorded call.
pub const BEFORE: u8 = 7;

/// An output slice of so many words after a call, each with a space before it: what was written, then what stood there.
pub fn output<A: Display + Clone + From<u8>>(mut written: Vec<A>, room: usize) -> String {
    written.resize(room, A::from(BEFORE));
    spaced(&written)
}

/// Words with a space before each.
pub fn spaced<A: Display>(words: &[A]) -> String {
    let mut text = String::new();
    for word in words {
        write!(text, " {word}").expect("writing to a string");
    }
    text
}

/// The number of words, then the words, with a space before each.
pub fn counted<A: Display>(words: &[A]) -> String {
    format!(" {}{}", words.len(), spaced(words))
}
