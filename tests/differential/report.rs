//! What a run prints: a line for each of its sections, and tables of what was compared.

use std::collections::BTreeMap;
use std::process::ExitCode;
use std::time::Instant;

/// A run that compares many cases, section after section.
pub trait Run: Sized {
    /// What its cases are called.
    const CASES: &str;

    /// How many have been compared.
    fn compared(&self) -> u64;

    /// Does the work of one section, and prints how many cases it had and how long it took.
    fn section(&mut self, what: &str, work: impl FnOnce(&mut Self)) {
        let (before, start) = (self.compared(), Instant::now());
        work(self);
        let (cases, seconds) = (self.compared() - before, start.elapsed().as_secs_f64());
        println!("{what}: {cases} {}, {seconds:.1} s", Self::CASES);
    }
}

/// One input of a call, as the tables need it.
pub trait Input {
    fn call(&self) -> &'static str;

    fn describe(&self) -> String;

    /// How small an input is: by its words first, then by the size of its numbers.
    fn weight(&self) -> (usize, u128);
}

/// Words as they are printed: no more than the first few.
pub fn shortened<A: std::fmt::Debug>(words: &[A]) -> String {
    if words.len() <= 64 {
        return format!("{words:?}");
    }
    format!("{:?} and {} more", &words[..64], words.len() - 64)
}

/// How a case compared with the Rust.
#[derive(Clone, Copy, Debug, Eq, Ord, PartialEq, PartialOrd)]
pub enum Outcome {
    /// Accepted, and the Rust answers the same.
    Same,
    /// Refused, and the Rust panics.
    Panics,
    /// Refused, and the Rust answers or is not asked: one of the differences that document 01 intends.
    Intended(&'static str),
}

#[derive(Default)]
struct Row {
    cases: u64,
    same: u64,
    panics: u64,
    intended: u64,
}

struct Class {
    cases: u64,
    weight: (usize, u128),
    smallest: String,
}

#[derive(Default)]
pub struct Tally {
    rows: BTreeMap<(&'static str, u32), Row>,
    classes: BTreeMap<&'static str, Class>,
    unexplained: u64,
    shown: Vec<String>,
}

/// How many unexplained differences are printed in full.
const SHOWN: usize = 10;

impl Tally {
    pub fn count(&mut self, case: &impl Input, number: u32, outcome: Outcome) {
        let row = self.rows.entry((case.call(), number)).or_default();
        row.cases += 1;
        match outcome {
            Outcome::Same => row.same += 1,
            Outcome::Panics => row.panics += 1,
            Outcome::Intended(class) => {
                row.intended += 1;
                self.count_class(class, case);
            }
        }
    }

    fn count_class(&mut self, name: &'static str, case: &impl Input) {
        let weight = case.weight();
        let class = self.classes.entry(name).or_insert_with(|| Class {
            cases: 0,
            weight: (usize::MAX, 0),
            smallest: String::new(),
        });
        class.cases += 1;
        if weight < class.weight {
            class.weight = weight;
            class.smallest = case.describe();
        }
    }

    /// A case on which two of library, model and Rust differ in a way that nothing explains.
    pub fn differ(&mut self, case: &impl Input, what: &str) {
        self.rows.entry((case.call(), u32::MAX)).or_default().cases += 1;
        self.unexplained += 1;
        if self.shown.len() < SHOWN {
            self.shown.push(format!("{}: {what}", case.describe()));
        }
    }

    pub fn cases(&self) -> u64 {
        self.rows.values().map(|row| row.cases).sum()
    }

    /// Prints the tables; failed where a difference is not explained.
    pub fn finish(&self) -> ExitCode {
        self.print();
        match self.unexplained {
            0 => ExitCode::SUCCESS,
            _ => ExitCode::FAILURE,
        }
    }

    fn print(&self) {
        println!(
            "{:16}{:>8}{:>12}{:>12}{:>12}{:>12}",
            "call", "number", "cases", "agreements", "panics", "intended"
        );
        for ((call, number), row) in &self.rows {
            let number = match number {
                &u32::MAX => String::from("differs"),
                number => number.to_string(),
            };
            println!(
                "{call:16}{number:>8}{:>12}{:>12}{:>12}{:>12}",
                row.cases, row.same, row.panics, row.intended
            );
        }
        println!("{:24}{:>12}", "all", self.cases());
        println!("intended differences:");
        for (name, class) in &self.classes {
            println!(
                "  {name}: {}\n    smallest: {}",
                class.cases, class.smallest
            );
        }
        for text in &self.shown {
            println!("unexplained: {text}");
        }
        println!("unexplained differences: {}", self.unexplained);
    }
}
