//! Times of the list check by shape, beside a loop that only reads the words.

use std::hint::black_box;
use std::process::ExitCode;

use crate::calls;
use crate::lists::cases::{self, Shape, Stuff};
use crate::lists::model::{List, work_words};
use crate::rng::Rng;
use crate::timing::quickest;

/// Each figure is the best of so many repeats.
const REPEATS: usize = 60;

const STUFF: Stuff = Stuff {
    types: 300,
    start: 0,
    gap: 1,
    length: 9,
};

const NOTE: &str = "ns per record, best of several repeats. The loop sums the words of the list and does nothing else.
The work slice has been written to before, so that no page of it is new.";

pub fn run(seed: u64) -> ExitCode {
    println!("seed {seed}\n{NOTE}");
    println!(
        "{:34}{:>10}{:>10}{:>10}{:>8}",
        "shape", "records", "check", "loop", "ratio"
    );
    let shapes = [
        ("flat", Shape::Flat),
        ("chain", Shape::Chain),
        ("60 % leaves, 1 to 5 children", Shape::Mixed(60, 5)),
        ("90 % leaves, 1 to 40 children", Shape::Mixed(90, 40)),
        ("parents of 999 leaves", Shape::Wide(999)),
        ("balanced binary", Shape::Binary),
    ];
    let mut rng = Rng::new(seed);
    for records in [200_000, 1_000_000] {
        let mut work = vec![0; work_words(records)];
        for (name, shape) in shapes {
            let words = cases::good_list(&mut rng, &STUFF, records, shape);
            let check = best(records, || check(&words, &mut work));
            let read = best(records, || sum(black_box(&words)));
            println!(
                "{name:34}{records:>10}{check:>10.2}{read:>10.2}{:>8.1}",
                check / read
            );
        }
    }
    ExitCode::SUCCESS
}

fn check(words: &[u32], work: &mut [u32]) -> u32 {
    let list = List {
        types: STUFF.types,
        first_repeat: STUFF.types,
        bound: 1_024,
        start: STUFF.start,
        top: 0,
        words: black_box(words),
        work: work.len(),
    };
    let mut info = [0; 3];
    let number = calls::check(&list, work, &mut info);
    assert_eq!(number, 0, "the lists of the benchmark are good ones");
    info[1]
}

fn sum(words: &[u32]) -> u32 {
    words.iter().fold(0, |sum, &word| sum.wrapping_add(word))
}

/// Nanoseconds a record of a call.
fn best(records: usize, call: impl FnMut() -> u32) -> f64 {
    quickest(REPEATS, f64::MAX, call) * 1e9 / records as f64
}
