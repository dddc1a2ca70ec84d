//! Times of the three calls and of the Rust's, on the same parts in one process.

use std::hint::black_box;
use std::process::ExitCode;
use std::time::Instant;

use crate::TextSize;
use crate::calls;
use crate::oracle::{self, Oracle};
use crate::parts::cases::{self, MOST_RECORDS, Nesting};
use crate::parts::model::{Search, Slice};
use crate::rng::Rng;
use crate::widths::RECORD_WIDTH;

pub const TYPES: u32 = 300;

/// The records of the parts that are measured.
pub const RECORDS: [usize; 3] = [4, 100, MOST_RECORDS];

/// How the records stand in each other.
pub const NESTINGS: [(&str, Nesting); 3] = [
    ("flat", Nesting::Flat),
    ("chain", Nesting::Chain),
    ("random", Nesting::Mixed(10)),
];

/// Each figure is the best of so many repeats.
const REPEATS: usize = 9;

/// Records in one repeat, all its calls together, at least.
const RECORDS_A_REPEAT: usize = 400_000;

const NOTE: &str = "ns per record, best of several repeats. The Rust's figures include its allocation: new copies the
words into a shared slice, slice does so twice, and what was made is freed within the time. Ours writes to slices that
the caller lends. Each of our calls checks the part first; the Rust checks once, in new, so its slice and its search
are given alone and with new before them. The slice is of the whole part; the search meets no match.";

pub fn run(seed: u64) -> ExitCode {
    println!("seed {seed}\n{NOTE}");
    println!(
        "{:8}{:8}{:>8}{:>10}{:>10}{:>8}{:>12}{:>8}",
        "call", "shape", "records", "ours", "Rust", "ratio", "Rust + new", "ratio"
    );
    let mut rng = Rng::new(seed);
    let mut oracle = Oracle::default();
    for records in RECORDS {
        for (shape, nesting) in NESTINGS {
            let words = cases::good_part(&mut rng, TYPES, records, nesting, 65_535);
            one_part(&mut oracle, shape, &words);
        }
    }
    ExitCode::SUCCESS
}

fn one_part(oracle: &mut Oracle, shape: &str, words: &[u16]) {
    let made = oracle.check_unguarded(TYPES);
    let new = best_of(words, |copies| {
        for copy in copies.drain(..) {
            black_box(made(copy));
        }
    });
    let check = best(words, || {
        let mut info = [0; 3];
        calls::part_check(TYPES, black_box(words), &mut info) + info[1]
    });
    line("check", shape, words, check, new, None);
    let buffer = made(words.to_vec());

    let whole = whole(words);
    let mut out = vec![0; words.len()];
    let slice = best(words, || {
        let mut info = [0; 3];
        calls::part_slice(TYPES, black_box(words), &whole, &mut out, &mut info)
    });
    let rust = best(words, || {
        black_box(&buffer).slice(0, words.len(), TextSize::new(0))
    });
    line("slice", shape, words, slice, rust, Some(new + rust));

    let nowhere = nowhere(words);
    let search = best(words, || {
        let mut info = [0; 3];
        calls::part_search(TYPES, black_box(words), &nowhere, &mut info)
    });
    let rust = best(words, || {
        oracle::search_unguarded(black_box(&buffer), &nowhere)
    });
    line("search", shape, words, search, rust, Some(new + rust));
}

/// A slice of the whole part.
pub fn whole(words: &[u16]) -> Slice {
    Slice {
        from: 0,
        to: words.len(),
        base: 0,
        room: words.len(),
    }
}

/// A search of the whole part that meets no match.
pub fn nowhere(words: &[u16]) -> Search {
    Search {
        from: 0,
        to: words.len(),
        direction: -1,
        position: 70_000,
        base: 0,
        side: 0,
    }
}

fn line(call: &str, shape: &str, words: &[u16], ours: f64, rust: f64, with_new: Option<f64>) {
    print!(
        "{call:8}{shape:8}{:>8}{ours:>10.2}{rust:>10.3}{:>8.2}",
        words.len() / RECORD_WIDTH,
        ours / rust
    );
    match with_new {
        Some(with_new) => println!("{with_new:>12.2}{:>8.2}", ours / with_new),
        None => println!(),
    }
}

pub fn calls_a_repeat(words: &[u16]) -> usize {
    RECORDS_A_REPEAT.div_ceil(words.len() / RECORD_WIDTH)
}

/// Nanoseconds a record of a call.
fn best<A>(words: &[u16], mut call: impl FnMut() -> A) -> f64 {
    best_of(words, |copies| {
        for _ in 0..copies.len() {
            black_box(call());
        }
    })
}

/// Nanoseconds a record of a batch of calls, for which copies of the words have been made before.
fn best_of(words: &[u16], mut batch: impl FnMut(&mut Vec<Vec<u16>>)) -> f64 {
    let calls = calls_a_repeat(words);
    let mut least = f64::MAX;
    for _ in 0..REPEATS {
        let mut copies = vec![words.to_vec(); calls];
        let start = Instant::now();
        batch(&mut copies);
        least = least.min(start.elapsed().as_nanos() as f64);
    }
    least / (calls * words.len() / RECORD_WIDTH) as f64
}
