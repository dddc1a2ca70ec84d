//! Times of the build by shape of list and by bound, beside the Rust's on the same lists.

use std::hint::black_box;
use std::process::ExitCode;

use crate::builds::bundles::{self, Bundle, FIRST_REPEAT, Place, TYPES};
use crate::builds::case::{Case, Numbers};
use crate::lists::model::{MOST_RECORDS, work_words};
use crate::oracle::{Oracle, run_on_large_stack};
use crate::rng::Rng;
use crate::timing::quickest;
use crate::tree::TreeBuild;
use crate::trees::rust_trees;
use crate::widths::{CELL_WIDTH, RECORD_WIDTH};
use crate::{TextSize, Tree, calls};

/// A figure is the best of so many repeats, or of as many as fit the time.
const REPEATS: usize = 20;
const SECONDS: f64 = 1.5;

/// The records of a bundle.
const BUNDLE: usize = 200_000;

const NOTE: &str = "Milliseconds of a build, best of up to 20 repeats in one process (once where it takes longer than a second and a half).
The Rust's is `Tree::build` with its allocation, without dropping the tree; it checks no list and writes no cells. The build
here checks the list and writes cells and words. No slice is cleared before a call. `here`: the work slice, cells and words
have been written to before; `new`: they are fresh from the system, so that each page that is touched costs a fault.";

pub fn run(seed: u64) -> ExitCode {
    run_on_large_stack(move || measure(seed))
}

fn measure(seed: u64) -> ExitCode {
    println!("seed {seed}\n{NOTE}\n");
    println!(
        "| list | records | b | cells | words | here | new | Rust | here to Rust | new to Rust |"
    );
    println!("|---|---|---|---|---|---|---|---|---|---|");
    let mut rng = Rng::new(seed);
    let mut bench = Bench::new();
    let shapes = [
        ("flat leaves", Bundle::Leaves(1)),
        ("one chain, 0 to 2", Bundle::Chain(2)),
        ("one chain, 0 to 2,000", Bundle::Chain(2_000)),
        ("one chain, 0 to 70,000", Bundle::Chain(70_000)),
        (
            "chains of 2,000 records, each 2,000 long",
            Bundle::Chains(2_000),
        ),
        ("long repeat", Bundle::Repeat(1)),
        ("long repeat, nested on the left", Bundle::LeftNested),
        ("random nesting", Bundle::Mixed),
    ];
    for (name, shape) in shapes {
        let words = bundles::bundle(&mut rng, shape, BUNDLE);
        for bound in [0, 1_024, 65_535] {
            bench.row(name, &words, bound, true);
        }
    }
    let words = bundles::bundle(&mut rng, Bundle::Mixed, 1_000_000);
    for bound in [0, 1_024, 65_535] {
        bench.row("random nesting", &words, bound, true);
    }
    let words = bundles::empties(MOST_RECORDS, Place::First);
    for bound in [0, 1_024, 65_535] {
        bench.row("empty siblings", &words, bound, false);
    }
    ExitCode::SUCCESS
}

struct Bench {
    oracle: Oracle,
    work: Vec<u32>,
    cells: Vec<u32>,
    words: Vec<u16>,
}

impl Bench {
    fn new() -> Self {
        Self {
            oracle: Oracle::default(),
            work: vec![1; work_words(MOST_RECORDS)],
            cells: vec![1; (2 * MOST_RECORDS + 1) * CELL_WIDTH],
            words: vec![1; MOST_RECORDS * RECORD_WIDTH],
        }
    }

    /// One list under one bound; `shown`: the Rust is timed as well, and its tree is compared.
    fn row(&mut self, name: &str, records: &[u32], bound: u32, shown: bool) {
        let case = Numbers::plain(TYPES, FIRST_REPEAT, bound).with(records);
        let need = case.list.work;
        let mut info = [0; 3];
        let (cells, words) = (&mut self.cells, &mut self.words);
        let work = &mut self.work[..need];
        let here = best(|| build(&case, work, cells, words, &mut info));
        let [_, count, packed] = info;
        let (cells, words) = (count as usize * CELL_WIDTH, packed as usize);
        let new = best(|| afresh(&case, cells, words));
        let rust = match shown {
            true => self.rust(&case, cells, words),
            false => None,
        };
        let theirs = rust.map_or(String::from("not run"), |time| format!("{:.2}", time * 1e3));
        let (first, second) = (ratio(here, rust), ratio(new, rust));
        println!(
            "| {name} | {} | {bound} | {count} | {packed} | {:.2} | {:.2} | {theirs} | {first} | {second} |",
            records.len() / RECORD_WIDTH,
            here * 1e3,
            new * 1e3
        );
    }

    /// The Rust's time; its tree has the cells and words that were written here.
    fn rust(&mut self, case: &Case, cells: usize, words: usize) -> Option<f64> {
        let list = &case.list;
        let set = self.oracle.set(list.types).ok()?;
        let mut build = TreeBuild::new(list.words.to_vec(), set, list.top as u16);
        build.max_buffer_length = TextSize::new(list.bound);
        build.min_repeat_type = list.first_repeat as usize;
        let mut built = None;
        let time = best(|| {
            built = Some(Tree::build(black_box(&build)));
        });
        let written = rust_trees::cells_of(&built?);
        assert!(written.0 == self.cells[..cells], "the cells differ");
        assert!(written.1 == self.words[..words], "the words differ");
        Some(time)
    }
}

fn ratio(ours: f64, rust: Option<f64>) -> String {
    match rust.map(|time| ours / time) {
        None => String::new(),
        Some(ratio) if ratio < 0.005 => String::from("below 0.01"),
        Some(ratio) => format!("{ratio:.2}"),
    }
}

fn build(case: &Case, work: &mut [u32], cells: &mut [u32], words: &mut [u16], info: &mut [u32]) {
    let number = calls::build(black_box(case), work, cells, words, info);
    assert_eq!(number, 0, "the lists of the benchmark are good ones");
}

/// A build on slices that nobody has written to.
fn afresh(case: &Case, cells: usize, words: usize) {
    let mut work = vec![0; case.list.work];
    let (mut cells, mut words) = (vec![0; cells], vec![0; words]);
    build(case, &mut work, &mut cells, &mut words, &mut [0; 3]);
    // The memory goes back to the system.
    black_box((work, cells, words));
}

/// Seconds of a call.
fn best(call: impl FnMut()) -> f64 {
    quickest(REPEATS, SECONDS, call)
}
