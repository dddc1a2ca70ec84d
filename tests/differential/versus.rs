//! Times of the calls of two archives, in turn in one process: of the library as it is, and of another state of it, whose exported
//! functions are linked in under other names (`before`).

use std::hint::black_box;
use std::process::ExitCode;
use std::time::Instant;

use crate::oracle::run_on_large_stack;
use crate::parts::bench::{self, NESTINGS, RECORDS};
use crate::parts::cases;
use crate::parts::model::{Search, Slice};
use crate::rng::Rng;
use crate::trees::bench::{NODES, SHAPES, grown};
use crate::trees::model::{Handed, work_words};
use crate::widths::{CELL_WIDTH, LINE_WIDTH, RECORD_WIDTH};
use crate::{before, calls};

const NOTE: &str = "before and after: ns per record (of trees: per node), the best of all sets. best: the ratio of these two. middle: the middle
one of the ratios of single sets, with the least and the greatest behind it. In each set the two archives take turns, the first
of them changing from set to set. The slices have been written to before.";

/// The calls before and after, in this order.
const CHECK: [fn(u32, &[u16], &mut [u32]) -> u32; 2] = [before::part_check, calls::part_check];
const SLICE: [fn(u32, &[u16], &Slice, &mut [u16], &mut [u32]) -> u32; 2] =
    [before::part_slice, calls::part_slice];
const SEARCH: [fn(u32, &[u16], &Search, &mut [u32]) -> u32; 2] =
    [before::part_search, calls::part_search];
const MATERIALISE: [fn(&Handed, &mut [u32], &mut [u32], &mut [u32]) -> u32; 2] =
    [before::materialise, calls::materialise];
const LIST: [fn(&Handed, &mut [u32], &mut [u32], &mut [u32]) -> u32; 2] =
    [before::list, calls::list];
const BALANCE: [fn(&Handed, u32, &mut [u32], &mut [u32], &mut [u16], &mut [u32]) -> u32; 2] =
    [before::balance, calls::balance];

fn heading(seed: u64) {
    println!("seed {seed}\n{NOTE}");
    println!(
        "{:50}{:>9}{:>9}{:>7}{:>8}  sets",
        "row", "before", "after", "best", "middle"
    );
}

/// A row of so many sets, each of them with so many records or nodes. The call is told whose turn it is: 0 before, 1 after.
fn row(name: &str, sets: usize, each: usize, mut call: impl FnMut(usize)) {
    let mut least = [f64::MAX; 2];
    let mut ratios = Vec::with_capacity(sets);
    for set in 0..sets {
        let mut times = [0.0; 2];
        for turn in [set % 2, 1 - set % 2] {
            let start = Instant::now();
            call(turn);
            times[turn] = start.elapsed().as_nanos() as f64 / each as f64;
            least[turn] = least[turn].min(times[turn]);
        }
        ratios.push(times[1] / times[0]);
    }
    ratios.sort_by(f64::total_cmp);
    println!(
        "{name:50}{:>9.2}{:>9.2}{:>7.2}{:>8.2}  {:.2} to {:.2}",
        least[0],
        least[1],
        least[1] / least[0],
        ratios[sets / 2],
        ratios[0],
        ratios[sets - 1]
    );
}

pub fn parts(seed: u64, sets: usize) -> ExitCode {
    heading(seed);
    let mut rng = Rng::new(seed);
    for records in RECORDS {
        for (shape, nesting) in NESTINGS {
            let words = cases::good_part(&mut rng, bench::TYPES, records, nesting, 65_535);
            part_rows(&format!("{shape}, {records} records"), sets, &words);
        }
    }
    ExitCode::SUCCESS
}

fn part_rows(shape: &str, sets: usize, words: &[u16]) {
    let repeats = bench::calls_a_repeat(words);
    let each = repeats * words.len() / RECORD_WIDTH;
    let types = bench::TYPES;
    let (whole, nowhere) = (bench::whole(words), bench::nowhere(words));
    let mut out = vec![0; words.len()];
    let mut info = [0; 4];
    row(&format!("check {shape}"), sets, each, |turn| {
        for _ in 0..repeats {
            black_box(CHECK[turn](types, black_box(words), &mut info));
        }
    });
    row(&format!("slice {shape}"), sets, each, |turn| {
        for _ in 0..repeats {
            black_box(SLICE[turn](
                types,
                black_box(words),
                &whole,
                &mut out,
                &mut info,
            ));
        }
    });
    row(&format!("search {shape}"), sets, each, |turn| {
        for _ in 0..repeats {
            black_box(SEARCH[turn](types, black_box(words), &nowhere, &mut info));
        }
    });
}

pub fn trees(seed: u64, sets: usize) -> ExitCode {
    run_on_large_stack(move || {
        heading(seed);
        let mut rng = Rng::new(seed);
        let mut lent = Lent::new();
        for (name, shape, mix) in SHAPES {
            lent.tree_rows(name, sets, &grown(&mut rng, shape, mix));
        }
        ExitCode::SUCCESS
    })
}

/// The slices that are lent to each call.
struct Lent {
    work: Vec<u32>,
    out: Vec<u32>,
    lines: Vec<u32>,
}

impl Lent {
    fn new() -> Self {
        let items = 2 * NODES;
        Self {
            work: vec![1; work_words(items * CELL_WIDTH, 0)],
            out: vec![1; items * CELL_WIDTH],
            lines: vec![1; items * LINE_WIDTH],
        }
    }

    fn tree_rows(&mut self, name: &str, sets: usize, tree: &Handed) {
        let Self { work, out, lines } = self;
        let mut packed = vec![0; tree.words.len()];
        let mut info = [0; 3];
        row(&format!("materialise {name}"), sets, NODES, |turn| {
            black_box(MATERIALISE[turn](black_box(tree), work, out, &mut info));
        });
        row(&format!("list {name}"), sets, NODES, |turn| {
            black_box(LIST[turn](black_box(tree), work, lines, &mut info));
        });
        row(&format!("balance {name}"), sets, NODES, |turn| {
            black_box(BALANCE[turn](
                black_box(tree),
                0,
                work,
                out,
                &mut packed,
                &mut info,
            ));
        });
    }
}
