//! Times of balance, materialise and list by shape, beside the Rust's own on the same tree.

use std::hint::black_box;
use std::process::ExitCode;

use crate::lists::cases::{Shape, Stuff, good_list};
use crate::oracle::{Oracle, run_on_large_stack};
use crate::rng::Rng;
use crate::timing::{quickest, seconds};
use crate::tree::{NodeType, TreeChild};
use crate::trees::cases::{self, Mix};
use crate::trees::compare::Call;
use crate::trees::model::{Handed, work_words};
use crate::trees::rust_trees;
use crate::widths::{CELL_WIDTH, LINE_WIDTH, NEXT, cell_number};
use crate::{Tree, calls};

/// Each figure is the best of so many repeats.
const REPEATS: usize = 7;

/// Nodes under the top.
pub const NODES: usize = 1_000_000;

const TYPES: u32 = 300;

const NOTE: &str = "ns per cell of the result (of list: of the materialised tree), best of several repeats in one process. The Rust's
materialise is `Tree::materialize`, with its allocation and without dropping the result; it checks nothing, and the call
here checks all cells and words first. The Rust's list is `Tree::materialize` and a walk over the children of the result that
writes the same lines. `pair`: materialise and then list of the cells that it wrote, with no packed words. The three ways to
the lines are timed in turn in each repeat. The Rust's balance shares what stays as it is and so may take no time at all,
while the call here writes all cells: its time is that of `Tree::balance` and a walk that writes the cells and words of the
result. `balance, none` is on a node set with none in place 0, on both sides.
The slices have been written to before, so that no page of them is new.";

/// What is measured: forests of a shape, and how their nodes become cells.
pub const SHAPES: [(&str, Shape, Mix); 11] = [
    (
        "flat, parts of 1,000 records",
        Shape::Flat,
        Mix::new(100, 0, 0, 1_000),
    ),
    (
        "flat, parts of 4 records",
        Shape::Flat,
        Mix::new(100, 0, 0, 4),
    ),
    ("flat, no parts", Shape::Flat, TREES),
    (
        "parents of 999 leaves, leaves in parts",
        Shape::Wide(999),
        Mix::new(95, 0, 0, 999),
    ),
    (
        "random nesting, some in parts",
        Shape::Mixed(60, 5),
        Mix::new(30, 5, 0, 5),
    ),
    ("random nesting, no parts", Shape::Mixed(60, 5), TREES),
    (
        "balanced binary, some in parts",
        Shape::Binary,
        Mix::new(10, 5, 0, 2),
    ),
    ("balanced binary, no parts", Shape::Binary, TREES),
    (
        "parents of 999 leaves, all of kind 3",
        Shape::Wide(999),
        Mix::new(0, 100, 0, 1),
    ),
    (
        "parents of 999 leaves, all of id 0",
        Shape::Wide(999),
        Mix::new(0, 100, 100, 1),
    ),
    ("one chain, no parts", Shape::Chain, TREES),
];

/// Trees alone, a few of them of kind 3.
const TREES: Mix = Mix::new(0, 5, 0, 1);

pub fn run(seed: u64) -> ExitCode {
    run_on_large_stack(move || measure(seed))
}

fn measure(seed: u64) -> ExitCode {
    println!("seed {seed}\n{NOTE}");
    println!(
        "{:40}{:16}{:>10}{:>10}{:>9}{:>9}{:>9}{:>9}{:>9}",
        "shape", "call", "cells in", "cells out", "here", "Rust", "to Rust", "pair", "to pair"
    );
    let mut rng = Rng::new(seed);
    let mut bench = Bench::new();
    for (name, shape, mix) in SHAPES {
        bench.measure(name, &grown(&mut rng, shape, mix));
    }
    ExitCode::SUCCESS
}

/// A tree over a forest of a shape; a balanced one is cut at the nearest power of two.
pub fn grown(rng: &mut Rng, shape: Shape, mix: Mix) -> Handed {
    let stuff = Stuff {
        types: TYPES,
        start: 0,
        gap: 1,
        length: 3,
    };
    let nodes = match shape {
        Shape::Binary => (1 << 20) - 1,
        _ => NODES,
    };
    let records = good_list(rng, &stuff, nodes, shape);
    let mut tree = cases::tree_over(rng, TYPES, &cases::forest(&records), mix);
    tree.first_repeat = TYPES - 20;
    tree.start = 7;
    tree
}

struct Bench {
    oracle: Oracle,
    work: Vec<u32>,
    out: Vec<u32>,
    lines: Vec<u32>,
}

impl Bench {
    fn new() -> Self {
        let items = 2 * NODES;
        Self {
            oracle: Oracle::default(),
            work: vec![1; work_words(items * CELL_WIDTH, 0)],
            out: vec![1; items * CELL_WIDTH],
            lines: vec![1; items * LINE_WIDTH],
        }
    }

    fn measure(&mut self, name: &str, tree: &Handed) {
        let row = Row {
            shape: name,
            cells: tree.cells.len() / CELL_WIDTH,
        };
        for none_first in [0, 1] {
            self.balance(&row, tree, none_first);
        }
        let rust = self.rust(tree, 0);
        let (work, out) = (&mut self.work, &mut self.out);
        let mut info = [0; 3];
        let ours = best(|| calls::materialise(black_box(tree), work, out, &mut info));
        let theirs = best(|| black_box(&rust).materialize());
        row.print("materialise", info[1], ours, theirs, None);
        self.list(&row, tree, &rust, info[1]);
    }

    /// List on a tree of so many cells when materialised, beside the Rust's materialise and walk and beside the pair of calls.
    fn list(&mut self, row: &Row, tree: &Handed, rust: &Tree, count: u32) {
        let (first, start) = (tree.first_repeat, tree.start);
        let walked = |rust: &Tree| {
            let materialised = rust.materialize();
            let lines = lines(&materialised, first, start);
            (materialised, lines)
        };
        let (_, expected) = walked(rust);
        let mut least = [f64::MAX; 3];
        for _ in 0..REPEATS {
            let ours = seconds(|| self.list_straight(tree));
            self.hold(&expected);
            let pair = seconds(|| self.list_materialised(tree));
            self.hold(&expected);
            let theirs = seconds(|| walked(black_box(rust)));
            for (least, time) in least.iter_mut().zip([ours, theirs, pair]) {
                *least = least.min(time * 1e9);
            }
        }
        let [ours, theirs, pair] = least;
        row.print("list", count, ours, theirs, Some(pair));
    }

    fn list_straight(&mut self, tree: &Handed) -> u32 {
        calls::list(
            black_box(tree),
            &mut self.work,
            &mut self.lines,
            &mut [0; 3],
        )
    }

    fn list_materialised(&mut self, tree: &Handed) -> u32 {
        let Self {
            work, out, lines, ..
        } = self;
        let mut info = [0; 3];
        let number = calls::materialise(black_box(tree), work, out, &mut info);
        let cells = &out[..info[1] as usize * CELL_WIDTH];
        number + calls::list_of(tree, cells, &[], work, lines, &mut info)
    }

    /// Stops where other lines were written, and clears them.
    fn hold(&mut self, expected: &[u32]) {
        let written = &mut self.lines[..expected.len()];
        assert_eq!(written, expected, "the lines differ");
        written.fill(1);
    }

    /// The Rust's tree, on a node set without none in place 0 where `none_first` is 0, else on one with it.
    fn rust(&mut self, tree: &Handed, none_first: u32) -> Tree {
        let set = self.oracle.set_with(tree.types, none_first != 0);
        rust_trees::tree_of(tree, &set.expect("a set of few types"))
    }

    fn balance(&mut self, row: &Row, tree: &Handed, none_first: u32) {
        let rust = self.rust(tree, none_first);
        let (work, out) = (&mut self.work, &mut self.out);
        let mut packed = vec![0; tree.words.len()];
        let mut info = [0; 3];
        let ours = best(|| {
            let tree = black_box(tree);
            calls::balance(tree, none_first, work, out, &mut packed, &mut info)
        });
        let (balanced, _) = cells(&rust.balance());
        let mut found = out[..balanced.len()].to_vec();
        if none_first != 0 {
            found = rust_trees::with_id_0_as_none(&found);
        }
        assert_eq!(found, balanced, "the balanced cells differ");
        let theirs = best(|| cells(&black_box(&rust).balance()));
        let call = Call::Balance(none_first).name();
        row.print(call, info[1], ours, theirs, None);
    }
}

/// What the lines of one tree have in common.
struct Row<'a> {
    shape: &'a str,
    cells: usize,
}

impl Row<'_> {
    fn print(&self, call: &str, out: u32, ours: f64, theirs: f64, pair: Option<f64>) {
        let each = |nanoseconds: f64| nanoseconds / f64::from(out);
        print!(
            "{:40}{call:16}{:>10}{out:>10}{:>9.1}{:>9.1}{:>9.2}",
            self.shape,
            self.cells,
            each(ours),
            each(theirs),
            ours / theirs
        );
        match pair {
            Some(pair) => println!("{:>9.1}{:>9.2}", each(pair), ours / pair),
            None => println!(),
        }
    }
}

/// The cells and words of a Rust tree.
fn cells(tree: &Tree) -> (Vec<u32>, Vec<u16>) {
    let (mut cells, mut words) = (Vec::new(), Vec::new());
    write_tree(tree, &NodeType::none(), 0, &mut cells, &mut words);
    (cells, words)
}

fn write_tree(
    tree: &Tree,
    none: &NodeType,
    position: u32,
    cells: &mut Vec<u32>,
    words: &mut Vec<u16>,
) {
    let kind = tree.node_type();
    let (kind, id) = if kind.is(none) {
        (3, 0)
    } else {
        (1, kind.id().into())
    };
    let count = tree.children().len() as u32;
    let first = if count == 0 {
        0
    } else {
        cell_number(cells.len()) + 1
    };
    cells.extend([kind, id, position, tree.len().into(), first, count, 0]);
    let mut before = None;
    for (child, &position) in tree.children().iter().zip(tree.positions()) {
        let at = cells.len();
        if let Some(before) = before {
            cells[before + NEXT] = cell_number(at);
        }
        before = Some(at);
        match child {
            TreeChild::Tree(tree) => write_tree(tree, none, position.into(), cells, words),
            TreeChild::Buffer(part) => {
                let (offset, count) = (words.len() as u32, part.data().len() as u32);
                let (position, length) = (position.into(), part.len().into());
                cells.extend([2, 0, position, length, offset, count, 0]);
                words.extend_from_slice(part.data());
            }
        }
    }
}

/// The lines of a materialised tree, as a walk over the Rust's own finds them.
fn lines(tree: &Tree, first_repeat: u32, start: u32) -> Vec<u32> {
    let mut found = Vec::new();
    let none = NodeType::none();
    walk(tree, &none, first_repeat, start, 0, &mut found);
    found
}

fn walk(
    tree: &Tree,
    none: &NodeType,
    first_repeat: u32,
    start: u32,
    depth: u32,
    found: &mut Vec<u32>,
) {
    for (child, position) in tree.children().iter().zip(tree.positions()) {
        let TreeChild::Tree(child) = child else {
            unreachable!("a materialised tree has no parts");
        };
        let from = start + u32::from(*position);
        let kind = child.node_type();
        let listed = !kind.is(none) && u32::from(kind.id()) < first_repeat;
        if listed {
            let to = from + u32::from(child.len());
            found.extend([depth, kind.id().into(), from, to]);
        }
        let below = depth + u32::from(listed);
        walk(child, none, first_repeat, from, below, found);
    }
}

/// Nanoseconds of a call.
fn best<A>(call: impl FnMut() -> A) -> f64 {
    quickest(REPEATS, f64::MAX, call) * 1e9
}
