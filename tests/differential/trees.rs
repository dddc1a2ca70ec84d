//! The runs over the tree calls: short slices of cells, all of them; large trees; random and damaged ones.

mod balancing;
pub mod bench;
mod cases;
mod compare;
mod damage;
pub mod model;
pub mod rust_trees;
pub mod sample;
mod seen;
mod short;

use std::process::ExitCode;
use std::sync::Arc;

use self::cases::Mix;
use self::compare::TreeSession;
use self::model::Handed;
use self::rust_trees::cells_of;
use crate::lists::cases::{Shape, Stuff, any_shape};
use crate::oracle::{Oracle, run_on_large_stack};
use crate::report::Run;
use crate::rng::Rng;
use crate::shapes;
use crate::tree::NodeSet;
use crate::widths::{CELL_WIDTH, LENGTH};
use crate::{Tree, random_lists};

/// Damaged copies of each random tree.
const COPIES: usize = 3;

/// Compares so many random trees, beside short and large ones.
pub fn run(seed: u64, cases: u64) -> ExitCode {
    run_on_large_stack(move || compare(seed, cases))
}

fn compare(seed: u64, cases: u64) -> ExitCode {
    println!(
        "seed {seed}, {cases} random trees with {COPIES} damaged copies and one with a late start each"
    );
    let mut session = TreeSession::default();
    let mut rng = Rng::new(seed);
    let sets = small_sets(session.oracle());
    session.section("short slices of cells, all of them", short::run);
    session.section("large trees", |session| large(session, &mut rng));
    session.section("deep trees", |session| deep(session, &mut rng));
    session.section("random and damaged trees", |session| {
        for _ in 0..cases {
            random(session, &mut rng, &sets);
        }
    });
    let status = session.tally.finish();
    println!("{}", session.seen);
    status
}

/// The sets of up to six types that Rust trees of random shapes are made of.
pub fn small_sets(oracle: &mut Oracle) -> Vec<Arc<NodeSet>> {
    let set = |types| oracle.set(types).expect("a set of few types");
    (0..=6).map(set).collect()
}

/// A random tree, copies that are damaged or handed in with other numbers, and copies with a start at the limit.
fn random(session: &mut TreeSession, rng: &mut Rng, sets: &[Arc<NodeSet>]) {
    let tree = any_tree(session.oracle(), rng, sets);
    session.check(&tree);
    for _ in 0..COPIES {
        let mut copy = damage::damaged(rng, &tree);
        if rng.one_in(10) {
            copy = tree.clone();
            renumber(rng, &mut copy);
        }
        session.check(&copy);
    }
    let mut late = tree.clone();
    late.start = damage::late_start(rng, &tree);
    session.check_list(&late);
    if rng.one_in(4) {
        session.check_list(&damage::damaged(rng, &late));
    }
}

/// Other numbers for the same cells: types around the boundaries, another start.
fn renumber(rng: &mut Rng, tree: &mut Handed) {
    let types = tree.types;
    let lengths = tree.cells.chunks(CELL_WIDTH).map(|cell| cell[LENGTH]);
    let end = lengths.max().unwrap_or(0);
    match rng.below(3) {
        0 => tree.types = rng.pick(&[0, types - 1, types + 1, 65_537, u32::MAX]),
        1 => tree.start = rng.pick(&[u32::MAX, u32::MAX - end, (u32::MAX - end).wrapping_add(1)]),
        _ => tree.first_repeat = rng.pick(&[0, 1, types, types + 1, u32::MAX]),
    }
}

/// A tree written as cells, a Rust tree of a random shape, or one that the Rust builds.
pub fn any_tree(oracle: &mut Oracle, rng: &mut Rng, sets: &[Arc<NodeSet>]) -> Handed {
    match rng.below(10) {
        0..4 => written(rng),
        4..7 => {
            let sample = shapes::random(rng, sets);
            handed(
                sample.types,
                sample.first_repeat,
                sample.start,
                &sample.tree,
            )
        }
        _ => built(oracle, rng),
    }
}

fn handed(types: u32, first_repeat: u32, start: u32, tree: &Tree) -> Handed {
    let (cells, words) = cells_of(tree);
    Handed {
        types,
        first_repeat,
        start,
        cells,
        words,
    }
}

fn written(rng: &mut Rng) -> Handed {
    let stuff = Stuff::any(rng, &[0, 1, 3, 20, 20_000, 100_000_000]);
    let most = rng.pick(&[1, 4, 12, 40, 120, 400]);
    let (nodes, shape) = (rng.below(most + 1), any_shape(rng));
    let mix = cases::any_mix(rng);
    cases::good_tree(rng, &stuff, nodes, shape, mix)
}

/// The tree of a random record list, with the numbers of its build.
fn built(oracle: &mut Oracle, rng: &mut Rng) -> Handed {
    let list = random_lists::random(rng);
    let set = oracle.set(list.types).expect("types of a list");
    let tree = Tree::build(&list.build(list.records(), set));
    handed(list.types, list.first_repeat, list.start, &tree)
}

/// Thousands of cells, wide and deep, and parts of as many records as end indices reach; damaged copies.
fn large(session: &mut TreeSession, rng: &mut Rng) {
    let shapes = [
        Shape::Flat,
        Shape::Chain,
        Shape::Mixed(60, 5),
        Shape::Wide(999),
        Shape::Binary,
    ];
    let stuff = Stuff {
        types: 300,
        start: 0,
        gap: 1,
        length: 2,
    };
    let mixes = [
        Mix::new(0, 0, 0, 1),
        Mix::new(0, 90, 0, 1),
        Mix::new(0, 100, 60, 1),
        Mix::new(2, 10, 50, 16_383),
        Mix::new(100, 0, 0, 16_383),
        Mix::new(30, 30, 30, 7),
    ];
    for shape in shapes {
        for mix in mixes {
            for nodes in [1_000, 16_383, 16_384] {
                let tree = cases::good_tree(rng, &stuff, nodes, shape, mix);
                session.check(&tree);
                session.check(&damage::damaged(rng, &tree));
            }
        }
    }
}

/// Trees nested deeper than lists that a build keeps whole: trees each in the next, and in the last of them packed records each in
/// the next, up to as many as a part holds; damaged copies, and copies with a start at the limit.
fn deep(session: &mut TreeSession, rng: &mut Rng) {
    for trees in [1, 2_503, 2_504, 5_000, 20_000] {
        for records in [0, 1, 100, 2_504, 16_383] {
            for _ in 0..2 {
                let mix = Mix {
                    parts: if records == 0 { 0 } else { 100 },
                    none: rng.pick(&[0, 50, 100]),
                    id_0: 20,
                    run: 1 + rng.below(3),
                };
                let types = rng.pick(&[2, 300, 65_536]);
                let forest = cases::nested(rng, types, trees, records);
                let mut tree = cases::tree_over(rng, types, &forest, mix);
                session.check(&tree);
                session.check(&damage::damaged(rng, &tree));
                tree.start = damage::late_start(rng, &tree);
                session.check_list(&tree);
            }
        }
    }
}
