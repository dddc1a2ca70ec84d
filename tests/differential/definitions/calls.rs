//! Calls of list on trees that are handed in, good and bad ones, with slices that are large enough or too short.

use std::sync::Arc;

use crate::flatten;
use crate::handed::damage;
use crate::handed::model::{self, Handed, Verdict};
use crate::handed::rust_trees;
use crate::rng::Rng;
use crate::tree::NodeSet;
use crate::trees;
use crate::widths::{CELL_WIDTH, LINE_WIDTH};

/// The most types that a node set has.
const MOST_TYPES: u32 = 65_536;

/// A tree as it is handed in, and the words of the work slice and of the output.
#[derive(Clone)]
pub struct Call {
    pub tree: Handed,
    pub work: usize,
    pub room: usize,
}

impl std::fmt::Display for Call {
    fn fmt(&self, out: &mut std::fmt::Formatter<'_>) -> std::fmt::Result {
        let Handed {
            types,
            first_repeat,
            start,
            cells,
            words,
        } = &self.tree;
        write!(
            out,
            "list: T {types}, F {first_repeat}, S {start}, work {}, room {}, cells",
            self.work, self.room
        )?;
        for cell in cells.chunks(CELL_WIDTH) {
            write!(out, " {cell:?}")?;
        }
        write!(out, ", words {words:?}")
    }
}

impl Call {
    /// What list answers, and the words that it writes.
    pub fn answer(&self, sets: &[Arc<NodeSet>]) -> (Verdict, Vec<u64>) {
        let tree = &self.tree;
        let need = model::work_words(tree.cells.len(), tree.words.len());
        let bad = model::bad_cell(tree.types, tree.start, &tree.cells, &tree.words);
        if let Some(verdict) = model::early(tree.types, need, self.work, bad) {
            return (verdict, Vec::new());
        }
        let lines = lines(tree, sets);
        match self.room < lines.len() {
            true => (model::refused(14, 0), Vec::new()),
            false => (model::accepted([lines.len() / LINE_WIDTH, 0]), lines),
        }
    }
}

/// The lines of the Rust's tree of accepted cells.
fn lines(tree: &Handed, sets: &[Arc<NodeSet>]) -> Vec<u64> {
    let set = &sets[(tree.types as usize).min(sets.len() - 1)];
    let rust = rust_trees::tree_of(tree, set).materialize();
    flatten::lines(&rust, tree.first_repeat, tree.start)
}

/// A random call. Half of the trees are damaged or end near the last position of 32 bits; few of the slices are too short.
pub fn random(rng: &mut Rng, sets: &[Arc<NodeSet>]) -> Call {
    let sample = trees::random(rng, sets);
    let (cells, words) = rust_trees::cells_of(&sample.tree);
    let mut tree = Handed {
        types: sample.types,
        first_repeat: sample.first_repeat,
        start: sample.start,
        cells,
        words,
    };
    let lines = lines(&tree, sets).len();
    match rng.below(9) {
        0 | 1 => tree = damage::damaged(rng, &tree),
        2..5 => tree.start = damage::late_start(rng, &tree),
        5 => {
            tree.start = damage::late_start(rng, &tree);
            tree = damage::damaged(rng, &tree);
        }
        6 => {
            let fewer = tree.types - 1;
            tree.types = rng.pick(&[0, fewer, MOST_TYPES, MOST_TYPES + 1, u32::MAX]);
        }
        _ => {}
    }
    let need = model::work_words(tree.cells.len(), tree.words.len());
    Call {
        tree,
        work: pick_mostly(rng, need, &[need + 1, need - 1, 0]),
        room: pick_mostly(rng, lines, &[lines + 3, lines.saturating_sub(1), 0]),
    }
}

/// One number four times in five, else one of the others.
fn pick_mostly(rng: &mut Rng, most: usize, others: &[usize]) -> usize {
    match rng.one_in(5) {
        true => rng.pick(others),
        false => most,
    }
}
