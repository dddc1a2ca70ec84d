//! The Rust's trees out of cells, and its answers on them as cells, words and lines.

use std::sync::Arc;

use super::model::Handed;
use crate::TextSize;
use crate::flatten::{Flat, flatten, flatten_by};
use crate::tree::{NodeSet, NodeType, Tree, TreeBuffer, TreeChild};
use crate::widths::{CELL_WIDTH, COUNT, FIRST, ID, KIND, LENGTH, NEXT, POSITION};

/// The tree that cells and words stand for, where they keep the cell rules.
pub fn tree_of(tree: &Handed, set: &Arc<NodeSet>) -> Tree {
    Reader { tree, set }.tree(1)
}

struct Reader<'a> {
    tree: &'a Handed,
    set: &'a Arc<NodeSet>,
}

impl Reader<'_> {
    fn cell(&self, number: usize) -> &[u32] {
        let end = number * CELL_WIDTH;
        &self.tree.cells[end - CELL_WIDTH..end]
    }

    fn tree(&self, number: usize) -> Tree {
        let cell = self.cell(number);
        let kind = match cell[KIND] {
            3 => NodeType::none(),
            _ => self.set.types()[cell[ID] as usize].clone(),
        };
        let mut children = Vec::new();
        let mut positions = Vec::new();
        let mut child = cell[FIRST] as usize;
        while child != 0 {
            children.push(self.child(child));
            positions.push(TextSize::new(self.cell(child)[POSITION]));
            child = self.cell(child)[NEXT] as usize;
        }
        Tree::new(kind, children, positions, TextSize::new(cell[LENGTH]))
    }

    fn child(&self, number: usize) -> TreeChild {
        let cell = self.cell(number);
        if cell[KIND] != 2 {
            return TreeChild::Tree(self.tree(number));
        }
        let (from, count) = (cell[FIRST] as usize, cell[COUNT] as usize);
        let words = self.tree.words[from..from + count].to_vec();
        let length = TextSize::new(cell[LENGTH]);
        TreeChild::Buffer(TreeBuffer::new(words, length, Arc::clone(self.set)))
    }
}

/// How many levels of trees there are below the top of a tree without packed parts.
pub fn levels(tree: &Tree) -> usize {
    let below = tree.children().iter().map(|child| match child {
        TreeChild::Tree(child) => 1 + levels(child),
        TreeChild::Buffer(_) => panic!("a packed part in a materialised tree"),
    });
    below.max().unwrap_or(0)
}

/// Cells and words of a Rust tree, at the widths of the calls.
pub fn cells_of(tree: &Tree) -> (Vec<u32>, Vec<u16>) {
    narrowed(&flatten(tree))
}

/// The same of a tree that was built: each of its trees is of kind 1, also on a set with none in place 0.
pub fn built_cells(tree: &Tree) -> (Vec<u32>, Vec<u16>) {
    narrowed(&flatten_by(tree, |tree| (1, tree.node_type().id().into())))
}

/// Cells and words at the widths of the calls.
pub fn narrowed(flat: &Flat) -> (Vec<u32>, Vec<u16>) {
    let words = flat.words.iter().map(|&word| word as u16);
    (narrow(&flat.cells), words.collect())
}

/// Cells with each tree of id 0 as one of kind 3, as they are alike on a set with none in place 0.
pub fn with_id_0_as_none(cells: &[u32]) -> Vec<u32> {
    let mut alike = cells.to_vec();
    for cell in alike.chunks_mut(CELL_WIDTH) {
        if cell[KIND] == 1 && cell[ID] == 0 {
            cell[KIND] = 3;
        }
    }
    alike
}

/// Numbers as 32-bit words; every one fits.
pub fn narrow(numbers: &[u64]) -> Vec<u32> {
    let word = |&number: &u64| u32::try_from(number).expect("a number of 32 bits");
    numbers.iter().map(word).collect()
}
