//! The Rust's trees as document 01's cells and packed words, and the lines of a walk over one.

use crate::TextSize;
use crate::tree::{NodeType, Tree, TreeChild};
use crate::widths::{CELL_WIDTH, NEXT};

/// Cells, `CELL_WIDTH` words each, and packed words.
#[derive(Clone, Debug, Default, PartialEq)]
pub struct Flat {
    pub cells: Vec<u64>,
    pub words: Vec<u64>,
}

/// The kind and the id of a tree.
pub type KindAndId = (u64, u64);

pub fn flatten(tree: &Tree) -> Flat {
    flatten_by(tree, |tree| kind_and_id(tree.node_type()))
}

/// The same with the kind and id that each tree is told to have.
pub fn flatten_by(tree: &Tree, told: impl Fn(&Tree) -> KindAndId) -> Flat {
    let flat = Flat::default();
    let mut writer = Writer { flat, told };
    writer.tree(tree, 0, true);
    writer.flat
}

struct Writer<K> {
    flat: Flat,
    told: K,
}

impl<K: Fn(&Tree) -> KindAndId> Writer<K> {
    /// The cell of a tree, then the cells of its descendants. `last`: no sibling follows.
    fn tree(&mut self, tree: &Tree, position: u64, last: bool) {
        let at = self.flat.cells.len();
        let (kind, id) = (self.told)(tree);
        let count = tree.children().len();
        let first = if count == 0 { 0 } else { number(at) + 1 };
        let length = value(tree.len());
        let cell = [kind, id, position, length, first, count as u64, 0];
        self.flat.cells.extend(cell);
        for (index, child) in tree.children().iter().enumerate() {
            let position = value(tree.positions()[index]);
            self.child(child, position, index + 1 == count);
        }
        self.link(at, last);
    }

    fn child(&mut self, child: &TreeChild, position: u64, last: bool) {
        let buffer = match child {
            TreeChild::Tree(tree) => return self.tree(tree, position, last),
            TreeChild::Buffer(buffer) => buffer,
        };
        let Flat { cells, words } = &mut self.flat;
        let at = cells.len();
        let (offset, count) = (words.len() as u64, buffer.data().len() as u64);
        cells.extend([2, 0, position, value(buffer.len()), offset, count, 0]);
        words.extend(buffer.data().iter().map(|&word| u64::from(word)));
        self.link(at, last);
    }

    /// The word `next` of the cell at a word offset: the cell after its last descendant, where a sibling follows.
    fn link(&mut self, at: usize, last: bool) {
        let cells = &mut self.flat.cells;
        if !last {
            cells[at + NEXT] = number(cells.len());
        }
    }
}

/// Kind 3 is for the one type that `NodeType::none` gives, whatever other types are named or numbered alike.
pub fn kind_and_id(kind: &NodeType) -> KindAndId {
    match kind.is(&NodeType::none()) {
        true => (3, 0),
        false => (1, kind.id().into()),
    }
}

/// The number of the cell at a word offset.
fn number(at: usize) -> u64 {
    (at / CELL_WIDTH + 1) as u64
}

fn value(size: TextSize) -> u64 {
    u32::from(size).into()
}

/// Kind, id, absolute start, length and number of children of each cell; a part has no children.
pub fn outline(tree: &Tree) -> Vec<u64> {
    let mut found = Vec::new();
    outline_from(tree, 0, &mut found);
    found
}

fn outline_from(tree: &Tree, start: u64, found: &mut Vec<u64>) {
    let (kind, id) = kind_and_id(tree.node_type());
    let count = tree.children().len() as u64;
    found.extend([kind, id, start, value(tree.len()), count]);
    for (child, position) in tree.children().iter().zip(tree.positions()) {
        let start = start + value(*position);
        match child {
            TreeChild::Tree(kid) => outline_from(kid, start, found),
            TreeChild::Buffer(buffer) => found.extend([2, 0, start, value(buffer.len()), 0]),
        }
    }
}

/// The lines of a tree without packed parts: depth, id, start and end, the top, repeat ids and kind 3 left out.
pub fn lines(tree: &Tree, first_repeat: u32, start: u32) -> Vec<u64> {
    let mut found = Vec::new();
    walk(tree, first_repeat, start.into(), 0, &mut found);
    found
}

fn walk(tree: &Tree, first_repeat: u32, start: u64, depth: u64, found: &mut Vec<u64>) {
    for (child, position) in tree.children().iter().zip(tree.positions()) {
        let TreeChild::Tree(child) = child else {
            panic!("a packed part in a materialised tree");
        };
        let from = start + value(*position);
        let mut below = depth;
        let kind = child.node_type();
        if !kind.is(&NodeType::none()) && u32::from(kind.id()) < first_repeat {
            found.extend([depth, kind.id().into(), from, from + value(child.len())]);
            below += 1;
        }
        walk(child, first_repeat, from, below, found);
    }
}
