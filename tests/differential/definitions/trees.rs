//! Random trees that keep the cell rules, for materialising, listing and balancing.

use std::sync::Arc;

use crate::TextSize;
use crate::flatten::{Flat, flatten};
use crate::rng::Rng;
use crate::tree::{NodeSet, NodeType, Tree, TreeBuffer, TreeChild};
use crate::widths::{CELL_WIDTH, RECORD_WIDTH};

/// A tree, the number of its types, and F and S for a listing of it.
#[derive(Clone)]
pub struct Sample {
    pub types: u32,
    pub first_repeat: u32,
    pub start: u32,
    pub tree: Tree,
}

impl std::fmt::Display for Sample {
    fn fmt(&self, out: &mut std::fmt::Formatter<'_>) -> std::fmt::Result {
        let Flat { cells, words } = flatten(&self.tree);
        let (types, first, start) = (self.types, self.first_repeat, self.start);
        write!(out, "T {types}, F {first}, S {start}, cells")?;
        for cell in cells.chunks(CELL_WIDTH) {
            write!(out, " {cell:?}")?;
        }
        write!(out, ", words {words:?}")
    }
}

/// The cells and packed records of the largest random tree, about.
const MOST: usize = 120;

pub fn random(rng: &mut Rng, sets: &[Arc<NodeSet>]) -> Sample {
    let types = 1 + rng.below(sets.len() - 1) as u32;
    let first_repeat = rng.below(types as usize + 2) as u32;
    let start = rng.pick(&[0, 0, 5, 1_000_000]);
    let scale = rng.pick(&[1, 1, 1, 1, 1, 30, 7_000]);
    let id_0 = rng.pick(&[0, 0, 40, 100]);
    let mut maker = Maker {
        rng,
        set: Arc::clone(&sets[types as usize]),
        left: 0,
        scale,
        id_0,
    };
    Sample {
        types,
        first_repeat,
        start,
        tree: maker.top(),
    }
}

struct Maker<'a> {
    rng: &'a mut Rng,
    set: Arc<NodeSet>,
    /// So many cells and packed records may still be made below a child of the top.
    left: usize,
    /// Lengths are multiplied by it.
    scale: u32,
    /// Of a hundred trees that would be of `NodeType::none` so many have the id 0 instead.
    id_0: usize,
}

/// Children in order with their positions, and where the last one ends.
#[derive(Default)]
struct Row {
    children: Vec<TreeChild>,
    positions: Vec<TextSize>,
    end: u32,
}

impl Row {
    fn push(&mut self, gap: u32, child: TreeChild) {
        let start = self.end + gap;
        self.end = start + u32::from(child.len());
        self.children.push(child);
        self.positions.push(TextSize::new(start));
    }

    /// The children of another row behind these.
    fn extend(&mut self, other: Self) {
        for (child, position) in other.children.into_iter().zip(other.positions) {
            self.push(u32::from(position), child);
        }
    }

    fn tree(self, kind: NodeType, length: u32) -> Tree {
        Tree::new(kind, self.children, self.positions, TextSize::new(length))
    }
}

impl Maker<'_> {
    /// The top: its length is free.
    fn top(&mut self) -> Tree {
        let width = self
            .rng
            .pick(&[0, 1, 3, 8, 9, 9, 10, 11, 12, 15, 16, 17, 20, 33, 60, 80]);
        let favour = self
            .rng
            .pick(&[Favour::Any, Favour::Any, Favour::Leaves, Favour::Pure]);
        let depth = self.rng.pick(&[1, 4, 4, 4, 40]);
        let mut row = Row::default();
        for _ in 0..width {
            self.left = MOST / width;
            row.extend(self.row(1, depth, favour));
        }
        let length = match self.rng.below(6) {
            0 => 0,
            1 => row.end + 7,
            2 => row.end / 2,
            _ => row.end,
        };
        let kind = self.kind();
        row.tree(kind, length)
    }

    fn row(&mut self, width: usize, depth: usize, favour: Favour) -> Row {
        let mut row = Row::default();
        for _ in 0..width {
            if self.left == 0 {
                break;
            }
            self.left -= 1;
            let gap = self.rng.pick(&[0, 0, 0, 1, 3]) * self.scale;
            let child = self.child(depth, favour);
            row.push(gap, child);
        }
        row
    }

    fn child(&mut self, depth: usize, favour: Favour) -> TreeChild {
        let choice = match favour {
            Favour::Leaves => self.rng.pick(&[0, 0, 0, 1]),
            Favour::Pure => self.rng.pick(&[1, 2, 2, 2, 2, 2, 2, 5]),
            Favour::Any => self.rng.below(7),
        };
        match choice {
            _ if depth == 0 => self.leaf(),
            0 => self.leaf(),
            1 => self.anonymous_leaf(),
            2 => {
                let kind = self.none_or_id_0();
                self.inner(kind, depth, Favour::Pure)
            }
            3 => {
                let kind = self.none_or_id_0();
                self.inner(kind, depth, Favour::Any)
            }
            4 => {
                let kind = self.kind();
                self.inner(kind, depth, Favour::Any)
            }
            _ => self.part(),
        }
    }

    fn kind(&mut self) -> NodeType {
        self.set.types()[self.rng.below(self.set.types().len())].clone()
    }

    fn none_or_id_0(&mut self) -> NodeType {
        match self.rng.below(100) < self.id_0 {
            true => self.set.types()[0].clone(),
            false => NodeType::none(),
        }
    }

    fn length(&mut self) -> u32 {
        self.rng.pick(&[0, 0, 1, 1, 2, 5, 9]) * self.scale
    }

    fn leaf(&mut self) -> TreeChild {
        let (kind, length) = (self.kind(), self.length());
        TreeChild::Tree(Row::default().tree(kind, length))
    }

    fn anonymous_leaf(&mut self) -> TreeChild {
        let (kind, length) = (self.none_or_id_0(), self.length());
        TreeChild::Tree(Row::default().tree(kind, length))
    }

    /// A tree whose children end within it.
    fn inner(&mut self, kind: NodeType, depth: usize, favour: Favour) -> TreeChild {
        let width = self.rng.pick(&[0, 1, 1, 2, 3, 4, 5, 9, 14]);
        let row = self.row(width, depth - 1, favour);
        let length = row.end + self.rng.pick(&[0, 0, 1, 4]) * self.scale;
        TreeChild::Tree(row.tree(kind, length))
    }

    /// A part of up to nine records in each other; now and then one without words.
    fn part(&mut self) -> TreeChild {
        let records = self.rng.below(10).min(self.left);
        self.left -= records;
        let mut words = Vec::new();
        let mut end = 0;
        while words.len() < records * RECORD_WIDTH {
            end += self.rng.pick(&[0, 0, 1]);
            let most = records - words.len() / RECORD_WIDTH;
            end = self.packed(&mut words, end, most);
        }
        let length = u32::from(end) + self.rng.pick(&[0, 0, 2]);
        let set = Arc::clone(&self.set);
        TreeChild::Buffer(TreeBuffer::new(words, TextSize::new(length), set))
    }

    /// One packed record with descendants, `most` records at most; where it ends.
    fn packed(&mut self, words: &mut Vec<u16>, start: u16, most: usize) -> u16 {
        let at = words.len();
        let id = self.rng.below(self.set.types().len()) as u16;
        words.extend([id, start, 0, 0]);
        let mut end = start;
        while (words.len() - at) / RECORD_WIDTH < most && self.rng.one_in(2) {
            end += self.rng.pick(&[0, 0, 1, 2]);
            let left = most - (words.len() - at) / RECORD_WIDTH;
            end = self.packed(words, end, left);
        }
        end += self.rng.pick(&[0, 0, 1, 2, 6]);
        words[at + 2] = end;
        words[at + 3] = words.len() as u16;
        end
    }
}

/// Which children are made more often.
#[derive(Clone, Copy)]
enum Favour {
    Any,
    Leaves,
    /// Trees of `NodeType::none`, or of id 0, all the way down, which balancing divides.
    Pure,
}
