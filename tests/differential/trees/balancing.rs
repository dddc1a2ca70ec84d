//! Document 01's balancing, read word for word and computed in the plainest way. Nothing here is shared with the library
//! or the Rust.
//!
//! `none_first` says that place 0 of the node set is none: a tree of kind 1 with id 0 is then of the none type, as one of
//! kind 3 is.

use crate::widths::{CELL_WIDTH, COUNT, FIRST, ID, KIND, LENGTH, NEXT, POSITION, cell_number};

/// Trees with up to so many children are left untouched.
const UNTOUCHED: usize = 8;

/// The cells of an accepted tree, balanced. Its packed words stay as they are.
pub fn balanced(none_first: bool, cells: &[u32]) -> Vec<u32> {
    let mut balancing = Balancing::new(none_first, cells);
    let top = balancing.top();
    let mut out = Vec::new();
    balancing.write(&mut out, (0, top), true);
    out
}

/// Where a child starts in the tree around it, and its number among the nodes.
type Child = (u32, usize);

struct Node {
    kind: u32,
    id: u32,
    length: u32,
    /// The word offset and the number of words of a part.
    part: [u32; 2],
    children: Vec<Child>,
}

struct Balancing {
    none_first: bool,
    /// A node for each cell, in the order of the cells, and behind them those that are made.
    nodes: Vec<Node>,
    /// The balanced size of each cell's node.
    sizes: Vec<u64>,
}

impl Balancing {
    fn new(none_first: bool, cells: &[u32]) -> Self {
        let nodes = cells.chunks(CELL_WIDTH).map(|cell| read(cells, cell));
        let mut balancing = Self {
            none_first,
            nodes: nodes.collect(),
            sizes: Vec::new(),
        };
        balancing.measure();
        balancing
    }

    fn is_none(&self, node: usize) -> bool {
        let Node { kind, id, .. } = self.nodes[node];
        kind == 3 || (self.none_first && kind == 1 && id == 0)
    }

    /// "Balanced size: 1, or, for a tree of the balance type with children that are all trees of it, 1 plus their sizes."
    /// A child stands behind its parent, so one pass from the last cell is enough.
    fn measure(&mut self) {
        self.sizes = vec![1; self.nodes.len()];
        for node in (0..self.nodes.len()).rev() {
            let children = &self.nodes[node].children;
            if self.is_none(node) && children.iter().all(|&(_, child)| self.is_none(child)) {
                self.sizes[node] = 1 + self.total(children);
            }
        }
    }

    fn total(&self, children: &[Child]) -> u64 {
        children.iter().map(|&(_, child)| self.sizes[child]).sum()
    }

    /// "`Tree::balance` leaves up to 8 children untouched." The number of the tree that is left or made.
    fn top(&mut self) -> usize {
        let Node {
            kind, id, length, ..
        } = self.nodes[0];
        let children = self.nodes[0].children.clone();
        match children.len() <= UNTOUCHED {
            true => 0,
            false => self.made([kind, id, length], &children, 0),
        }
    }

    /// The tree of a kind, id and length over children, balanced "over its own total"; it starts at `start` in the tree
    /// around them. "A result with one tree at 0 of equal type and length becomes that tree."
    fn made(&mut self, [kind, id, length]: [u32; 3], children: &[Child], start: u32) -> usize {
        let share = (3 * self.total(children)).div_ceil(16);
        let mut found = Vec::new();
        self.divide(children, 0, share, &mut found);
        for child in &mut found {
            child.0 -= start;
        }
        let only = match found[..] {
            [(0, only)] if self.nodes[only].length == length => Some(only),
            _ => None,
        };
        let made = self.nodes.len();
        self.nodes.push(Node {
            kind,
            id,
            length,
            part: [0, 0],
            children: found,
        });
        match only {
            Some(only) if self.same_type(only, made) => only,
            _ => made,
        }
    }

    fn same_type(&self, one: usize, other: usize) -> bool {
        let told = |node: usize| (self.nodes[node].kind, self.nodes[node].id);
        (self.is_none(one) && self.is_none(other)) || told(one) == told(other)
    }

    /// "A group grows while its sum plus the next is below the share. A lone child stays, or is divided in place if above the
    /// share. Several become an inner tree". `offset` is where the tree of the children starts in that of the result.
    fn divide(&mut self, children: &[Child], offset: u32, share: u64, found: &mut Vec<Child>) {
        let mut rest = children;
        while let Some(&(start, first)) = rest.first() {
            let grows = |&count: &usize| self.total(&rest[..count]) < share;
            let count = 1 + (2..=rest.len()).take_while(grows).count();
            let (group, behind) = rest.split_at(count);
            if count > 1 {
                let inner = self.inner(group);
                found.push((start + offset, inner));
            } else if self.sizes[first] > share {
                let below = self.nodes[first].children.clone();
                self.divide(&below, start + offset, share, found);
            } else {
                found.push((start + offset, first));
            }
            rest = behind;
        }
    }

    /// "It runs from its first child's start to its last one's end and has the balance type": kind 3, on either set.
    fn inner(&mut self, group: &[Child]) -> usize {
        let (start, (last, node)) = (group[0].0, group[group.len() - 1]);
        let length = last + self.nodes[node].length - start;
        self.made([3, 0, length], group, start)
    }

    /// The cells of a node and its descendants. `last`: no sibling follows.
    fn write(&self, out: &mut Vec<u32>, (position, node): Child, last: bool) {
        let at = out.len();
        let Node {
            kind,
            id,
            length,
            part,
            children,
        } = &self.nodes[node];
        let [first, count] = match (kind, children.len()) {
            (2, _) => *part,
            (_, 0) => [0, 0],
            (_, count) => [cell_number(at) + 1, count as u32],
        };
        out.extend([*kind, *id, position, *length, first, count, 0]);
        for (index, child) in children.iter().enumerate() {
            self.write(out, *child, index + 1 == children.len());
        }
        if !last {
            out[at + NEXT] = cell_number(out.len());
        }
    }
}

fn read(cells: &[u32], cell: &[u32]) -> Node {
    let mut children = Vec::new();
    if cell[KIND] != 2 {
        let mut next = cell[FIRST] as usize;
        while next != 0 {
            let child = &cells[(next - 1) * CELL_WIDTH..];
            children.push((child[POSITION], next - 1));
            next = child[NEXT] as usize;
        }
    }
    Node {
        kind: cell[KIND],
        id: cell[ID],
        length: cell[LENGTH],
        part: [cell[FIRST], cell[COUNT]],
        children,
    }
}
