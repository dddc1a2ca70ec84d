//! What the trees of a run held, to see that no shape is missing.

use crate::Tree;
use crate::trees::damage;
use crate::trees::model::Handed;
use crate::trees::rust_trees;
use crate::widths::{CELL_WIDTH, COUNT, FIRST, ID, KIND, NEXT, RECORD_WIDTH};

/// A build keeps lists of so many levels whole.
const LEVELS: usize = 2_503;

/// Of the accepted trees, but for the numbers of all and of those with parts.
#[derive(Default)]
pub struct Seen {
    pub trees: u64,
    with_parts: u64,
    accepted: u64,
    cells: u64,
    parts: u64,
    none: u64,
    records: u64,
    /// Without parts, and with them.
    lists: [Listed; 2],
    late: Late,
    /// On the node set without none in place 0, and on the one with it.
    pub sets: [OnSet; 2],
    /// Trees that balancing changes otherwise on the two sets.
    otherwise: u64,
    /// Trees of which balancing on the set with none leaves out a tree of id 0.
    fewer: u64,
    id_0: Places,
}

/// Trees that went through balance on one node set, and those of them that were accepted and that it changed.
#[derive(Default)]
pub struct OnSet {
    pub trees: u64,
    accepted: u64,
    changed: u64,
}

/// Trees that list took, their lines, and those of them that are nested deeper than lists that a build keeps whole.
#[derive(Default)]
struct Listed {
    trees: u64,
    lines: u64,
    deep: u64,
}

/// Trees that list refuses with 15 by their start alone, by the cell of the place.
#[derive(Default)]
struct Late {
    tree: u64,
    none: u64,
    part: u64,
    /// Those of the parts whose records all end in time.
    sooner: u64,
    empty_part: u64,
}

/// Trees with a cell of kind 1 and id 0: the top, a child of it, a cell further in.
#[derive(Default)]
struct Places {
    top: u64,
    child: u64,
    inner: u64,
}

impl Seen {
    /// Any tree.
    pub fn hand_in(&mut self, tree: &Handed) {
        self.trees += 1;
        self.with_parts += u64::from(has_parts(tree));
    }

    /// A tree that list takes, the Rust's materialised tree, and the lines.
    pub fn listed(&mut self, tree: &Handed, rust: &Tree, lines: usize) {
        let items = tree.cells.len() / CELL_WIDTH + tree.words.len() / RECORD_WIDTH;
        let deep = items > LEVELS && rust_trees::levels(rust) > LEVELS;
        let listed = &mut self.lists[usize::from(has_parts(tree))];
        listed.trees += 1;
        listed.lines += lines as u64;
        listed.deep += u64::from(deep);
    }

    /// A tree that list refuses by its start alone, with this place.
    pub fn late(&mut self, tree: &Handed, place: usize) {
        let cell = &tree.cells[(place - 1) * CELL_WIDTH..];
        let count = match cell[KIND] {
            1 => &mut self.late.tree,
            3 => &mut self.late.none,
            _ if cell[COUNT] == 0 => &mut self.late.empty_part,
            _ => &mut self.late.part,
        };
        *count += 1;
        if cell[KIND] == 2 && cell[COUNT] > 0 {
            let from = damage::starts(&tree.cells)[place - 1];
            let words = &tree.words[cell[FIRST] as usize..][..cell[COUNT] as usize];
            let ends = words.chunks(RECORD_WIDTH).map(|record| record[2]);
            let end = u32::from(ends.max().unwrap_or(0));
            let in_time = u64::from(tree.start) + u64::from(from) + u64::from(end);
            self.late.sooner += u64::from(in_time <= u64::from(u32::MAX));
        }
    }

    /// An accepted tree.
    pub fn note(&mut self, tree: &Handed) {
        let cells = || tree.cells.chunks(CELL_WIDTH);
        let of_kind = |kind| cells().filter(|cell| cell[KIND] == kind).count() as u64;
        self.accepted += 1;
        self.cells += cells().count() as u64;
        self.parts += of_kind(2);
        self.none += of_kind(3);
        self.records += (tree.words.len() / RECORD_WIDTH) as u64;
        self.id_0.note(&tree.cells);
    }

    /// An accepted tree, and its cells as they are balanced on the two sets.
    pub fn balanced(&mut self, tree: &Handed, results: [&[u32]; 2]) {
        for (set, cells) in self.sets.iter_mut().zip(results) {
            set.accepted += 1;
            set.changed += u64::from(cells != tree.cells);
        }
        let [without, with] = results;
        self.otherwise += u64::from(without != with);
        self.fewer += u64::from(ids_0(with) < ids_0(&tree.cells));
    }
}

impl Places {
    fn note(&mut self, cells: &[u32]) {
        let mut children = 0;
        let mut child = cells[FIRST] as usize;
        while child != 0 {
            let cell = &cells[(child - 1) * CELL_WIDTH..];
            children += usize::from(is_id_0(cell));
            child = cell[NEXT] as usize;
        }
        let top = usize::from(is_id_0(cells));
        self.top += top as u64;
        self.child += u64::from(children > 0);
        self.inner += u64::from(ids_0(cells) > top + children);
    }
}

fn has_parts(tree: &Handed) -> bool {
    let mut cells = tree.cells.chunks(CELL_WIDTH);
    cells.any(|cell| cell[KIND] == 2)
}

fn is_id_0(cell: &[u32]) -> bool {
    cell[KIND] == 1 && cell[ID] == 0
}

fn ids_0(cells: &[u32]) -> usize {
    let cells = cells.chunks(CELL_WIDTH);
    cells.filter(|cell| is_id_0(cell)).count()
}

impl std::fmt::Display for Late {
    fn fmt(&self, out: &mut std::fmt::Formatter<'_>) -> std::fmt::Result {
        let Self {
            tree,
            none,
            part,
            sooner,
            empty_part,
        } = self;
        write!(out, "list refused with 15 by the start alone: {tree} at ")?;
        write!(out, "a tree, {none} at one of kind 3, {part} at a part ")?;
        write!(out, "({sooner} of which all records end in time), ")?;
        write!(out, "{empty_part} at an empty part")
    }
}

impl std::fmt::Display for Seen {
    fn fmt(&self, out: &mut std::fmt::Formatter<'_>) -> std::fmt::Result {
        write!(
            out,
            "{} trees, {} with parts; ",
            self.trees, self.with_parts
        )?;
        write!(
            out,
            "{} accepted by materialise and balance; ",
            self.accepted
        )?;
        write!(out, "in these {} cells, {} parts ", self.cells, self.parts)?;
        write!(
            out,
            "of {} records, {} trees of kind 3",
            self.records, self.none
        )?;
        for (listed, which) in self.lists.iter().zip(["without", "with"]) {
            let Listed { trees, lines, deep } = listed;
            write!(out, "\nlist took {trees} trees {which} parts, ")?;
            write!(out, "{lines} lines; {deep} deeper than {LEVELS} levels")?;
        }
        writeln!(out, "\n{}", self.late)?;
        let Places { top, child, inner } = self.id_0;
        write!(out, "accepted trees with id 0: {top} in the top, ")?;
        writeln!(out, "{child} in a child of it, {inner} further in")?;
        for (set, which) in self.sets.iter().zip(["without", "with"]) {
            write!(out, "balance on the set {which} none in place 0: ")?;
            let OnSet {
                trees,
                accepted,
                changed,
            } = set;
            writeln!(out, "{trees} trees, {accepted} accepted, {changed} changed")?;
        }
        write!(out, "the two sets differ in {}; ", self.otherwise)?;
        write!(out, "a tree of id 0 is left out in {}", self.fewer)
    }
}
