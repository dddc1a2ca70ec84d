//! Random accepted record lists, with the numbers that are given with them.

use std::sync::Arc;

use crate::TextSize;
use crate::forests::{MOST_RECORDS, Maker, Node, count};
use crate::rng::Rng;
use crate::tree::{NodeSet, TreeBuild};
use crate::widths::RECORD_WIDTH;

/// A record list and what a build is given with it, in document 01's letters: T, F, b, S, top id, length.
#[derive(Clone, Debug)]
pub struct List {
    pub types: u32,
    pub first_repeat: u32,
    pub bound: u32,
    pub start: u32,
    pub top: u32,
    pub given: Option<u32>,
    pub forest: Vec<Node>,
}

impl std::fmt::Display for List {
    fn fmt(&self, out: &mut std::fmt::Formatter<'_>) -> std::fmt::Result {
        let (types, first, bound) = (self.types, self.first_repeat, self.bound);
        write!(
            out,
            "T {types}, F {first}, b {bound}, S {}, top {}, ",
            self.start, self.top
        )?;
        match self.given {
            Some(length) => write!(out, "length {length}, records")?,
            None => write!(out, "no length, records")?,
        }
        for it in self.records().chunks(RECORD_WIDTH) {
            write!(out, " ({},{},{},{})", it[0], it[1], it[2], it[3])?;
        }
        Ok(())
    }
}

impl List {
    /// No records, under the top id 0.
    pub fn empty(types: u32, first_repeat: u32, bound: u32) -> Self {
        Self {
            types,
            first_repeat,
            bound,
            start: 0,
            top: 0,
            given: None,
            forest: Vec::new(),
        }
    }

    /// The records: id, start, end, size, children before parents.
    pub fn records(&self) -> Vec<u32> {
        let mut words = Vec::new();
        write_records(&self.forest, &mut words);
        words
    }

    /// The Rust's build of records with the numbers of this list.
    pub fn build(&self, records: Vec<u32>, set: Arc<NodeSet>) -> TreeBuild {
        let mut build = TreeBuild::new(records, set, self.top as u16);
        build.start = TextSize::new(self.start);
        build.length = self.given.map(TextSize::new);
        build.max_buffer_length = TextSize::new(self.bound);
        build.min_repeat_type = self.first_repeat as usize;
        build
    }

    /// The ordinary reading: lines of depth, id, start, end.
    pub fn reading(&self) -> Vec<u64> {
        let mut lines = Vec::new();
        read(&self.forest, self.first_repeat, 0, &mut lines);
        lines
    }
}

fn write_records(forest: &[Node], words: &mut Vec<u32>) {
    for node in forest {
        let before = words.len();
        write_records(&node.kids, words);
        let size = words.len() - before + RECORD_WIDTH;
        words.extend([node.id, node.start, node.end, size as u32]);
    }
}

fn read(forest: &[Node], first_repeat: u32, depth: u64, lines: &mut Vec<u64>) {
    for node in forest {
        let mut below = depth;
        if node.id < first_repeat {
            lines.extend([depth, node.id.into(), node.start.into(), node.end.into()]);
            below += 1;
        }
        read(&node.kids, first_repeat, below, lines);
    }
}

pub fn random(rng: &mut Rng) -> List {
    loop {
        let list = any_list(rng);
        if count(&list.forest) <= MOST_RECORDS {
            return list;
        }
    }
}

fn any_list(rng: &mut Rng) -> List {
    let types = rng.pick(&[1, 2, 2, 3, 3, 4, 5, 6]);
    let first_repeat = match rng.below(12) {
        0 => 0,
        1 => types + rng.below(3) as u32,
        _ => 1 + rng.below(types as usize) as u32,
    };
    let start = rng.pick(&[0, 0, 0, 3, 40, 70_000]);
    let mut maker = Maker {
        rng,
        types,
        first_repeat,
        step: 9,
    };
    let forest = maker.forest(start);
    let end = forest.last().map_or(start, |node| node.end);
    let mut list = List {
        types,
        first_repeat,
        bound: rng.pick(&[0, 0, 1, 1, 2, 2, 3, 5, 5, 8, 13, 40, 1_024, 1_024, 65_535]),
        start,
        top: rng.below(types as usize) as u32,
        given: rng
            .one_in(3)
            .then(|| rng.pick(&[0, 1, 7, end - start, end + 5, u32::MAX])),
        forest,
    };
    if rng.one_in(16) {
        stretch(&mut list, rng.pick(&[10, 1_000, 30_000, 70_000]));
    }
    if rng.one_in(16) {
        let end = list.forest.last().map_or(list.start, |node| node.end);
        list.start += u32::MAX - end;
        shift(&mut list.forest, u32::MAX - end);
    }
    if rng.one_in(24) {
        widen_ids(&mut list);
    }
    list
}

/// All ranges longer by a factor.
fn stretch(list: &mut List, factor: u32) {
    let start = list.start;
    each(&mut list.forest, &mut |node| {
        node.start = start + (node.start - start) * factor;
        node.end = start + (node.end - start) * factor;
    });
}

/// All ranges later, so that the last one ends where 32 bits do.
fn shift(forest: &mut [Node], by: u32) {
    each(forest, &mut |node| {
        node.start += by;
        node.end += by;
    });
}

/// The ids moved up to the highest ones of 16 bits.
fn widen_ids(list: &mut List) {
    let by = 65_536 - list.types;
    each(&mut list.forest, &mut |node| node.id += by);
    list.types += by;
    list.first_repeat += by;
    list.top += by;
}

fn each(forest: &mut [Node], work: &mut impl FnMut(&mut Node)) {
    for node in forest {
        work(node);
        each(&mut node.kids, work);
    }
}

/// A forest to stand inside the last of many records, for a build below the depth where parts are flat.
pub fn deep(rng: &mut Rng) -> List {
    let types = rng.pick(&[2, 3, 4]);
    let first_repeat = 1 + rng.below(types as usize - 1) as u32;
    let step = rng.pick(&[9, 9, 60, 20_000]);
    let mut maker = Maker {
        rng,
        types,
        first_repeat,
        step,
    };
    let mut forest = maker.forest(0);
    while count(&forest) > MOST_RECORDS {
        forest = maker.forest(0);
    }
    if rng.one_in(4) {
        forest = vec![leaf_in_dropped(rng, first_repeat)];
    }
    List {
        types,
        first_repeat,
        bound: rng.pick(&[0, 1, 2, 5, 13, 1_024]),
        start: 0,
        top: 0,
        given: None,
        forest,
    }
}

/// A repeat tree in which a dropped record holds a lone leaf of the repeat's id, longer than 16 bits.
fn leaf_in_dropped(rng: &mut Rng, repeat: u32) -> Node {
    let long = rng.pick(&[65_535, 65_536, 70_000]);
    let node = |id, start, end, kids| Node {
        id,
        start,
        end,
        kids,
    };
    let mut kids: Vec<Node> = (0..rng.below(12))
        .map(|_| node(repeat, 0, 0, Vec::new()))
        .collect();
    kids.push(node(0, 0, long, vec![node(repeat, 0, long, Vec::new())]));
    node(repeat, 0, long, kids)
}
