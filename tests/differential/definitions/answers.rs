//! The Rust's answers on lists and trees, as cases for antt.

use std::collections::{BTreeMap, HashMap};
use std::fmt;
use std::sync::Arc;

use crate::NodeType;
use crate::antt::{self, Case};
use crate::calls::Call;
use crate::computed::{Computed, PARTS, SLICES, TREES};
use crate::flatten::{Flat, flatten, lines, outline};
use crate::handed::model::{Handed, bad_cell};
use crate::lists::List;
use crate::none_first::NoneFirst;
use crate::packed::{Part, Sliced};
use crate::rezel::tree::{NodeSet, Tree, TreeChild};
use crate::rezel::{guarded, node_set};
use crate::trees::Sample;
use crate::widths::{CELL_WIDTH, KIND, LINE_WIDTH, RECORD_SIZE, RECORD_WIDTH};

/// What a case is about.
#[derive(Clone)]
pub enum Input {
    List(List),
    /// A list inside so many records of id 0, each in the next.
    Deep(List, usize),
    Wide(Wide),
    Tree(Sample),
    Call(Call),
    Part(Part),
    Slice(Sliced),
}

impl Input {
    /// The module that a case of it cites.
    pub fn computed(&self) -> &'static Computed {
        match self {
            Self::Part(_) => &PARTS,
            Self::Slice(_) => &SLICES,
            _ => &TREES,
        }
    }
}

/// Many empty records of one id and a list behind them, all in one record of the id `parent`, inside so many records of
/// id 0.
#[derive(Clone)]
pub struct Wide {
    pub list: List,
    pub around: usize,
    pub empties: usize,
    pub id: u32,
    pub parent: u32,
}

/// What the words of an output hold before a call.
pub const BEFORE: u16 = 7;

/// The records around a deep list are at least this long: longer than a packed record can be.
const LONG: u32 = 70_000;

impl fmt::Display for Input {
    fn fmt(&self, out: &mut fmt::Formatter<'_>) -> fmt::Result {
        match self {
            Self::List(list) => write!(out, "{list}"),
            Self::Deep(list, around) => {
                let end = end_around(list);
                write!(out, "{list} inside {around} records (0,0,{end},..)")
            }
            Self::Wide(wide) => write!(out, "{wide}"),
            Self::Tree(sample) => write!(out, "{sample}"),
            Self::Call(call) => write!(out, "{call}"),
            Self::Part(part) => write!(out, "{part}"),
            Self::Slice(sliced) => write!(out, "{sliced}"),
        }
    }
}

impl fmt::Display for Wide {
    fn fmt(&self, out: &mut fmt::Formatter<'_>) -> fmt::Result {
        let (end, list) = (end_around(&self.list), &self.list);
        write!(out, "{list} behind {} records ", self.empties)?;
        write!(
            out,
            "({},0,0,4), all in ({},0,{end},..) ",
            self.id, self.parent
        )?;
        write!(out, "inside {} records (0,0,{end},..)", self.around)
    }
}

fn end_around(list: &List) -> u32 {
    list.forest.last().map_or(0, |node| node.end).max(LONG)
}

/// What the cases of a run held, to see that no shape is missing.
#[derive(Default)]
pub struct Seen {
    records: usize,
    parts: usize,
    grouped: usize,
    balanced_builds: usize,
    balanced_trees: usize,
    /// Trees that balancing changes otherwise on the set with none in place 0.
    otherwise: usize,
    /// Calls of list by the number that they are answered with, and those that are 15 by the start alone.
    numbers: BTreeMap<u32, usize>,
    late: usize,
    /// Part checks and slices by the number that they are answered with.
    part_numbers: BTreeMap<u32, usize>,
    slice_numbers: BTreeMap<u32, usize>,
}

impl fmt::Display for Seen {
    fn fmt(&self, out: &mut fmt::Formatter<'_>) -> fmt::Result {
        let Self {
            records,
            parts,
            grouped,
            balanced_builds,
            balanced_trees,
            otherwise,
            numbers,
            late,
            part_numbers,
            slice_numbers,
        } = self;
        write!(
            out,
            "{records} records, {parts} parts, {grouped} lists with groups, "
        )?;
        write!(out, "{balanced_builds} lists with inner trees, ")?;
        write!(out, "{balanced_trees} trees that balancing changes, ")?;
        write!(out, "{otherwise} otherwise with none in place 0, ")?;
        write!(out, "calls of list by number {numbers:?}, ")?;
        write!(out, "{late} of them 15 by the start alone, ")?;
        write!(out, "part checks by number {part_numbers:?}, ")?;
        write!(out, "slices by number {slice_numbers:?}")
    }
}

/// The Rust, and what it was asked.
#[derive(Default)]
pub struct Rust {
    sets: HashMap<(u32, bool), Arc<NodeSet>>,
    pub seen: Seen,
    /// Inputs on which it panics although they are accepted, or lists another reading.
    pub wrong: Vec<String>,
}

impl Rust {
    /// The set of so many types, with none in place 0 or without it.
    pub fn set(&mut self, types: u32, none_first: bool) -> Arc<NodeSet> {
        let set = self.sets.entry((types, none_first));
        Arc::clone(set.or_insert_with(|| node_set(types, none_first)))
    }

    /// The sets of so few types that random trees are made of.
    pub fn small_sets(&mut self) -> Vec<Arc<NodeSet>> {
        (0..5).map(|types| self.set(types, false)).collect()
    }

    /// The case of an input; none where the Rust panics, which is noted.
    pub fn case(&mut self, input: Input) -> Option<Case> {
        let claim = match &input {
            Input::List(list) => self.list(list),
            Input::Deep(list, around) => self.deep(list, *around),
            Input::Wide(wide) => self.wide(wide),
            Input::Tree(sample) => Some(self.tree(sample)),
            Input::Call(call) => Some(self.call(call)),
            Input::Part(part) => {
                *self.seen.part_numbers.entry(part.number()).or_default() += 1;
                Some(part.claim())
            }
            Input::Slice(sliced) => {
                *self.seen.slice_numbers.entry(sliced.number()).or_default() += 1;
                Some(sliced.claim())
            }
        };
        if claim.is_none() {
            self.wrong.push(format!("the Rust panics: {input}"));
        }
        claim.map(|claim| Case { claim, input })
    }

    /// The tree that the Rust builds of records; none where it panics.
    fn build(&mut self, list: &List, records: Vec<u32>) -> Option<Tree> {
        let build = list.build(records, self.set(list.types, false));
        guarded(|| Tree::build(&build)).ok()
    }

    /// Both runs on a list: build, materialise, list; and build, list.
    fn list(&mut self, list: &List) -> Option<String> {
        let records = list.records();
        let tree = self.build(list, records.clone())?;
        let flat = flatten(&tree);
        self.note(list, &records, &tree);
        let materialised = tree.materialize();
        let listed = lines(&materialised, list.first_repeat, list.start);
        if listed != list.reading() {
            self.wrong.push(format!("the Rust reads otherwise: {list}"));
        }
        let (types, first, bound) = (list.types, list.first_repeat, list.bound);
        let (start, top) = (list.start, list.top);
        let given = list
            .given
            .map_or("None".into(), |at| format!("(Some {at})"));
        Some(format!(
            "list_answer {types} {first} {bound} {start} {top} {given} {}\n    ≡ list_rust {} {} {} {} {}",
            antt::list(&records),
            records.len() / RECORD_WIDTH,
            antt::list(&flat.cells),
            antt::list(&flat.words),
            antt::list(&flatten(&materialised).cells),
            antt::list(&listed),
        ))
    }

    fn note(&mut self, list: &List, records: &[u32], tree: &Tree) {
        self.seen.records += records.len() / RECORD_WIDTH;
        self.seen.parts += parts(&flatten(tree));
        let nesting = own_nesting(tree, list.first_repeat, None, 0);
        self.seen.grouped += usize::from(nesting > 0);
        self.seen.balanced_builds += usize::from(nesting > 1);
    }

    /// A run on a list below the depth where parts are flat, and the lines by depths from there on.
    fn deep(&mut self, list: &List, around: usize) -> Option<String> {
        let end = end_around(list);
        let mut records = list.records();
        put_around(&mut records, 0, end, around);
        let tree = self.build(list, records.clone())?;
        self.note(list, &records, &tree);
        let flat = flatten(&tree);
        let materialised = tree.materialize();
        let listed = lines(&materialised, list.first_repeat, 0);
        let behind = &listed[(around - 1) * LINE_WIDTH..];
        let from_there = behind.chunks(LINE_WIDTH).flat_map(|line| {
            let depth = line[0] + 1 - around as u64;
            [depth, line[1], line[2], line[3]]
        });
        Some(format!(
            "deep_answer {} {} {around} {end} {}\n    ≡ {} ∷ {} ∷ {} ∷ {} ∷ {} ∷ []",
            list.first_repeat,
            list.bound,
            antt::list(list.records()),
            antt::list(behind_chain(&flat, around, end)),
            antt::list(&flat.words),
            antt::list(behind_chain(&flatten(&materialised), around, end)),
            antt::list(behind),
            antt::list(from_there),
        ))
    }

    /// The outline of a build at the limits of 16,383 records.
    fn wide(&mut self, wide: &Wide) -> Option<String> {
        let Wide {
            list,
            around,
            empties,
            id,
            parent,
        } = wide;
        let end = end_around(list);
        let mut records = [*id, 0, 0, RECORD_SIZE].repeat(*empties);
        records.extend(list.records());
        put_around(&mut records, *parent, end, 1);
        put_around(&mut records, 0, end, *around);
        let tree = self.build(list, records.clone())?;
        self.note(list, &records, &tree);
        let rest = behind_chain(&flatten(&tree), *around, end).len() / CELL_WIDTH;
        let outline = outline(&tree);
        Some(format!(
            "wide_answer {} {} {around} {end} {empties} {id} {parent} {}\n    ≡ {}",
            list.first_repeat,
            list.bound,
            antt::list(list.records()),
            antt::list(&outline[outline.len() - rest * 5..]),
        ))
    }

    /// A tree as it is, balanced on a set without none in place 0 and on one with it, materialised, and its lines.
    fn tree(&mut self, sample: &Sample) -> String {
        let flat = flatten(&sample.tree);
        let balanced = flatten(&sample.tree.balance());
        let set = self.set(sample.types, true);
        let none_first = NoneFirst::new(&sample.tree, &set).balanced();
        self.seen.parts += parts(&flat);
        self.seen.balanced_trees += usize::from(balanced != flat);
        self.seen.otherwise += usize::from(balanced != none_first);
        let materialised = sample.tree.materialize();
        let (types, first, start) = (sample.types, sample.first_repeat, sample.start);
        let (cells, words) = (antt::list(&flat.cells), antt::list(&flat.words));
        format!(
            "tree_answer {types} {first} {start} {cells} {words}\n    ≡ tree_rust {cells} {words} {} {} {} {} {} {}",
            antt::list(&balanced.cells),
            antt::list(&balanced.words),
            antt::list(&none_first.cells),
            antt::list(&none_first.words),
            antt::list(&flatten(&materialised).cells),
            antt::list(lines(&materialised, first, start)),
        )
    }

    /// A call of list: the plain model's number and place, and the Rust's lines where it is accepted.
    fn call(&mut self, call: &Call) -> String {
        let Handed {
            types,
            first_repeat,
            start,
            cells,
            words,
        } = &call.tree;
        let (verdict, mut written) = call.answer(&self.small_sets());
        *self.seen.numbers.entry(verdict.number).or_default() += 1;
        let from_0 = bad_cell(*types, 0, cells, words);
        self.seen.late += usize::from(verdict.number == 15 && from_0.is_none());
        let mut told = vec![verdict.number, verdict.place];
        if verdict.number == 0 {
            told.push(verdict.counts[0]);
        }
        written.resize(call.room, BEFORE.into());
        format!(
            "call_answer {types} {first_repeat} {start} {} {} {} {}\n    ≡ {} ∷ {} ∷ []",
            antt::list(cells),
            antt::list(words),
            call.work,
            antt::list(vec![BEFORE; call.room]),
            antt::list(told),
            antt::list(written),
        )
    }
}

/// Puts so many records of one id and range around all of a list.
fn put_around(records: &mut Vec<u32>, id: u32, end: u32, around: usize) {
    for _ in 0..around {
        records.extend([id, 0, end, records.len() as u32 + RECORD_SIZE]);
    }
}

fn parts(flat: &Flat) -> usize {
    let cells = flat.cells.chunks(CELL_WIDTH);
    cells.filter(|cell| cell[KIND] == 2).count()
}

/// How deep trees of one repeat id stand directly in each other: 1 for groups, more for inner trees.
fn own_nesting(tree: &Tree, first_repeat: u32, around: Option<&NodeType>, depth: usize) -> usize {
    let kind = tree.node_type();
    let repeat = u32::from(kind.id()) >= first_repeat;
    let depth = match around {
        Some(other) if repeat && other.is(kind) => depth + 1,
        _ => 0,
    };
    let kids = tree.children().iter().filter_map(|child| match child {
        TreeChild::Tree(kid) => Some(kid),
        TreeChild::Buffer(_) => None,
    });
    kids.map(|kid| own_nesting(kid, first_repeat, Some(kind), depth))
        .fold(depth, usize::max)
}

/// The cells behind so many of id 0 and one range, each the only child of the one before: these are held to that.
fn behind_chain(flat: &Flat, around: usize, end: u32) -> &[u64] {
    let (front, rest) = flat.cells.split_at(around * CELL_WIDTH);
    for (index, cell) in front.chunks(CELL_WIDTH).enumerate() {
        let next = index as u64 + 2;
        assert_eq!(cell, [1, 0, 0, end.into(), next, 1, 0], "no chain of trees");
    }
    rest
}
