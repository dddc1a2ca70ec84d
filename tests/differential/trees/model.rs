//! Document 01's cell rules and the refusals of the tree calls, read word for word and computed in the plainest way.
//!
//! Links are followed as written: a chain begins at first and goes on by next, and a link that does not lead to a later cell ends
//! it and counts against the cell that holds it (docs/DECISIONS.md). Nothing here is shared with the library.

use crate::parts::model;
use crate::widths::{CELL_WIDTH, COUNT, FIRST, ID, KIND, LENGTH, NEXT, POSITION, RECORD_WIDTH};

/// A tree as it is handed in, with the numbers that the calls take beside it.
#[derive(Clone, Debug)]
pub struct Handed {
    pub types: u32,
    pub first_repeat: u32,
    pub start: u32,
    pub cells: Vec<u32>,
    pub words: Vec<u16>,
}

/// What a call answers. Refused: the number, the place, counts 0. Accepted: number 0, place 0 and the counts.
#[derive(Clone, Copy, Debug, Eq, PartialEq)]
pub struct Verdict {
    pub number: u32,
    pub place: u32,
    pub counts: [u32; 2],
}

pub fn refused(number: u32, place: usize) -> Verdict {
    Verdict {
        number,
        place: place as u32,
        counts: [0, 0],
    }
}

pub fn accepted(counts: [usize; 2]) -> Verdict {
    Verdict {
        number: 0,
        place: 0,
        counts: counts.map(|count| count as u32),
    }
}

/// The work slice that a tree of so many words of cells and so many packed words asks for.
pub fn work_words(cells: usize, words: usize) -> usize {
    96 * (cells / CELL_WIDTH + words / RECORD_WIDTH) + 96
}

/// 1, 11 and 15, in this order; none of them: nothing.
pub fn early(types: u32, need: usize, work: usize, bad: Option<usize>) -> Option<Verdict> {
    if types > 65_536 {
        return Some(refused(1, 0));
    }
    if work < need {
        return Some(refused(11, 0));
    }
    bad.map(|place| refused(15, place))
}

const LAST: u64 = 4_294_967_295;

#[derive(Clone, Copy, Default)]
struct Cell {
    kind: u64,
    id: u64,
    position: u64,
    length: u64,
    first: u64,
    count: u64,
    next: u64,
}

impl Cell {
    fn new(words: &[u32]) -> Self {
        Self {
            kind: words[KIND].into(),
            id: words[ID].into(),
            position: words[POSITION].into(),
            length: words[LENGTH].into(),
            first: words[FIRST].into(),
            count: words[COUNT].into(),
            next: words[NEXT].into(),
        }
    }

    fn end(&self) -> u64 {
        self.position + self.length
    }

    /// The cell of the first child; a part has none.
    fn first_child(&self) -> u64 {
        if self.kind == 2 { 0 } else { self.first }
    }
}

/// The place of 15, or nothing. `start`: where the top starts.
pub fn bad_cell(types: u32, start: u32, cells: &[u32], words: &[u16]) -> Option<usize> {
    if cells.is_empty() || cells.len() % CELL_WIDTH != 0 {
        return Some(0);
    }
    let rules = Rules::new(types, start, cells, words);
    (1..=cells.len() / CELL_WIDTH).find(|&cell| rules.breaks(cell))
}

struct Rules<'a> {
    types: u32,
    /// Numbered from 1; the one at 0 is none.
    cells: Vec<Cell>,
    words: &'a [u16],
    /// The children of each cell: its chain.
    chains: Vec<Vec<usize>>,
    /// The cells on whose chain each cell is.
    parents: Vec<Vec<usize>>,
    /// The cells that name each cell by next.
    before: Vec<Vec<usize>>,
    /// Each cell's last descendant, or itself.
    last: Vec<usize>,
    /// The latest absolute start of each cell that is reached from cell 1.
    starts: Vec<Option<u64>>,
}

impl<'a> Rules<'a> {
    fn new(types: u32, start: u32, cells: &[u32], words: &'a [u16]) -> Self {
        let mut all = vec![Cell::default()];
        all.extend(cells.chunks(CELL_WIDTH).map(Cell::new));
        let count = all.len();
        let mut rules = Self {
            types,
            cells: all,
            words,
            chains: vec![Vec::new(); count],
            parents: vec![Vec::new(); count],
            before: vec![Vec::new(); count],
            last: (0..count).collect(),
            starts: vec![None; count],
        };
        rules.follow_links();
        rules.find_last();
        rules.find_starts(start.into());
        rules
    }

    /// Where a link of a cell leads: to a later cell, if there is such a one.
    fn lead(&self, cell: usize, link: u64) -> Option<usize> {
        let known = link > cell as u64 && link < self.cells.len() as u64;
        known.then_some(link as usize)
    }

    fn chain(&self, cell: usize) -> Vec<usize> {
        let mut chain = Vec::new();
        let mut next = self.lead(cell, self.cells[cell].first_child());
        while let Some(child) = next {
            chain.push(child);
            next = self.lead(child, self.cells[child].next);
        }
        chain
    }

    fn follow_links(&mut self) {
        for cell in 1..self.cells.len() {
            let chain = self.chain(cell);
            for &child in &chain {
                self.parents[child].push(cell);
            }
            self.chains[cell] = chain;
            if let Some(next) = self.lead(cell, self.cells[cell].next) {
                self.before[next].push(cell);
            }
        }
    }

    fn find_last(&mut self) {
        for cell in (1..self.cells.len()).rev() {
            let below = self.chains[cell].iter().map(|&child| self.last[child]);
            self.last[cell] = below.max().unwrap_or(cell);
        }
    }

    /// A child stands behind its parent, so one pass is enough.
    fn find_starts(&mut self, start: u64) {
        self.starts[1] = Some(start);
        for cell in 1..self.cells.len() {
            let Some(own) = self.starts[cell] else {
                continue;
            };
            for &child in &self.chains[cell] {
                let from = own + self.cells[child].position;
                self.starts[child] = self.starts[child].max(Some(from));
            }
        }
    }

    fn breaks(&self, cell: usize) -> bool {
        self.no_top(cell)
            || self.wrong_kind_or_id(cell)
            || self.leads_nowhere(cell)
            || self.out_of_preorder(cell)
            || self.miscounted(cell)
            || self.not_on_one_chain(cell)
            || self.out_of_range(cell)
            || self.wrong_part(cell)
            || self.words_left(cell)
    }

    /// "cell 1 is the top, kind 1, position 0, next 0"
    fn no_top(&self, cell: usize) -> bool {
        let it = &self.cells[cell];
        cell == 1 && (it.kind != 1 || it.position != 0 || it.next != 0)
    }

    /// "kind (1 tree, 2 packed part, 3 tree of `NodeType::none`), id (0 for kinds 2 and 3)", "Ids are below T"
    fn wrong_kind_or_id(&self, cell: usize) -> bool {
        let it = &self.cells[cell];
        match it.kind {
            1 => it.id >= u64::from(self.types),
            2 | 3 => it.id != 0,
            _ => true,
        }
    }

    /// A link that is not 0 and leads to no later cell.
    fn leads_nowhere(&self, cell: usize) -> bool {
        let it = &self.cells[cell];
        [it.first_child(), it.next]
            .iter()
            .any(|&link| link != 0 && self.lead(cell, link).is_none())
    }

    /// "A first child is the next cell; next names the cell after a cell's last descendant": against the higher cell.
    fn out_of_preorder(&self, cell: usize) -> bool {
        let as_first =
            |&parent: &usize| self.chains[parent].first() == Some(&cell) && cell != parent + 1;
        let as_next = |&sibling: &usize| cell != self.last[sibling] + 1;
        self.parents[cell].iter().any(as_first) || self.before[cell].iter().any(as_next)
    }

    /// "a chain has count cells": against its parent.
    fn miscounted(&self, cell: usize) -> bool {
        let it = &self.cells[cell];
        it.kind != 2 && it.count != self.chains[cell].len() as u64
    }

    /// "every other cell is on one chain", and reached from cell 1.
    fn not_on_one_chain(&self, cell: usize) -> bool {
        cell != 1 && self.starts[cell].is_none() || self.parents[cell].len() > 1
    }

    /// "A sibling starts at or after the end of the one before it. Children end within their parent, the top excepted."
    /// "Absolute ends .. fit 32 bits; the top's length is free."
    fn out_of_range(&self, cell: usize) -> bool {
        let it = &self.cells[cell];
        let overlaps = |&sibling: &usize| it.position < self.cells[sibling].end();
        let sticks_out = |&parent: &usize| parent != 1 && it.end() > self.cells[parent].length;
        let ends_past = |start: u64| cell != 1 && start + it.length > LAST;
        self.before[cell].iter().any(overlaps)
            || self.parents[cell].iter().any(sticks_out)
            || self.starts[cell].is_some_and(ends_past)
    }

    /// "Parts abut from offset 0 in cell order, fill the packed words and pass 16 to 20"
    fn wrong_part(&self, cell: usize) -> bool {
        let it = &self.cells[cell];
        if it.kind != 2 {
            return false;
        }
        let earlier = self.cells[..cell].iter().rev().find(|it| it.kind == 2);
        let offset = earlier.map_or(0, |part| part.first + part.count);
        let end = it.first + it.count;
        if it.first != offset || end > self.words.len() as u64 {
            return true;
        }
        let words = &self.words[it.first as usize..end as usize];
        model::refusal(self.types, words).is_some() || records_stray(words, it.length)
    }

    /// "words after the last part against that part's cell or cell 1"
    fn words_left(&self, cell: usize) -> bool {
        if cell != 1 && self.cells[cell].kind != 2 {
            return false;
        }
        let last = self.cells.iter().rposition(|it| it.kind == 2);
        let end = last.map_or(0, |part| self.cells[part].first + self.cells[part].count);
        cell == last.unwrap_or(1) && end != self.words.len() as u64
    }
}

/// "their records nest and order by range as in 10 and end within the part's length", for a part that passes 16 to 20.
fn records_stray(words: &[u16], length: u64) -> bool {
    let records = words.len() / RECORD_WIDTH;
    let word = |record: usize, at: usize| u64::from(words[record * RECORD_WIDTH + at]);
    let offset = |record: usize| (record * RECORD_WIDTH) as u64;
    let parent = |record: usize| (0..record).rfind(|&earlier| word(earlier, 3) > offset(record));
    let parents: Vec<Option<usize>> = (0..records).map(parent).collect();
    let mut latest = vec![None; records + 1];
    for record in 0..records {
        let (start, end) = (word(record, 1), word(record, 2));
        let leaves = |around: usize| start < word(around, 1) || end > word(around, 2);
        if parents[record].is_some_and(leaves) || end > length {
            return true;
        }
        // The preceding sibling: the latest record under the same parent.
        let row = parents[record].map_or(records, |around| around);
        if latest[row].is_some_and(|sibling| start < word(sibling, 2)) {
            return true;
        }
        latest[row] = Some(record);
    }
    false
}
