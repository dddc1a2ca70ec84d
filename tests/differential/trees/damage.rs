//! Damaged copies of trees as cells and packed words, and starts of a listing at the limit of 32 bits.

use super::model::Handed;
use crate::rng::Rng;
use crate::widths::{
    CELL_WIDTH, COUNT, FIRST, ID, KIND, LENGTH, NEXT, POSITION, RECORD_WIDTH, cell_number,
};

/// A good tree with one thing wrong, or nearly: mostly one word changed, else words or cells dropped or added.
pub fn damaged(rng: &mut Rng, tree: &Handed) -> Handed {
    let mut copy = tree.clone();
    let (cells, words) = (&mut copy.cells, &mut copy.words);
    let at = rng.below(cells.len());
    let cell = at / CELL_WIDTH * CELL_WIDTH;
    match rng.below(26) {
        0 => drop(cells.remove(at)),
        1 => cells.insert(at, rng.next() as u32),
        2 => drop(cells.drain(cell..cell + CELL_WIDTH)),
        3 => {
            let doubled = cells[cell..cell + CELL_WIDTH].to_vec();
            cells.splice(cell..cell, doubled);
        }
        4 => cells.truncate(cell + CELL_WIDTH),
        5 => cells.extend([3, 0, 0, 0, 0, 0, 0]),
        6 => words.extend([0, 0, 0, (words.len() as u16).wrapping_add(4)]),
        7 => words.truncate(words.len().saturating_sub(rng.pick(&[1, 4]))),
        8 => words.push(0),
        9..15 if !words.is_empty() => return with_packed_word_changed(rng, tree),
        _ => cells[at] = boundary_word(rng, tree, at),
    }
    copy
}

/// A copy of a tree that has packed words, with one of them changed.
pub fn with_packed_word_changed(rng: &mut Rng, tree: &Handed) -> Handed {
    let mut copy = tree.clone();
    let at = rng.below(copy.words.len());
    copy.words[at] = boundary_packed(rng, tree, at);
    copy
}

/// A value at or beside a boundary of the rule that a word of a cell is under.
fn boundary_word(rng: &mut Rng, tree: &Handed, at: usize) -> u32 {
    let (cells, types) = (&tree.cells, tree.types);
    let word = cells[at];
    let count = cells.len() / CELL_WIDTH;
    let place = at % CELL_WIDTH;
    let other = cells[rng.below(count) * CELL_WIDTH + place];
    let near = rng.pick(&[word.wrapping_add(1), word.wrapping_sub(1)]);
    let wild = rng.next() as u32;
    let far = rng.pick(&[0, u32::MAX, wild, word ^ 0x8000_0000]);
    match place {
        KIND => rng.pick(&[0, 1, 2, 3, 1, 2, 3, 4, u32::MAX]),
        ID => rng.pick(&[types, types.wrapping_sub(1), 1, 0, 65_535, other, far]),
        POSITION | LENGTH => rng.pick(&[near, near, near, 0, other, far]),
        COUNT => rng.pick(&[near, near, near, 0, other, far, word.wrapping_add(4)]),
        _ => {
            let some = 1 + rng.below(count + 1) as u32;
            let own = cell_number(at);
            rng.pick(&[near, near, 0, some, some, own, own + 1, other, far])
        }
    }
}

/// The same for a packed word.
fn boundary_packed(rng: &mut Rng, tree: &Handed, at: usize) -> u16 {
    let words = &tree.words;
    let word = words[at];
    let other = words[rng.below(words.len() / RECORD_WIDTH) * RECORD_WIDTH + at % RECORD_WIDTH];
    let near = rng.pick(&[word.wrapping_add(1), word.wrapping_sub(1)]);
    match at % RECORD_WIDTH {
        0 => rng.pick(&[tree.types as u16, 0, 65_535, other]),
        1 | 2 => rng.pick(&[near, near, near, 0, 65_535, other]),
        _ => {
            let (more, less) = (word.wrapping_add(4), word.wrapping_sub(4));
            rng.pick(&[near, more, more, less, less, 0, 65_535, other])
        }
    }
}

/// A start from which one of the cells below the top ends at the last position of 32 bits, or past it; mostly a child of the top. The
/// cells are those of a tree.
pub fn late_start(rng: &mut Rng, tree: &Handed) -> u32 {
    let (children, all) = ends(&tree.cells);
    let from = if rng.one_in(4) { &all } else { &children };
    let end = match from.is_empty() {
        true => 0,
        false => rng.pick(from),
    };
    let last = u32::MAX - end;
    rng.pick(&[last, last.saturating_add(1), last.saturating_add(1)])
}

/// The ends of the top's children, and of all cells below the top, from the start of the top.
fn ends(cells: &[u32]) -> (Vec<u32>, Vec<u32>) {
    let starts = starts(cells);
    let rows = cells.chunks(CELL_WIDTH).zip(starts);
    let all = rows.skip(1).map(|(cell, start)| start + cell[LENGTH]);
    let all: Vec<u32> = all.collect();
    let children = chain(cells, 0).map(|child| all[child - 1]).collect();
    (children, all)
}

/// Where each cell starts, from the start of the top. The cells are those of a tree.
pub fn starts(cells: &[u32]) -> Vec<u32> {
    let mut starts = vec![0; cells.len() / CELL_WIDTH];
    for parent in 0..starts.len() {
        for child in chain(cells, parent) {
            starts[child] = starts[parent] + cells[child * CELL_WIDTH + POSITION];
        }
    }
    starts
}

/// The children of a cell; cells are counted from 0 here.
fn chain(cells: &[u32], parent: usize) -> impl Iterator<Item = usize> {
    let named = |link: u32| (link != 0).then(|| link as usize - 1);
    let cell = &cells[parent * CELL_WIDTH..];
    let first = if cell[KIND] == 2 {
        None
    } else {
        named(cell[FIRST])
    };
    std::iter::successors(first, move |&child| named(cells[child * CELL_WIDTH + NEXT]))
}
