//! Random forests written as record lists, and damaged copies of them.

use crate::rng::Rng;
use crate::widths::{RECORD_SIZE, RECORD_WIDTH};

/// How many of the finished trees before it a record takes as its children.
#[derive(Clone, Copy, Debug)]
pub enum Shape {
    Flat,
    Chain,
    /// So many records in a hundred have no children; the others up to so many.
    Mixed(usize, usize),
    /// Parents of so many leaves.
    Wide(usize),
    /// Two trees of one size get a parent at once.
    Binary,
}

pub fn any_shape(rng: &mut Rng) -> Shape {
    let mixed = Shape::Mixed(rng.pick(&[20, 40, 60, 90]), rng.pick(&[1, 2, 5, 40]));
    let wide = Shape::Wide(rng.pick(&[1, 2, 7, 30]));
    rng.pick(&[
        Shape::Flat,
        Shape::Chain,
        Shape::Binary,
        wide,
        mixed,
        mixed,
        mixed,
    ])
}

/// What the ids and ranges of a list are made of.
#[derive(Clone, Copy, Debug)]
pub struct Stuff {
    pub types: u32,
    /// No first-level record starts before it.
    pub start: u32,
    /// Most room left before a record and around its children, and most length of a leaf.
    pub gap: usize,
    pub length: usize,
}

impl Stuff {
    /// Any number of types and any start, with leaves of one of these lengths at most.
    pub fn any(rng: &mut Rng, lengths: &[usize]) -> Self {
        Self {
            types: rng.pick(&[1, 2, 5, 300, 65_535, 65_536]),
            start: rng.pick(&[0, 0, 1, 5, 70_000, u32::MAX - 30]),
            gap: rng.pick(&[0, 1, 3]),
            length: rng.pick(lengths),
        }
    }
}

/// A finished tree: its size in words and its range.
#[derive(Clone, Copy)]
struct Finished {
    size: u32,
    start: u32,
    end: u32,
}

/// A list that is accepted under the numbers it was made for (at least one type).
pub fn good_list(rng: &mut Rng, stuff: &Stuff, records: usize, shape: Shape) -> Vec<u32> {
    let mut words = Vec::with_capacity(records * RECORD_WIDTH);
    let mut finished: Vec<Finished> = Vec::new();
    for _ in 0..records {
        let children = adopted(rng, &finished, shape);
        let rest = finished.len() - children;
        let before = rest
            .checked_sub(1)
            .map_or(stuff.start, |at| finished[at].end);
        let record = around(rng, stuff, before, &finished[rest..]);
        finished.truncate(rest);
        finished.push(record);
        let id = rng.below(stuff.types.min(65_536) as usize) as u32;
        words.extend([id, record.start, record.end, record.size]);
    }
    words
}

fn adopted(rng: &mut Rng, finished: &[Finished], shape: Shape) -> usize {
    let count = finished.len();
    match shape {
        Shape::Flat => 0,
        Shape::Chain => count,
        Shape::Mixed(leaves, most) => {
            if count == 0 || rng.below(100) < leaves {
                return 0;
            }
            1 + rng.below(most.min(count))
        }
        Shape::Wide(leaves) => {
            let leaf = |it: &&Finished| it.size == RECORD_SIZE;
            let last = finished.iter().rev().take_while(leaf);
            if last.count() == leaves { leaves } else { 0 }
        }
        Shape::Binary => match finished {
            [.., a, b] if a.size == b.size => 2,
            _ => 0,
        },
    }
}

/// A record around its children, or a leaf, that starts at or after `before`.
fn around(rng: &mut Rng, stuff: &Stuff, before: u32, children: &[Finished]) -> Finished {
    let gap = |rng: &mut Rng| rng.below(stuff.gap + 1) as u32;
    let (Some(first), Some(last)) = (children.first(), children.last()) else {
        let start = before.saturating_add(gap(rng));
        return Finished {
            size: RECORD_SIZE,
            start,
            end: start.saturating_add(rng.below(stuff.length + 1) as u32),
        };
    };
    Finished {
        size: RECORD_SIZE + children.iter().map(|child| child.size).sum::<u32>(),
        start: first.start.saturating_sub(gap(rng)).max(before),
        end: last.end.saturating_add(gap(rng)),
    }
}

/// A good list with one thing wrong, or nearly: a word changed, dropped or added, a record dropped, doubled or moved.
pub fn damaged(rng: &mut Rng, types: u32, words: &[u32]) -> Vec<u32> {
    let mut copy = words.to_vec();
    if copy.is_empty() {
        copy.push(rng.next() as u32);
        return copy;
    }
    let at = rng.below(copy.len());
    let record = at / RECORD_WIDTH * RECORD_WIDTH;
    match rng.below(20) {
        0 => drop(copy.remove(at)),
        1 => copy.insert(at, rng.next() as u32),
        2 => drop(copy.drain(record..record + RECORD_WIDTH)),
        3 => {
            let doubled = copy[record..record + RECORD_WIDTH].to_vec();
            copy.splice(record..record, doubled);
        }
        4 => copy[record..].rotate_left(RECORD_WIDTH),
        5 => copy.truncate(record + RECORD_WIDTH),
        _ => copy[at] = boundary_word(rng, types, words, at),
    }
    copy
}

/// A value at or beside a boundary of the rule that a word is under.
fn boundary_word(rng: &mut Rng, types: u32, words: &[u32], at: usize) -> u32 {
    let word = words[at];
    let (record, place) = (at / RECORD_WIDTH, at % RECORD_WIDTH);
    let past = (record as u32 + 1) * RECORD_SIZE;
    let other = words[rng.below(words.len() / RECORD_WIDTH) * RECORD_WIDTH + place];
    let beside = [word.wrapping_add(1), word.wrapping_sub(1)];
    match place {
        0 => rng.pick(&[
            types,
            types.wrapping_sub(1),
            types + 1,
            other,
            65_535,
            65_536,
            u32::MAX,
        ]),
        1 | 2 => {
            let twin = words[record * RECORD_WIDTH + 3 - place];
            let near = [
                beside[0],
                beside[1],
                twin,
                twin.wrapping_add(1),
                twin.wrapping_sub(1),
            ];
            let far = [0, other, word ^ 0x8000_0000, u32::MAX, rng.next() as u32];
            let (one, wild) = (rng.pick(&near), rng.pick(&far));
            rng.pick(&[one, one, wild])
        }
        _ => {
            let wrong = [
                0,
                1,
                3,
                5,
                u32::MAX,
                u32::MAX - 3,
                0x8000_0000,
                past + 4,
                beside[0],
                beside[1],
            ];
            let right = [
                4,
                8,
                12,
                past,
                past - 4,
                other,
                word.wrapping_add(4),
                word.wrapping_sub(4),
            ];
            let within = RECORD_SIZE * (1 + rng.below(record + 1)) as u32;
            let (one, wild) = (rng.pick(&right), rng.pick(&wrong));
            rng.pick(&[one, one, within, wild])
        }
    }
}
