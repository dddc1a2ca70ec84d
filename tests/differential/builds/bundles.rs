//! Long lists: the bundles of the build's measurements, and lists at the limits of parts and of depth.

use crate::builds::case::Records;
use crate::lists::cases::{Shape, Stuff, good_list};
use crate::rng::Rng;
use crate::widths::RECORD_WIDTH;

/// The shapes of a long list. Types are 0 to 2, and 2 is a repeat id where one is.
#[derive(Clone, Copy, Debug)]
pub enum Bundle {
    /// Leaves side by side, each so long.
    Leaves(u32),
    /// Records in one another, all of one range.
    Chain(u32),
    /// Chains of 2,000 records side by side, all of this length.
    Chains(u32),
    /// Random nesting.
    Mixed,
    /// A repeat tree over records of its own id with so many leaves each.
    Repeat(usize),
    /// Records of one repeat id, each the first child of the next with a leaf beside it.
    LeftNested,
    /// A repeat tree with no record of its own id.
    Plain,
    /// All of it in turn, side by side.
    All,
}

pub const TYPES: u32 = 3;
pub const FIRST_REPEAT: u32 = 2;
const OWN: u32 = 2;

/// A list of about so many records, from 0 on.
pub fn bundle(rng: &mut Rng, shape: Bundle, count: usize) -> Vec<u32> {
    let mut records = Records::default();
    add(rng, &mut records, shape, count, 0);
    records.words
}

/// Adds a shape from a place on; its end.
fn add(rng: &mut Rng, records: &mut Records, shape: Bundle, count: usize, from: u32) -> u32 {
    match shape {
        Bundle::Leaves(length) => leaves(rng, records, count, from, length),
        Bundle::Chain(length) => chain(records, count, from, from + length),
        Bundle::Chains(length) => {
            let chains = (count / 2_000) as u32;
            for number in 0..chains {
                let start = from + number * length;
                chain(records, 2_000, start, start + length);
            }
            from + chains * length
        }
        Bundle::Mixed => mixed(rng, records, count, from),
        Bundle::Repeat(turn) => repeat(rng, records, count, turn, from),
        Bundle::LeftNested => left_nested(records, count, from),
        Bundle::Plain => {
            let at = records.words.len();
            let end = leaves(rng, records, count - 1, from, 1);
            records.around(at, OWN, from, end);
            end
        }
        Bundle::All => {
            let parts = [
                Bundle::Leaves(2),
                Bundle::Chain(70_000),
                Bundle::Chains(900),
                Bundle::Mixed,
                Bundle::Repeat(3),
                Bundle::LeftNested,
                Bundle::Plain,
            ];
            let each = count / parts.len();
            (parts.iter()).fold(from, |at, &part| add(rng, records, part, each, at))
        }
    }
}

fn leaves(rng: &mut Rng, records: &mut Records, count: usize, from: u32, length: u32) -> u32 {
    let mut at = from;
    for _ in 0..count {
        records.leaf(rng.below(2) as u32, at, at + length);
        at += length;
    }
    at
}

fn chain(records: &mut Records, count: usize, start: u32, end: u32) -> u32 {
    let from = records.words.len();
    for number in 0..count {
        records.around(from, number as u32 % 2, start, end);
    }
    end
}

fn mixed(rng: &mut Rng, records: &mut Records, count: usize, from: u32) -> u32 {
    let stuff = Stuff {
        types: TYPES,
        start: from,
        gap: 1,
        length: 9,
    };
    let words = good_list(rng, &stuff, count, Shape::Mixed(60, 5));
    let ends = words.chunks(RECORD_WIDTH).map(|it| it[2]);
    let end = ends.max().unwrap_or(from);
    records.words.extend(words);
    end
}

fn repeat(rng: &mut Rng, records: &mut Records, count: usize, turn: usize, from: u32) -> u32 {
    let outer = records.words.len();
    let mut at = from;
    for _ in 0..(count - 1) / (turn + 1) {
        let (first, start) = (records.words.len(), at);
        at = leaves(rng, records, turn, at, 2);
        records.around(first, OWN, start, at);
    }
    records.around(outer, OWN, from, at);
    at
}

fn left_nested(records: &mut Records, count: usize, from: u32) -> u32 {
    let first = records.words.len();
    let mut at = from;
    for _ in 0..count / 2 {
        records.leaf(1, at, at + 2);
        at += 2;
        records.around(first, OWN, from, at);
    }
    at
}

/// Where empty siblings stand.
#[derive(Clone, Copy, Debug)]
pub enum Place {
    First,
    InRecord,
    InRepeat,
    /// In a repeat tree behind a first child that starts too early for a part.
    BehindEarly,
    /// In a repeat tree, a record of its id after each.
    WithMarks,
    /// In a repeat tree, each in a record of its id.
    InMarks,
    /// Every other one a leaf of a repeat id, on the first level.
    WithRepeats,
}

pub const PLACES: [Place; 7] = [
    Place::First,
    Place::InRecord,
    Place::InRepeat,
    Place::BehindEarly,
    Place::WithMarks,
    Place::InMarks,
    Place::WithRepeats,
];

/// So many empty siblings of ordinary ids.
pub fn empties(count: usize, place: Place) -> Vec<u32> {
    let at = 70_000;
    let mut records = Records::default();
    if let Place::BehindEarly = place {
        records.leaf(1, 0, 1);
    }
    for _ in 0..count {
        let from = records.words.len();
        records.leaf(0, at, at);
        match place {
            Place::WithMarks | Place::WithRepeats => records.leaf(OWN, at, at),
            Place::InMarks => records.around(from, OWN, at, at),
            _ => {}
        }
    }
    match place {
        Place::First | Place::WithRepeats => {}
        Place::InRecord => records.around(0, 1, at - 2, at + 3),
        Place::BehindEarly => records.around(0, OWN, 0, at),
        _ => records.around(0, OWN, at, at),
    }
    records.words
}

/// A forest of one range with so many ordinary records and so many repeat records, at random places.
pub fn tight(rng: &mut Rng, shape: Shape, ordinary: usize, repeats: usize) -> Vec<u32> {
    let stuff = Stuff {
        types: 2,
        start: 0,
        gap: 0,
        length: 0,
    };
    let count = ordinary + repeats;
    let mut words = good_list(rng, &stuff, count, shape);
    let mut left = repeats;
    for number in 0..count {
        if rng.below(count - number) < left {
            words[number * RECORD_WIDTH] = OWN;
            left -= 1;
        }
    }
    words
}

/// How the records around a deep list are made.
#[derive(Clone, Copy, Debug)]
pub struct Around {
    pub levels: usize,
    /// The shortest of them.
    pub length: u32,
    /// One in so many is a repeat record, and one in so many has a leaf before it or behind it.
    pub repeats: usize,
    pub leaves: usize,
    pub first_repeat: u32,
    pub types: u32,
}

/// A list inside many records: each holds all before it.
pub fn wrapped(rng: &mut Rng, inner: &[u32], around: Around) -> Vec<u32> {
    let mut records = Records {
        words: inner.to_vec(),
    };
    let ends = inner.chunks(RECORD_WIDTH).map(|it| it[2]);
    let mut end = ends.max().unwrap_or(0).max(around.length);
    for _ in 0..around.levels {
        if rng.one_in(around.leaves) {
            let start = end;
            end += rng.pick(&[0, 0, 1, 3, 70_000]);
            records.leaf(rng.below(around.types as usize) as u32, start, end);
        }
        let id = match rng.one_in(around.repeats) {
            true => around.types - 1,
            false => rng.below(around.first_repeat as usize) as u32,
        };
        records.around(0, id, 0, end);
    }
    records.words
}
