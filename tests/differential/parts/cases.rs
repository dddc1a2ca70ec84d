//! Random parts, damaged copies of them, and calls with figures around every boundary.

use crate::parts::model::{Search, Slice};
use crate::rng::Rng;
use crate::widths::RECORD_WIDTH;

/// The records of the longest part that can be accepted: end indices have 16 bits.
pub const MOST_RECORDS: usize = 16_383;

/// How the records of a random part stand in each other.
#[derive(Clone, Copy, Debug)]
pub enum Nesting {
    Flat,
    Chain,
    /// Before each record so many open ones are closed on average, in tenths: below 10 deep, above wide.
    Mixed(usize),
}

/// End indices of a forest of so many records, parents first. Past 16 bits they are cut off, as a writer would.
fn end_indices(rng: &mut Rng, records: usize, nesting: Nesting) -> Vec<u16> {
    let mut ends = vec![0u16; records];
    let mut open: Vec<usize> = Vec::new();
    for record in 0..records {
        for _ in 0..closed(rng, open.len(), nesting) {
            let finished = open.pop().expect("no more are closed than are open");
            ends[finished] = (record * RECORD_WIDTH) as u16;
        }
        open.push(record);
    }
    for left in open {
        ends[left] = (records * RECORD_WIDTH) as u16;
    }
    ends
}

fn closed(rng: &mut Rng, open: usize, nesting: Nesting) -> usize {
    match nesting {
        Nesting::Flat => open,
        Nesting::Chain => 0,
        Nesting::Mixed(tenths) => {
            let mut count = 0;
            while count < open && rng.below(10 + tenths) >= 10 {
                count += 1;
            }
            count
        }
    }
}

/// A part that is accepted under `types` (not 0), unless it is too long. Starts and ends are below or at `widest`.
pub fn good_part(
    rng: &mut Rng,
    types: u32,
    records: usize,
    nesting: Nesting,
    widest: u16,
) -> Vec<u16> {
    let ends = end_indices(rng, records, nesting);
    let in_order = rng.one_in(2);
    let mut reached = 0;
    let mut words = Vec::with_capacity(records * RECORD_WIDTH);
    for end_index in ends {
        let (start, end) = range(rng, widest, in_order.then_some(reached));
        reached = start;
        let id = rng.below(types.min(65_536) as usize) as u16;
        words.extend([id, start, end, end_index]);
    }
    words
}

/// A range; where ranges stand in order, one that starts at or soon after the last start.
fn range(rng: &mut Rng, widest: u16, reached: Option<u16>) -> (u16, u16) {
    let any = |rng: &mut Rng| rng.below(usize::from(widest) + 1) as u16;
    let Some(reached) = reached else {
        let (a, b) = (any(rng), any(rng));
        return (a.min(b), a.max(b));
    };
    let start = reached.saturating_add(rng.below(3) as u16).min(widest);
    let end = start.saturating_add(rng.below(9) as u16).min(widest);
    (start, end)
}

pub fn any_nesting(rng: &mut Rng) -> Nesting {
    let mixed = Nesting::Mixed(rng.pick(&[2, 5, 8, 10, 12, 20, 60]));
    rng.pick(&[Nesting::Flat, Nesting::Chain, mixed, mixed, mixed, mixed])
}

/// A good part with one thing wrong, or nearly: a word changed, dropped or added, or a record dropped.
pub fn damaged(rng: &mut Rng, types: u32, words: &[u16]) -> Vec<u16> {
    let mut copy = words.to_vec();
    if copy.is_empty() {
        copy.push(rng.next() as u16);
        return copy;
    }
    let at = rng.below(copy.len());
    match rng.below(10) {
        0 => drop(copy.remove(at)),
        1 => copy.insert(at, rng.next() as u16),
        2 => {
            let record = at / RECORD_WIDTH * RECORD_WIDTH;
            drop(copy.drain(record..(record + RECORD_WIDTH).min(words.len())));
        }
        _ => copy[at] = boundary_word(rng, types, words, at),
    }
    copy
}

/// A value at or beside a boundary of the rule that the word at an offset is under.
fn boundary_word(rng: &mut Rng, types: u32, words: &[u16], at: usize) -> u16 {
    let offset = at / RECORD_WIDTH * RECORD_WIDTH;
    let other = words[rng.below(words.len())];
    let near = [
        words[at].wrapping_add(1),
        words[at].wrapping_sub(1),
        words[at].wrapping_add(4),
        words[at].wrapping_sub(4),
        0,
        65_535,
        other,
        types as u16,
        (types as u16).wrapping_sub(1),
        offset as u16,
        (offset + RECORD_WIDTH) as u16,
        (offset + 2 * RECORD_WIDTH) as u16,
        words.len() as u16,
        (words.len() + RECORD_WIDTH) as u16,
    ];
    rng.pick(&near)
}

/// Two bounds: mostly a record and a place on the way from it, else any boundaries, now and then beside them.
fn bounds(rng: &mut Rng, words: &[u16]) -> (usize, usize) {
    let from = boundary(rng, words);
    let to = match rng.below(8) {
        0 => boundary(rng, words),
        1 => words.len(),
        _ => way_on(rng, words, from),
    };
    match rng.below(24) {
        0 => (to, from),
        1 => (from + 1, to),
        2 => (from, to + 1),
        3 => (from.wrapping_sub(1), to),
        4 => (from, to.wrapping_sub(1)),
        5 => (
            from,
            rng.pick(&[words.len() + RECORD_WIDTH, usize::MAX, usize::MAX - 3]),
        ),
        _ => (from, to),
    }
}

/// The offset of a record, an end index, the start or the end of the part.
fn boundary(rng: &mut Rng, words: &[u16]) -> usize {
    let records = words.len() / RECORD_WIDTH;
    if records == 0 {
        return 0;
    }
    let record = rng.below(records);
    match rng.below(8) {
        0 => words.len(),
        1 | 2 => 0,
        3 | 4 => usize::from(words[record * RECORD_WIDTH + 3]),
        _ => record * RECORD_WIDTH,
    }
}

/// A place on the way from an offset, some steps on. In a damaged part the way may lead back: it ends there.
fn way_on(rng: &mut Rng, words: &[u16], from: usize) -> usize {
    let mut at = from;
    for _ in 0..rng.pick(&[0, 1, 1, 2, 3, 10, words.len()]) {
        if at + RECORD_WIDTH > words.len() || usize::from(words[at + 3]) <= at {
            break;
        }
        at = usize::from(words[at + 3]);
    }
    at
}

/// The start or the end of some record, and one beside it now and then.
fn point(rng: &mut Rng, words: &[u16], from: usize, to: usize) -> u32 {
    let records = words.len() / RECORD_WIDTH;
    if records == 0 {
        return rng.below(3) as u32;
    }
    let first = from / RECORD_WIDTH;
    let inside = first < records && from < to && rng.one_in(2);
    let record = if inside {
        let count = (to.min(words.len()) - from).div_ceil(RECORD_WIDTH);
        first + rng.below(count).min(records - 1 - first)
    } else {
        rng.below(records)
    };
    let word = u32::from(words[record * RECORD_WIDTH + 1 + rng.below(2)]);
    match rng.below(4) {
        0 => word + 1,
        1 => word.saturating_sub(1),
        _ => word,
    }
}

pub fn slice_call(rng: &mut Rng, words: &[u16]) -> Slice {
    let (from, to) = bounds(rng, words);
    let starts = words
        .get(from..to)
        .unwrap_or(&[])
        .chunks_exact(RECORD_WIDTH)
        .map(|it| it[1]);
    let least = u32::from(starts.min().unwrap_or(0));
    let base = match rng.below(12) {
        0 => point(rng, words, from, to),
        1 => least + 1,
        2 => least.saturating_sub(1),
        3 => rng.pick(&[65_535, 65_536, u32::MAX]),
        4 | 5 => 0,
        _ => least,
    };
    let need = to.wrapping_sub(from).min(words.len() + 1);
    let room = match rng.below(8) {
        0 => 0,
        1 => need.saturating_sub(1),
        2 => need + 1,
        3 => need + 5,
        _ => need,
    };
    Slice {
        from,
        to,
        base,
        room,
    }
}

pub fn search_call(rng: &mut Rng, words: &[u16]) -> Search {
    let (from, to) = bounds(rng, words);
    let base = match rng.below(10) {
        0 => u32::MAX - point(rng, words, from, to),
        1 => (u32::MAX - point(rng, words, from, to)).saturating_add(1),
        2 => u32::MAX,
        3 => u32::MAX - 65_535,
        4 => rng.next() as u32,
        5 | 6 => rng.below(10) as u32,
        _ => 0,
    };
    let position = match rng.below(12) {
        0 => u32::MAX,
        1 => 0,
        2 => u32::MAX - rng.below(65_536) as u32,
        3 => rng.next() as u32,
        _ => base.saturating_add(point(rng, words, from, to)),
    };
    Search {
        from,
        to,
        direction: rng.pick(&[-128, -1, 0, 1, 1, 1, 127, -1]),
        position,
        base,
        side: rng.pick(&[-2, -1, 0, 1, 2, 4, -2, -1, 0, 1, 2, -3, 3, 5, 127, -128]),
    }
}
