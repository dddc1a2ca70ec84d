//! Every short part over small alphabets, good and bad, with every bound, side and direction; those of four and five records
//! with the part check alone.

use crate::parts::compare::{Part, PartSession};
use crate::parts::model::{Search, Slice};
use crate::spelling::{Records, uneven};
use crate::widths::RECORD_WIDTH;

/// Numbers of types: none, few, as many as ids have, and one too many.
const TYPES: [u32; 5] = [0, 1, 2, 65_536, 65_537];

const SIDES: std::ops::RangeInclusive<i8> = -3..=5;
const DIRECTIONS: [i8; 3] = [-1, 0, 1];

const ONE: Records<u16> = Records {
    ids: &[0, 1, 2, 65_535],
    ranges: &[
        (0, 0),
        (0, 1),
        (1, 0),
        (1, 2),
        (2, 1),
        (65_535, 65_535),
        (65_535, 65_534),
    ],
    lasts: &[&[0, 1, 3, 4, 5, 6, 7, 8, 65_532, 65_535]],
};

const TWO: Records<u16> = Records {
    ids: &[0, 1, 2],
    ranges: &[(0, 2), (1, 1), (2, 0), (1, 3)],
    lasts: &[&[0, 3, 4, 5, 8, 12], &[0, 4, 7, 8, 9, 12, 65_535]],
};

const THREE: Records<u16> = Records {
    ids: &[0, 1],
    ranges: &[(0, 2), (1, 1), (2, 1)],
    lasts: &[&[0, 4, 6, 8, 12, 16], &[4, 8, 10, 12, 16], &[8, 11, 12, 16]],
};

/// Four records with every end index of whole records up to one past the part, and five with those inside it.
const FOUR: Records<u16> = Records {
    ids: &[0, 1],
    ranges: &[(0, 1), (0, 2), (1, 3)],
    lasts: &[
        &[4, 8, 12, 16, 20],
        &[8, 12, 16, 20],
        &[12, 16, 20],
        &[16, 20],
    ],
};

const FIVE: Records<u16> = Records {
    ids: &[0],
    ranges: &[(0, 1), (0, 2), (1, 3)],
    lasts: &[
        &[4, 8, 12, 16, 20],
        &[8, 12, 16, 20],
        &[12, 16, 20],
        &[16, 20],
        &[20],
    ],
};

pub fn run(session: &mut PartSession) {
    for types in TYPES {
        with_calls(session, types, &[]);
        ONE.spell(|words| with_calls(session, types, words));
        TWO.spell(|words| with_calls(session, types, words));
    }
    THREE.spell(|words| with_calls(session, 2, words));
    uneven_parts(session);
}

/// Every nesting of four and five records, with ends that grow or fall from record to record, and crossing ones.
pub fn check_alone(session: &mut PartSession) {
    for records in [FOUR, FIVE] {
        records.spell(|words| drop(session.part(2, words.to_vec())));
    }
}

/// Lengths that are no multiple of 4, with records that would be at fault too.
fn uneven_parts(session: &mut PartSession) {
    for length in 1..=13 {
        for first in [0, 1, 9, 65_535] {
            for types in TYPES {
                let mut words = uneven(length);
                words[0] = first;
                with_calls(session, types, &words);
            }
        }
    }
}

/// A part and the calls on it: all bounds where it is accepted, a few where it is refused before they are looked at.
fn with_calls(session: &mut PartSession, types: u32, words: &[u16]) {
    let part = session.part(types, words.to_vec());
    let length = part.words.len();
    if part.verdict.number != 0 {
        calls_at(session, &part, 0, length);
        return;
    }
    let far = [length + RECORD_WIDTH, usize::MAX - 3, usize::MAX];
    let bounds = || (0..=length + 1).chain(far);
    for from in bounds() {
        for to in bounds() {
            let whole = from % RECORD_WIDTH == 0 && to % RECORD_WIDTH == 0;
            if from <= to && to <= length && whole {
                slices(session, &part, from, to);
                searches(session, &part, from, to);
            } else {
                calls_at(session, &part, from, to);
            }
        }
    }
}

/// One slice and one search on bounds that are refused, or on a refused part.
fn calls_at(session: &mut PartSession, part: &Part, from: usize, to: usize) {
    let room = part.words.len();
    let slice = Slice {
        from,
        to,
        base: 0,
        room,
    };
    session.slice(part, slice);
    let search = Search {
        from,
        to,
        direction: 1,
        position: 0,
        base: 0,
        side: 4,
    };
    session.search(part, search);
}

fn slices(session: &mut PartSession, part: &Part, from: usize, to: usize) {
    for base in [0, 1, 2, 3, 65_535, 65_536, u32::MAX] {
        let need = to - from;
        for room in [0, need.saturating_sub(1), need, need + 1] {
            let slice = Slice {
                from,
                to,
                base,
                room,
            };
            session.slice(part, slice);
        }
    }
}

fn searches(session: &mut PartSession, part: &Part, from: usize, to: usize) {
    for side in SIDES {
        for direction in DIRECTIONS {
            for (base, position) in places(part) {
                let search = Search {
                    from,
                    to,
                    direction,
                    position,
                    base,
                    side,
                };
                session.search(part, search);
            }
        }
    }
}

/// Bases and positions: all small ones for short parts, fewer for three records, and some at the upper end.
fn places(part: &Part) -> Vec<(u32, u32)> {
    let mut all = vec![(u32::MAX, 0), (u32::MAX - 1, u32::MAX)];
    all.extend([0, u32::MAX - 1, u32::MAX].map(|position| (u32::MAX - 2, position)));
    let bases = if part.words.len() > 8 { 0..1 } else { 0..2 };
    for base in bases {
        all.extend((0..=4).map(|position| (base, position)));
    }
    all
}
