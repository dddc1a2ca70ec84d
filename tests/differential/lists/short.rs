//! Every short list over small alphabets, good and bad, under numbers around every boundary.

use crate::lists::compare::ListSession;
use crate::lists::model::List;
use crate::spelling::{FOUR_RECORDS, Lists, NO_RECORDS, Records, TWO_TYPES, uneven};

const MAX: u32 = u32::MAX;

const NONE: Lists = Lists {
    short: &[0, 1, 2, 96],
    ..NO_RECORDS
};

const ONE: Lists = Lists {
    records: Records {
        ids: &[0, 1, 2, 65_535, 65_536, MAX],
        ranges: &[
            (0, 0),
            (0, 1),
            (1, 0),
            (1, 1),
            (1, 2),
            (2, 1),
            (0, MAX),
            (MAX, MAX),
            (MAX, MAX - 1),
            (MAX, 0),
        ],
        lasts: &[&[0, 1, 3, 4, 5, 7, 8, 12, 0x8000_0000, MAX - 3, MAX]],
    },
    types: &[0, 1, 2, 65_536, 65_537],
    repeats: &[0, 1, 2],
    bounds: &[0, 65_535, 65_536],
    starts: &[0, 1, 2, MAX],
    tops: &[0, 1, 65_535],
    short: &[0, 1],
    ..NO_RECORDS
};

const TWO: Lists = Lists {
    records: Records {
        ids: &[0, 1, 2],
        ranges: &[(0, 0), (0, 1), (0, 2), (1, 2), (1, 1), (2, 1)],
        lasts: &[&[0, 3, 4, 5, 8], &[0, 1, 4, 6, 8, 12, MAX]],
    },
    starts: &[0, 1, 2, 3],
    ..TWO_TYPES
};

const THREE: Lists = Lists {
    records: Records {
        ids: &[0, 1],
        ranges: &[(0, 0), (0, 1), (1, 2), (0, 2), (2, 1)],
        lasts: &[&[4, 8], &[4, 5, 8], &[4, 8, 12, 16]],
    },
    starts: &[0, 1, 2, 3],
    tops: &[1],
    ..TWO_TYPES
};

/// Three records whose ids may be bad or whose sizes may be 0.
const THREE_BAD: Lists = Lists {
    records: Records {
        ids: &[0, 1, 2],
        ranges: &[(0, 1), (1, 2), (0, 2)],
        lasts: &[&[0, 4], &[0, 4, 8], &[4, 8, 12]],
    },
    repeats: &[1, 2],
    bounds: &[0, 1_024],
    tops: &[1],
    ..TWO_TYPES
};

const FOUR: Lists = Lists {
    records: FOUR_RECORDS,
    bounds: &[0, 1_024],
    ..TWO_TYPES
};

const ALL: [&Lists; 6] = [&NONE, &ONE, &TWO, &THREE, &THREE_BAD, &FOUR];

pub fn run(session: &mut ListSession) {
    for lists in ALL {
        lists.spell(|case| session.check(&case.list));
    }
    uneven_lists(session);
}

/// Lengths that are no multiple of 4, with records that would be at fault too and work slices around the boundary.
fn uneven_lists(session: &mut ListSession) {
    for length in 1..=13 {
        for first in [0, 1, 9, MAX] {
            let mut words = uneven(length);
            words[0] = first;
            for types in [0, 1, 20, 65_537] {
                for work in [0, 95, 96, 191, 192, 287, 288, 400] {
                    let list = List {
                        types,
                        first_repeat: 5,
                        bound: 3,
                        start: 0,
                        top: 0,
                        words: &words,
                        work,
                    };
                    session.check(&list);
                }
            }
        }
    }
}
