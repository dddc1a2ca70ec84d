//! Every short list over small alphabets: good and bad ones under numbers around every boundary, and all accepted ones of a few
//! more records.

use crate::builds::case::{Case, Numbers};
use crate::spelling::{FOUR_RECORDS, Lists, NO_RECORDS, Records, TWO_TYPES, uneven};
use crate::widths::{RECORD_SIZE, RECORD_WIDTH};

const MAX: u32 = u32::MAX;

const NONE: Lists = Lists {
    given: &[None, Some(0), Some(1), Some(MAX)],
    ..NO_RECORDS
};

const ONE: Lists = Lists {
    records: Records {
        ids: &[0, 1, 2, 65_535, 65_536, MAX],
        ranges: &[
            (0, 0),
            (0, 1),
            (1, 0),
            (1, 2),
            (2, 65_537),
            (2, 65_538),
            (0, MAX),
            (MAX, MAX),
            (MAX, MAX - 1),
        ],
        lasts: &[&[0, 3, 4, 8, MAX - 3]],
    },
    types: &[0, 1, 2, 65_536],
    repeats: &[0, 1, 2],
    bounds: &[0, 1, 65_535, 65_536],
    starts: &[0, 1, 2, MAX],
    tops: &[0, 1],
    given: &[None, Some(0), Some(MAX)],
    ..NO_RECORDS
};

const TWO: Lists = Lists {
    records: Records {
        ids: &[0, 1, 2],
        ranges: &[(0, 0), (0, 1), (0, 2), (1, 2), (1, 1), (2, 1), (2, 5)],
        lasts: &[&[4, 8], &[0, 4, 6, 8, 12]],
    },
    bounds: &[0, 1, 2, 1_024],
    tops: &[0, 1],
    given: &[None, Some(7)],
    ..TWO_TYPES
};

const THREE: Lists = Lists {
    records: Records {
        ids: &[0, 1],
        ranges: &[(0, 0), (0, 1), (1, 1), (1, 2), (0, 2), (2, 1)],
        lasts: &[&[4], &[4, 8], &[4, 8, 12, 16]],
    },
    tops: &[1],
    ..TWO_TYPES
};

const FOUR: Lists = Lists {
    records: FOUR_RECORDS,
    ..TWO_TYPES
};

const ALL: [&Lists; 5] = [&NONE, &ONE, &TWO, &THREE, &FOUR];

/// Every list of the alphabets with all its numbers, and lengths that are no multiple of 4.
pub fn spelt(visit: &mut impl FnMut(&Case)) {
    for lists in ALL {
        lists.spell(&mut *visit);
    }
    for length in (1..=13).filter(|&length| usize::from(length) % RECORD_WIDTH != 0) {
        visit(&Numbers::plain(20, 5, 3).with(&uneven(length)));
    }
}

/// Which accepted lists are made, all of them: so many records, ids below the types, ends up to the last.
struct Whole {
    records: usize,
    types: u32,
    last: u32,
    repeats: &'static [u32],
    bounds: &'static [u32],
}

const WHOLE: [Whole; 7] = [
    Whole {
        records: 3,
        types: 3,
        last: 3,
        repeats: &[0, 1, 2, 3],
        bounds: &[0, 1, 2, 3],
    },
    Whole {
        records: 4,
        types: 3,
        last: 2,
        repeats: &[1, 2],
        bounds: &[0, 1, 2],
    },
    Whole {
        records: 4,
        types: 2,
        last: 3,
        repeats: &[0, 1, 2],
        bounds: &[0, 1, 2, 3],
    },
    Whole {
        records: 5,
        types: 2,
        last: 2,
        repeats: &[0, 1, 2],
        bounds: &[0, 1, 2],
    },
    Whole {
        records: 6,
        types: 2,
        last: 2,
        repeats: &[1],
        bounds: &[0, 1],
    },
    Whole {
        records: 7,
        types: 2,
        last: 1,
        repeats: &[1],
        bounds: &[0],
    },
    Whole {
        records: 8,
        types: 2,
        last: 0,
        repeats: &[1],
        bounds: &[0],
    },
];

/// A finished tree: its size in words and its range.
type Finished = (u32, u32, u32);

pub fn accepted(visit: &mut impl FnMut(&Case)) {
    for whole in &WHOLE {
        let mut each = |words: &[u32]| {
            for &first_repeat in whole.repeats {
                for &bound in whole.bounds {
                    let numbers = Numbers::plain(whole.types, first_repeat, bound);
                    visit(&numbers.with(words));
                }
            }
        };
        grow(whole, &mut Vec::new(), &[], &mut each);
    }
}

/// Every list that goes on from these records: one more, around the last trees or around none, of each id and range.
fn grow(
    whole: &Whole,
    words: &mut Vec<u32>,
    finished: &[Finished],
    visit: &mut impl FnMut(&[u32]),
) {
    if words.len() == whole.records * RECORD_WIDTH {
        return visit(words);
    }
    for kids in 0..=finished.len() {
        let (rest, inside) = finished.split_at(finished.len() - kids);
        let size = RECORD_SIZE + inside.iter().map(|tree| tree.0).sum::<u32>();
        let least = rest.last().map_or(0, |tree| tree.2);
        let latest = inside.first().map_or(whole.last, |tree| tree.1);
        for start in least..=latest {
            let shortest = inside.last().map_or(start, |tree| tree.2);
            for end in shortest..=whole.last {
                let mut trees = rest.to_vec();
                trees.push((size, start, end));
                for id in 0..whole.types {
                    words.extend([id, start, end, size]);
                    grow(whole, words, &trees, visit);
                    words.truncate(words.len() - RECORD_WIDTH);
                }
            }
        }
    }
}
