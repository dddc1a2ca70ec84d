//! Slices and searches on one part: random ones, and a sweep over every boundary.

use crate::parts::cases;
use crate::parts::compare::{Part, PartSession};
use crate::parts::model::{Search, Slice};
use crate::rng::Rng;
use crate::widths::RECORD_WIDTH;

/// So many random calls on a part, slices and searches in turn.
pub fn calls(session: &mut PartSession, rng: &mut Rng, part: &Part, count: usize) {
    for _ in 0..count / 2 {
        session.slice(part, cases::slice_call(rng, &part.words));
        session.search(part, cases::search_call(rng, &part.words));
    }
}

/// Every boundary of a part once: each record's offset and end index as a bound, each start and end as a base and as a
/// position, and the numbers beside them.
pub fn sweep(session: &mut PartSession, rng: &mut Rng, part: &Part) {
    let length = part.words.len();
    for record in part.words.chunks_exact(RECORD_WIDTH) {
        for bound in beside(usize::from(record[3])) {
            let (from, to) = rng.pick(&[(0, bound), (bound, length)]);
            let slice = cases::slice_call(rng, &part.words);
            session.slice(part, Slice { from, to, ..slice });
            let search = cases::search_call(rng, &part.words);
            session.search(part, Search { from, to, ..search });
        }
        for point in beside(usize::from(record[1])).chain(beside(usize::from(record[2]))) {
            let point = point as u32;
            let slice = cases::slice_call(rng, &part.words);
            session.slice(
                part,
                Slice {
                    base: point,
                    ..slice
                },
            );
            let search = cases::search_call(rng, &part.words);
            let position = search.base.saturating_add(point);
            session.search(part, Search { position, ..search });
            let base = u32::MAX - point;
            session.search(part, Search { base, ..search });
        }
    }
}

/// A number and those next to it, none below 0.
fn beside(number: usize) -> impl Iterator<Item = usize> {
    number.saturating_sub(1)..=number + 1
}
