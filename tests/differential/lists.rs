//! The runs over the list check: short lists, all of them; random and damaged lists; long ones.

pub mod bench;
pub mod cases;
mod compare;
pub mod model;
pub mod sample;
mod short;

use std::process::ExitCode;

use self::cases::{Shape, Stuff};
use self::compare::ListSession;
use self::model::{List, MOST_RECORDS, work_words};
use crate::report::Run;
use crate::rng::Rng;
use crate::widths::{RECORD_SIZE, RECORD_WIDTH};

const SHAPES: [Shape; 6] = [
    Shape::Flat,
    Shape::Chain,
    Shape::Mixed(60, 5),
    Shape::Mixed(90, 40),
    Shape::Wide(999),
    Shape::Binary,
];

/// Compares at least so many lists.
pub fn run(seed: u64, cases: u64) -> ExitCode {
    println!("seed {seed}, lists {cases} or more");
    let mut session = ListSession::default();
    let mut rng = Rng::new(seed);
    session.section("short lists, all of them", short::run);
    session.section("the longest lists", longest);
    session.section("long lists", |session| long(session, &mut rng));
    session.section("thousands of records", |session| {
        thousands(session, &mut rng)
    });
    session.section("random and damaged lists", |session| {
        while session.tally.cases() < cases {
            random(session, &mut rng);
        }
    });
    session.tally.finish()
}

/// One random list and damaged copies of it, each under numbers that are mostly good.
fn random(session: &mut ListSession, rng: &mut Rng) {
    let stuff = Stuff::any(rng, &[0, 1, 3, 20, 70_000]);
    let most = rng.pick(&[4, 8, 12, 20, 40, 120]);
    let records = rng.below(most + 1);
    let shape = cases::any_shape(rng);
    let words = cases::good_list(rng, &stuff, records, shape);
    for _ in 0..4 {
        session.check(&numbered(rng, &stuff, &words));
    }
    for _ in 0..8 {
        let copy = cases::damaged(rng, stuff.types, &words);
        session.check(&numbered(rng, &stuff, &copy));
    }
}

/// A list under numbers of which one is bad now and then.
fn numbered<'a>(rng: &mut Rng, stuff: &Stuff, words: &'a [u32]) -> List<'a> {
    let types = stuff.types;
    let need = work_words(words.len() / RECORD_WIDTH);
    let first = words.get(1).copied().unwrap_or(0);
    let repeats = [0, types / 2, types / 2, types - 1, types, types, u32::MAX];
    let mut list = List {
        types,
        first_repeat: rng.pick(&repeats),
        bound: rng.pick(&[0, 1, 2, 10, 1_024, 65_535]),
        start: stuff.start,
        top: rng.below(types as usize) as u32,
        words,
        work: need + rng.pick(&[0, 0, 0, 1, 50]),
    };
    match rng.below(80) {
        0 => list.types = rng.pick(&[0, types - 1, types + 1, 65_537, u32::MAX]),
        1 => list.bound = rng.pick(&[65_536, u32::MAX]),
        2 => list.top = rng.pick(&[types, types - 1, 65_536, u32::MAX]),
        3 => list.work = rng.pick(&[0, need - 1, need.saturating_sub(96)]),
        4..10 => {
            list.start = rng.pick(&[
                first,
                first.wrapping_add(1),
                first.wrapping_sub(1),
                u32::MAX,
            ])
        }
        _ => {}
    }
    list
}

/// Forests of some thousands of records, deep and wide, and damaged copies.
fn thousands(session: &mut ListSession, rng: &mut Rng) {
    for shape in SHAPES {
        for records in [1_500, 2_600, 4_000] {
            let stuff = Stuff {
                types: 300,
                start: 10,
                gap: 2,
                length: 40,
            };
            let words = cases::good_list(rng, &stuff, records, shape);
            session.check(&numbered(rng, &stuff, &words));
            for _ in 0..12 {
                let copy = cases::damaged(rng, stuff.types, &words);
                session.check(&numbered(rng, &stuff, &copy));
            }
        }
    }
}

/// Longer lists, which the model is too slow for: good ones, and copies with a fault of one record's own.
fn long(session: &mut ListSession, rng: &mut Rng) {
    for shape in SHAPES {
        let stuff = Stuff {
            types: 300,
            start: 7,
            gap: 2,
            length: 9,
        };
        let records = 30_000;
        let mut words = cases::good_list(rng, &stuff, records, shape);
        let expected = model::accepted(records);
        session.check_against(&plain(&stuff, &words), expected);
        let at = records / 2 + rng.below(records / 2);
        for (word, bad, number) in [
            (0, 300, 6),
            (1, u32::MAX, 7),
            (3, 6, 8),
            (3, u32::MAX - 3, 8),
        ] {
            let good = std::mem::replace(&mut words[at * RECORD_WIDTH + word], bad);
            let expected = model::refused(number, at);
            session.check_against(&plain(&stuff, &words), expected);
            words[at * RECORD_WIDTH + word] = good;
        }
    }
}

/// A list under numbers with which the Rust packs little and so is not slow.
fn plain<'a>(stuff: &Stuff, words: &'a [u32]) -> List<'a> {
    List {
        types: stuff.types,
        first_repeat: stuff.types,
        bound: 1,
        start: stuff.start,
        top: 0,
        words,
        work: work_words(words.len() / RECORD_WIDTH),
    }
}

/// As many records as are accepted, and one more, side by side and in each other. All are longer than the bound, so
/// that the Rust looks for no run.
fn longest(session: &mut ListSession) {
    for records in [MOST_RECORDS, MOST_RECORDS + 1] {
        let expected = match records {
            MOST_RECORDS => model::accepted(records),
            _ => model::refused(5, 0),
        };
        for chain in [false, true] {
            let words: Vec<u32> = (0..records as u32)
                .flat_map(|number| match chain {
                    true => [0, 0, 9, RECORD_SIZE * (number + 1)],
                    false => [0, 9 * number, 9 * number + 9, RECORD_SIZE],
                })
                .collect();
            let stuff = Stuff {
                types: 1,
                start: 0,
                gap: 0,
                length: 0,
            };
            session.check_against(&plain(&stuff, &words), expected);
        }
    }
}
