//! The runs over the part calls: short parts, all of them; long ones; random and damaged ones; and more of these on which
//! nothing but the part check is made.

pub mod bench;
mod case;
pub mod cases;
mod compare;
pub mod model;
pub mod sample;
mod seen;
mod short;
mod sweep;

use std::process::ExitCode;

use self::cases::{MOST_RECORDS, Nesting};
use self::compare::{Part, PartSession};
use crate::oracle;
use crate::report::Run;
use crate::rng::Rng;

/// Of so many cases one part check is wanted.
const CASES_A_PART: u64 = 3;

/// Compares at least so many cases, and the part check on at least a third as many parts. The Rust recurses once for each
/// nested record where it writes a part as text.
pub fn run(seed: u64, cases: u64) -> ExitCode {
    println!("seed {seed}, cases {cases} or more");
    oracle::run_on_large_stack(move || compare_all(seed, cases))
}

fn compare_all(seed: u64, cases: u64) -> ExitCode {
    let mut session = PartSession::default();
    let mut rng = Rng::new(seed);
    session.section("short parts, all of them", short::run);
    session.section("short parts, checked alone", short::check_alone);
    session.section("long parts", |session| long(session, &mut rng));
    session.section("random and damaged parts", |session| {
        while session.tally.cases() < cases {
            random(session, &mut rng);
        }
    });
    session.section("random and damaged parts, checked alone", |session| {
        while session.seen.parts < cases.div_ceil(CASES_A_PART) {
            check_alone(session, &mut rng);
        }
    });
    session.seen.print();
    let status = session.tally.finish();
    let missing = session.seen.missing();
    if missing.is_empty() {
        return status;
    }
    println!("not met: {}", missing.join(", "));
    ExitCode::FAILURE
}

/// Parts at and above the most records that end indices of 16 bits allow.
fn long(session: &mut PartSession, rng: &mut Rng) {
    let nestings = [
        Nesting::Flat,
        Nesting::Chain,
        Nesting::Mixed(8),
        Nesting::Mixed(12),
    ];
    for nesting in nestings {
        for records in [
            MOST_RECORDS - 1,
            MOST_RECORDS,
            MOST_RECORDS + 1,
            MOST_RECORDS + 70,
        ] {
            let words = cases::good_part(rng, 300, records, nesting, 65_535);
            let part = session.part(300, words);
            sweep::calls(session, rng, &part, 60);
            let words = cases::damaged(rng, 300, &part.words);
            let part = session.part(300, words);
            sweep::calls(session, rng, &part, 4);
        }
    }
}

/// One random part with calls on it, then damaged copies with a few calls each.
fn random(session: &mut PartSession, rng: &mut Rng) {
    let types = rng.pick(&[1, 2, 5, 300, 65_535, 65_536]);
    let most = rng.pick(&[4, 12, 40, 40, 120, 400]);
    let records = rng.below(most + 1);
    let widest = rng.pick(&[3, 20, 1_000, 65_535]);
    let nesting = cases::any_nesting(rng);
    let words = cases::good_part(rng, types, records, nesting, widest);
    let part = session.part(types, words);
    sweep::calls(session, rng, &part, 60);
    if records <= 40 {
        sweep::sweep(session, rng, &part);
    }
    for _ in 0..10 {
        let copy = damaged(session, rng, types, &part.words);
        sweep::calls(session, rng, &copy, 4);
    }
}

/// A damaged copy of a part, now and then under another number of types.
fn damaged(session: &mut PartSession, rng: &mut Rng, types: u32, words: &[u16]) -> Part {
    let bad_types = rng.pick(&[types, types, types, types, types, types + 1, 0, u32::MAX]);
    let words = cases::damaged(rng, types, words);
    session.part(bad_types, words)
}

/// One random part, mostly a short one, and a damaged copy.
fn check_alone(session: &mut PartSession, rng: &mut Rng) {
    let types = rng.pick(&[1, 2, 5, 300, 65_536]);
    let most = rng.pick(&[3, 6, 6, 12, 12, 30, 100]);
    let records = 1 + rng.below(most);
    let widest = rng.pick(&[3, 20, 1_000, 65_535]);
    let nesting = cases::any_nesting(rng);
    let words = cases::good_part(rng, types, records, nesting, widest);
    let part = session.part(types, words);
    damaged(session, rng, types, &part.words);
}
