//! The runs over the build: short lists, all of them; lists at the limits; deep and long ones; random and damaged ones.

pub mod bench;
mod bundles;
pub mod case;
mod compare;
pub mod sample;
mod short;
mod tally;

use std::process::ExitCode;
use std::thread;

use self::bundles::{Around, Bundle, FIRST_REPEAT, PLACES, Place, TYPES};
use self::case::{Case, Kept, Numbers, without_one};
use self::compare::BuildSession;
use self::tally::{BuildTally, Difference};
use crate::lists::cases::{Shape, Stuff, any_shape, damaged, good_list};
use crate::oracle::on_large_stack;
use crate::random_lists;
use crate::report::{Input, Run};
use crate::rng::Rng;
use crate::widths::RECORD_SIZE;

/// Lists inside some 2,500 records, and lists of thousands of records.
const DEEP: usize = 4_000;
const THOUSANDS: usize = 400;

/// So many times each random forest is built with other numbers.
const OTHERS: usize = 8;

/// The records of a long list.
const LONG: usize = 200_000;

/// Compares at least so many lists.
pub fn run(seed: u64, cases: u64) -> ExitCode {
    let threads = thread::available_parallelism().map_or(1, |count| count.get().min(8));
    println!("seed {seed}, lists {cases} or more, on {threads} threads");
    let mut tally = BuildTally::default();
    let working: Vec<_> = (0..threads)
        .map(|me| {
            let share = Share::new(seed, cases, me, threads);
            on_large_stack(move || share.work())
        })
        .collect();
    for thread in working {
        match thread.join() {
            Ok(part) => tally.add(part),
            Err(_) => return ExitCode::FAILURE,
        }
    }
    tally.print();
    match tally.smallest {
        None => ExitCode::SUCCESS,
        Some(found) => {
            let found = shrunk(found);
            println!(
                "smallest: {}\n  {}",
                found.kept.case().describe(),
                found.what
            );
            ExitCode::FAILURE
        }
    }
}

/// A list that differs and of which no record can be left out, but for long ones.
fn shrunk(mut found: Difference) -> Difference {
    let mut session = BuildSession::default();
    while found.kept.case().list.words.len() <= 1_200 {
        let case = found.kept.case();
        let smaller = without_one(case.list.words).find_map(|words| {
            let mut list = case.list;
            list.words = &words;
            let case = Case { list, ..case };
            let what = session.compare(&case).err()?;
            let kept = Kept::new(&case);
            Some(Difference { kept, what })
        });
        match smaller {
            Some(smaller) => found = smaller,
            None => break,
        }
    }
    found
}

/// One thread's share of a run: every so many lists of those that are counted, and random ones up to its part of the cases.
struct Share {
    me: usize,
    of: usize,
    turn: usize,
    cases: u64,
    seed: u64,
    session: BuildSession,
}

impl Run for Share {
    const CASES: &str = "lists";

    fn compared(&self) -> u64 {
        self.session.tally.lists()
    }
}

impl Share {
    fn new(seed: u64, cases: u64, me: usize, of: usize) -> Self {
        Self {
            me,
            of,
            turn: 0,
            cases: cases / of as u64 + 1,
            seed,
            session: BuildSession::default(),
        }
    }

    fn work(mut self) -> BuildTally {
        self.timed("short, all of them", |share| {
            short::spelt(&mut |case| share.list("short, all of them", case));
        });
        self.timed("short and accepted, all", |share| {
            short::accepted(&mut |case| share.list("short and accepted, all", case));
        });
        self.timed("empty siblings", Self::empties);
        self.timed("full parts", Self::full_parts);
        self.timed("chains around the cut", Self::chains);
        self.timed("deep", Self::deep);
        self.timed("200,000 records", Self::long);
        self.timed("thousands of records", Self::thousands);
        self.timed("random and damaged", |share| {
            let mut rng = share.random();
            while share.compared() < share.cases {
                random(&mut share.session, &mut rng);
                written(&mut share.session, &mut rng);
            }
        });
        self.session.tally
    }

    fn timed(&mut self, kind: &str, work: impl FnOnce(&mut Self)) {
        self.section(&format!("thread {}, {kind}", self.me), work);
    }

    /// Whether the next list that is counted is this thread's.
    fn mine(&mut self) -> bool {
        self.turn = (self.turn + 1) % self.of;
        self.turn == self.me
    }

    /// Other numbers for each thread and each turn.
    fn random(&mut self) -> Rng {
        let mut rng = Rng::new(self.seed);
        let mixed = rng.next() ^ (self.me as u64 + 1).wrapping_mul(0x1234_5679);
        self.seed = self.seed.wrapping_add(0x5555);
        Rng::new(mixed)
    }

    fn list(&mut self, kind: &'static str, case: &Case) {
        if self.mine() {
            self.session.check(kind, case);
        }
    }

    /// About as many empty siblings as one part holds, or two.
    fn empties(&mut self) {
        for count in [16_382, 16_383, 16_384, 16_385] {
            for place in PLACES {
                for bound in [0, 1_024] {
                    self.empty(count, place, bound);
                }
            }
            for bound in [1, 65_535] {
                self.empty(count, Place::First, bound);
            }
        }
        for count in [32_766, 32_767, 49_150] {
            self.empty(count, Place::First, 1_024);
        }
    }

    fn empty(&mut self, count: usize, place: Place, bound: u32) {
        if self.mine() {
            let words = bundles::empties(count, place);
            let numbers = Numbers::plain(TYPES, FIRST_REPEAT, bound);
            self.session.check("empty siblings", &numbers.with(&words));
        }
    }

    /// Forests of about 65,532 words without their repeat records.
    fn full_parts(&mut self) {
        let mut rng = self.random();
        let shapes = [
            Shape::Flat,
            Shape::Chain,
            Shape::Mixed(60, 5),
            Shape::Mixed(20, 2),
            Shape::Wide(999),
            Shape::Binary,
        ];
        for shape in shapes {
            for ordinary in [16_382, 16_383, 16_384, 16_390] {
                for repeats in [0, 1, 500, 9_000] {
                    if self.mine() {
                        let words = bundles::tight(&mut rng, shape, ordinary, repeats);
                        let bound = rng.pick(&[0, 1, 1_024, 65_535]);
                        let numbers = Numbers::plain(TYPES, FIRST_REPEAT, bound);
                        self.session.check("full parts", &numbers.with(&words));
                    }
                }
            }
        }
    }

    /// Chains of one range with as many levels as are listed whole, fewer and more.
    fn chains(&mut self) {
        for levels in 2_496..=2_508 {
            for length in [0, 2, 2_000, 65_535, 65_536, 70_000] {
                for bound in [0, 1, 1_024, 65_535] {
                    for leaf in [0, 2] {
                        let mut words = vec![leaf, 0, length, RECORD_SIZE];
                        for level in 1..levels {
                            words.extend([0, 0, length, RECORD_SIZE * (level + 1)]);
                        }
                        let numbers = Numbers::plain(TYPES, FIRST_REPEAT, bound);
                        self.list("chains around the cut", &numbers.with(&words));
                    }
                }
            }
        }
    }

    /// Random lists inside so many records that some of them stand below the cut.
    fn deep(&mut self) {
        let mut rng = self.random();
        for _ in 0..DEEP / self.of {
            let inner = random_lists::deep(&mut rng);
            let mut numbers = Numbers::plain(inner.types, inner.first_repeat, inner.bound);
            if rng.one_in(8) {
                numbers.bound = 65_535;
            }
            let shorter = rng.pick(&[1, 1, 1, 1, 0]);
            let around = Around {
                levels: 2_485 + rng.below(22),
                length: (numbers.bound + 1) * shorter + rng.below(9) as u32,
                repeats: rng.pick(&[1, 3, 50, 100_000, 100_000]),
                leaves: rng.pick(&[2, 20, 400, 100_000, 100_000]),
                first_repeat: inner.first_repeat,
                types: inner.types,
            };
            let words = bundles::wrapped(&mut rng, &inner.records(), around);
            self.session.check("deep", &numbers.with(&words));
        }
    }

    /// Long lists of every shape, and copies of them with one thing wrong.
    fn long(&mut self) {
        let mut rng = self.random();
        let shapes = [
            Bundle::Leaves(9),
            Bundle::Leaves(1),
            Bundle::Chain(70_000),
            Bundle::Chain(2),
            Bundle::Chains(100),
            Bundle::Chains(2_000),
            Bundle::Mixed,
            Bundle::Repeat(1),
            Bundle::Repeat(7),
            Bundle::LeftNested,
            Bundle::Plain,
            Bundle::All,
        ];
        for shape in shapes {
            for bound in [0, 40, 1_024, 65_535] {
                if self.mine() && !slow(shape, bound) {
                    let words = bundles::bundle(&mut rng, shape, LONG);
                    let numbers = Numbers::plain(TYPES, FIRST_REPEAT, bound);
                    self.session.check("200,000 records", &numbers.with(&words));
                    let copy = damaged(&mut rng, TYPES, &words);
                    self.session.check("200,000 records", &numbers.with(&copy));
                }
            }
        }
    }

    /// Forests of some thousands of records, deep and wide.
    fn thousands(&mut self) {
        let mut rng = self.random();
        for _ in 0..THOUSANDS / self.of {
            let stuff = Stuff {
                types: rng.pick(&[2, 3, 300]),
                start: rng.pick(&[0, 10]),
                gap: rng.pick(&[0, 0, 2]),
                length: rng.pick(&[0, 1, 40]),
            };
            let shape = any_shape(&mut rng);
            let count = 1_500 + rng.below(4_000);
            let words = good_list(&mut rng, &stuff, count, shape);
            let numbers = any_numbers(&mut rng, &stuff);
            self.session
                .check("thousands of records", &numbers.with(&words));
        }
    }
}

/// Lists on which the Rust needs many seconds: it scans more records than a part holds, again and again.
fn slow(shape: Bundle, bound: u32) -> bool {
    let dense = matches!(
        shape,
        Bundle::Leaves(1) | Bundle::Repeat(_) | Bundle::LeftNested | Bundle::Plain | Bundle::All
    );
    dense && bound == 65_535
}

/// A random forest of up to 90 records under numbers that it was made for, and damaged copies of it.
fn random(session: &mut BuildSession, rng: &mut Rng) {
    let list = random_lists::random(rng);
    let words = list.records();
    let numbers = Numbers::of(&list);
    session.check("random", &numbers.with(&words));
    for _ in 0..OTHERS {
        let other = Numbers {
            bound: rng.pick(&[0, 1, 2, 4, 7, 12, 30, 1_024, 65_535]),
            first_repeat: rng.below(list.types as usize + 2) as u32,
            top: rng.below(list.types as usize) as u32,
            given: rng.pick(&[None, None, Some(0), Some(5), Some(u32::MAX)]),
            ..numbers
        };
        session.check("random, other numbers", &other.with(&words));
    }
    let copy = damaged(rng, list.types, &words);
    session.check("damaged", &numbers.with(&copy));
}

/// A random forest of any number of types, and now and then a number that is refused.
fn written(session: &mut BuildSession, rng: &mut Rng) {
    let stuff = Stuff::any(rng, &[0, 1, 3, 20, 70_000]);
    let most = rng.pick(&[4, 8, 12, 20, 40, 120]);
    let shape = any_shape(rng);
    let count = rng.below(most + 1);
    let words = good_list(rng, &stuff, count, shape);
    let numbers = any_numbers(rng, &stuff);
    let mut case = numbers.with(&words);
    match rng.below(40) {
        0 => case.list.types = rng.pick(&[0, stuff.types - 1, stuff.types + 1, 65_537, u32::MAX]),
        1 => case.list.bound = rng.pick(&[65_536, u32::MAX]),
        2 => case.list.top = rng.pick(&[stuff.types, 65_536, u32::MAX]),
        3 => case.list.work = rng.pick(&[0, case.list.work - 1, case.list.work - 96]),
        _ => {}
    }
    session.check("random, any types", &case);
}

fn any_numbers(rng: &mut Rng, stuff: &Stuff) -> Numbers {
    let types = stuff.types;
    Numbers {
        types,
        first_repeat: rng.pick(&[0, types / 2, types / 2, types - 1, types, u32::MAX]),
        bound: rng.pick(&[0, 1, 2, 10, 60, 1_024, 65_535]),
        start: stuff.start,
        top: rng.below(types as usize) as u32,
        given: rng.pick(&[None, None, Some(0), Some(9), Some(u32::MAX)]),
    }
}
