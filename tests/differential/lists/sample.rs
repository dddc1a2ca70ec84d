//! A sample of short lists with the Rust's answers.
//!
//! Only lists on which document 01 and the Rust agree are taken: accepted and built, or refused and not built. The
//! answers are the Rust's; the model only says which kind of list it is.

use crate::builds::case::examples;
use crate::lists::cases::{self, Stuff};
use crate::lists::model::{self, List, work_words};
use crate::oracle::Oracle;
use crate::recording::{self, Taken};
use crate::rng::Rng;
use crate::widths::RECORD_WIDTH;

const MOST_RECORDS: usize = 12;

#[derive(Default)]
pub struct Sample {
    oracle: Oracle,
    taken: Taken,
}

/// How many lists of a kind are taken. Each number of records is a kind of its own where a list is accepted.
fn quota(number: u32, records: usize) -> usize {
    match (number, records) {
        (0, 0) => 10,
        (0, _) => 32,
        (1..=3, _) => 16,
        _ => 60,
    }
}

impl recording::Sample for Sample {
    const LINES: &str = "lists";

    fn examples(&mut self, _: &mut Rng) {
        examples(|case| self.take(&case.list));
    }

    /// A random list, good or damaged.
    fn draw(&mut self, rng: &mut Rng) {
        let stuff = Stuff {
            types: rng.pick(&[1, 2, 5, 300, 65_536]),
            start: rng.pick(&[0, 0, 3, 70_000]),
            gap: rng.pick(&[0, 1, 3]),
            length: rng.pick(&[0, 1, 8, 70_000]),
        };
        let shape = cases::any_shape(rng);
        let records = rng.below(MOST_RECORDS + 1);
        let mut words = cases::good_list(rng, &stuff, records, shape);
        if rng.one_in(2) {
            words = cases::damaged(rng, stuff.types, &words);
        }
        let types = stuff.types;
        let mut list = List {
            types,
            first_repeat: rng.pick(&[0, types / 2, types - 1, types, types, types + 1]),
            bound: rng.pick(&[0, 1, 5, 1_024, 65_535]),
            start: stuff.start,
            top: rng.below(types as usize) as u32,
            words: &words,
            work: 0,
        };
        match rng.below(30) {
            0 => list.types = rng.pick(&[0, 65_537, u32::MAX]),
            1 => list.bound = rng.pick(&[65_536, u32::MAX]),
            2 => list.top = rng.pick(&[types, 65_535]),
            3 => list.start = rng.pick(&[stuff.start + 1, u32::MAX]),
            _ => {}
        }
        self.take(&list);
    }

    fn taken(&self) -> &Taken {
        &self.taken
    }
}

impl Sample {
    /// Takes a list on which both agree; the program that is asked lends a work slice that is large enough.
    fn take(&mut self, list: &List) {
        let records = list.words.len() / RECORD_WIDTH;
        let number = model::check(&List {
            work: work_words(records),
            ..*list
        })
        .number;
        let built = self.oracle.build(list).is_ok();
        if (number == 0) != built || records > MOST_RECORDS {
            return;
        }
        let kind = match number {
            0 => format!("taken, {records} records"),
            _ => format!("refused with {number}"),
        };
        let answer = if built { "taken" } else { "refused" };
        let most = quota(number, records);
        self.taken.take(kind, most, line(list), || answer.into());
    }
}

fn line(list: &List) -> String {
    format!(
        "{} {} {} {} {}{}",
        list.types,
        list.first_repeat,
        list.bound,
        list.start,
        list.top,
        recording::counted(list.words)
    )
}
