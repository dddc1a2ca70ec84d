//! A sample of small lists with the Rust's trees.
//!
//! Only lists on which document 01 and the Rust agree are taken: accepted and built, or refused where the Rust panics. The
//! answers are the Rust's; the model only says whether a list is refused.

use crate::builds::case::{Case, Numbers, examples, reading};
use crate::lists::cases::damaged;
use crate::lists::model;
use crate::oracle::Oracle;
use crate::random_lists;
use crate::recording::{self, Taken};
use crate::rng::Rng;
use crate::trees::rust_trees;
use crate::widths::{CELL_WIDTH, ID, KIND, RECORD_WIDTH};

/// The longest lists that are taken.
const MOST_RECORDS: usize = 60;

#[derive(Default)]
pub struct Sample {
    oracle: Oracle,
    taken: Taken,
}

impl recording::Sample for Sample {
    const LINES: &str = "lists";

    fn examples(&mut self, rng: &mut Rng) {
        examples(|case| self.take(rng, case));
    }

    /// A random list, now and then with one thing wrong.
    fn draw(&mut self, rng: &mut Rng) {
        let list = random_lists::random(rng);
        let mut words = list.records();
        if rng.one_in(4) {
            words = damaged(rng, list.types, &words);
        }
        let mut numbers = Numbers::of(&list);
        match rng.below(90) {
            0 => numbers.types = 65_537,
            1 => numbers.bound = 65_536,
            2 => numbers.top = numbers.types,
            _ => {}
        }
        self.take(rng, &numbers.with(&words));
    }

    fn taken(&self) -> &Taken {
        &self.taken
    }
}

impl Sample {
    /// Takes a list with the Rust's answer unless it is too long.
    fn take(&mut self, rng: &mut Rng, case: &Case) {
        if case.list.words.len() > MOST_RECORDS * RECORD_WIDTH {
            return;
        }
        let number = model::check(&case.list).number;
        let built = self.oracle.build_given(&case.list, case.given);
        if (number == 0) != built.is_ok() {
            return;
        }
        let (cells, words) =
            built.map_or_else(|_| Default::default(), |tree| rust_trees::cells_of(&tree));
        let room = [cells.len(), words.len()].map(|used| used + rng.pick(&[0, 0, 3]));
        let kind = kind(case, number, &cells);
        self.taken.take(kind, quota(number), line(case, room), || {
            let told = match number {
                0 => {
                    let count = cells.len() / CELL_WIDTH;
                    format!("cells {count} words {}", words.len())
                }
                _ => String::from("refused"),
            };
            let cells = recording::output(cells, room[0]);
            let words = recording::output(words, room[1]);
            format!("{told} :{cells} :{words}")
        });
    }
}

fn quota(number: u32) -> usize {
    if number == 0 { 5 } else { 12 }
}

/// Each number of parts, of repeat trees and of levels is a kind of its own, up to a few, where a list is accepted.
fn kind(case: &Case, number: u32, cells: &[u32]) -> String {
    if number != 0 {
        return format!("refused with {number}");
    }
    let list = &case.list;
    let below = || cells.chunks(CELL_WIDTH).skip(1);
    let parts = below().filter(|cell| cell[KIND] == 2).count();
    let repeat = |cell: &&[u32]| cell[KIND] == 1 && cell[ID] >= list.first_repeat;
    let repeats = below().filter(repeat).count();
    let levels = reading(list.words, list.first_repeat).levels;
    let (parts, repeats, levels) = (parts.min(3), repeats.min(5), levels.min(4));
    format!("{parts} parts, {repeats} repeat trees, {levels} levels")
}

/// T F b S top given length, room for cells and for words, records.
fn line(case: &Case, room: [usize; 2]) -> String {
    let list = &case.list;
    format!(
        "{} {} {} {} {} {} {} {} {}{}",
        list.types,
        list.first_repeat,
        list.bound,
        list.start,
        list.top,
        u32::from(case.given.is_some()),
        case.given.unwrap_or(0),
        room[0],
        room[1],
        recording::spaced(list.words)
    )
}
