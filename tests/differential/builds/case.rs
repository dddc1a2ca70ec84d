//! A record list with what a build is given with it, and what is read off its records alone.

use crate::lists::model::{List, work_words};
use crate::random_lists;
use crate::report::{Input, shortened};
use crate::widths::{RECORD_SIZE, RECORD_WIDTH};

/// A list as the list check takes it, and a given length or none.
#[derive(Clone, Copy, Debug)]
pub struct Case<'a> {
    pub list: List<'a>,
    pub given: Option<u32>,
}

/// A case with its own copy of the records.
pub struct Kept {
    records: Vec<u32>,
    list: List<'static>,
    given: Option<u32>,
}

impl Kept {
    pub fn new(case: &Case) -> Self {
        Self {
            records: case.list.words.to_vec(),
            list: List {
                words: &[],
                ..case.list
            },
            given: case.given,
        }
    }

    pub fn case(&self) -> Case<'_> {
        Case {
            list: List {
                words: &self.records,
                ..self.list
            },
            given: self.given,
        }
    }
}

/// The numbers of a build, for lists that are made apart from them.
#[derive(Clone, Copy, Debug)]
pub struct Numbers {
    pub types: u32,
    pub first_repeat: u32,
    pub bound: u32,
    pub start: u32,
    pub top: u32,
    pub given: Option<u32>,
}

impl Numbers {
    /// The top id 0, from 0 on, and no length.
    pub fn plain(types: u32, first_repeat: u32, bound: u32) -> Self {
        Self {
            types,
            first_repeat,
            bound,
            start: 0,
            top: 0,
            given: None,
        }
    }

    /// Those that a random list was made for.
    pub fn of(list: &random_lists::List) -> Self {
        Self {
            types: list.types,
            first_repeat: list.first_repeat,
            bound: list.bound,
            start: list.start,
            top: list.top,
            given: list.given,
        }
    }

    /// A list under these numbers, with a work slice that is just large enough.
    pub fn with(self, words: &[u32]) -> Case<'_> {
        Case {
            list: List {
                types: self.types,
                first_repeat: self.first_repeat,
                bound: self.bound,
                start: self.start,
                top: self.top,
                words,
                work: work_words(words.len() / RECORD_WIDTH),
            },
            given: self.given,
        }
    }
}

/// Document 01's lists, as far as they are short.
pub fn examples(mut visit: impl FnMut(&Case)) {
    let plain = [1, 0, 2, 4, 2, 3, 5, 4, 3, 0, 6, 12];
    for bound in [1_024, 5, 1] {
        visit(&Numbers::plain(4, 4, bound).with(&plain));
    }
    for start in [5, 6] {
        let numbers = Numbers::plain(4, 4, 1_024);
        visit(&Numbers { start, ..numbers }.with(&[1, 5, 7, 4]));
    }
    let repeats = [1, 0, 2, 4, 2, 0, 2, 8, 1, 2, 4, 4, 2, 2, 4, 8, 2, 0, 4, 20];
    visit(&Numbers::plain(3, 2, 2).with(&repeats));
    visit(&Numbers::plain(4, 4, 1_024).with(&[]));
}

impl Input for Case<'_> {
    fn call(&self) -> &'static str {
        "build"
    }

    fn describe(&self) -> String {
        let it = &self.list;
        let given = match self.given {
            Some(length) => format!("length {length}"),
            None => String::from("no length"),
        };
        let records: Vec<&[u32]> = it.words.chunks(RECORD_WIDTH).collect();
        format!(
            "T {}, F {}, b {}, S {}, top {}, {given}, work {}, records {}",
            it.types,
            it.first_repeat,
            it.bound,
            it.start,
            it.top,
            it.work,
            shortened(&records)
        )
    }

    fn weight(&self) -> (usize, u128) {
        let (words, numbers) = self.list.weight();
        (words, numbers + u128::from(self.given.unwrap_or(0)))
    }
}

/// The ordinary reading of an accepted list, and how deep the list is nested.
pub struct Reading {
    pub lines: Vec<u32>,
    pub levels: usize,
}

/// A record's place among all, parents first, is the number of records before its span and of those around it.
pub fn reading(records: &[u32], first_repeat: u32) -> Reading {
    let count = records.len() / RECORD_WIDTH;
    // The spans around a record, outermost first: the first record in each, and the depth below it.
    let mut open: Vec<(usize, u32)> = Vec::new();
    let mut order = vec![(0, 0); count];
    let mut levels = 0;
    for number in (0..count).rev() {
        while open.last().is_some_and(|&(first, _)| first > number) {
            open.pop();
        }
        let record = record_at(records, number);
        let first = number + 1 - record[3] as usize / RECORD_WIDTH;
        let depth = open.last().map_or(0, |&(_, below)| below);
        order[first + open.len()] = (number, depth);
        let ordinary = record[0] < first_repeat;
        open.push((first, depth + u32::from(ordinary)));
        levels = levels.max(open.len());
    }
    let mut lines = Vec::new();
    for (number, depth) in order {
        let record = record_at(records, number);
        if record[0] < first_repeat {
            lines.extend([depth, record[0], record[1], record[2]]);
        }
    }
    Reading { lines, levels }
}

fn record_at(records: &[u32], number: usize) -> &[u32] {
    &records[number * RECORD_WIDTH..][..RECORD_WIDTH]
}

/// All lists with one record less: what it held stands in its place.
pub fn without_one(records: &[u32]) -> impl Iterator<Item = Vec<u32>> {
    let count = records.len() / RECORD_WIDTH;
    (0..count).map(move |gone| {
        let mut rest = Vec::with_capacity(records.len());
        for (number, record) in records.chunks(RECORD_WIDTH).enumerate() {
            if number == gone {
                continue;
            }
            let first = (number + 1).saturating_sub(record[3] as usize / RECORD_WIDTH);
            let held = number > gone && first <= gone;
            let less = if held { RECORD_SIZE } else { 0 };
            rest.extend([record[0], record[1], record[2], record[3] - less]);
        }
        rest
    })
}

/// Records written one after the other, children before parents.
#[derive(Default)]
pub struct Records {
    pub words: Vec<u32>,
}

impl Records {
    pub fn leaf(&mut self, id: u32, start: u32, end: u32) {
        self.words.extend([id, start, end, RECORD_SIZE]);
    }

    /// A record around all that was written from a word offset on.
    pub fn around(&mut self, from: usize, id: u32, start: u32, end: u32) {
        let size = self.words.len() - from + RECORD_WIDTH;
        self.words.extend([id, start, end, size as u32]);
    }
}
