//! Document 01's check of a record list, read word for word and computed in the plainest way.
//!
//! Nothing here is fast or shared with the library: spans are ranges of words, each record is held against all others,
//! and parents and siblings are looked for among all records.

use std::ops::Range;

use crate::widths::RECORD_WIDTH;

/// A list with the numbers that the call takes beside it.
#[derive(Clone, Copy, Debug)]
pub struct List<'a> {
    pub types: u32,
    pub first_repeat: u32,
    pub bound: u32,
    pub start: u32,
    pub top: u32,
    pub words: &'a [u32],
    /// Words in the work slice.
    pub work: usize,
}

/// What the call answers. Refused: the number, the place, count 0. Accepted: number 0, place 0 and the records.
#[derive(Clone, Copy, Debug, Eq, PartialEq)]
pub struct Verdict {
    pub number: u32,
    pub place: u32,
    pub count: u32,
}

/// The most records that are accepted.
pub const MOST_RECORDS: usize = 1_048_576;

pub fn refused(number: u32, place: usize) -> Verdict {
    Verdict {
        number,
        place: place as u32,
        count: 0,
    }
}

pub fn accepted(records: usize) -> Verdict {
    Verdict {
        number: 0,
        place: 0,
        count: records as u32,
    }
}

/// The work slice that a list of so many records asks for.
pub fn work_words(records: usize) -> usize {
    96 * records + 96
}

struct Record {
    id: u64,
    start: u64,
    end: u64,
    size: u64,
}

fn record(words: &[u32], number: usize) -> Record {
    let at = number * RECORD_WIDTH;
    Record {
        id: words[at].into(),
        start: words[at + 1].into(),
        end: words[at + 2].into(),
        size: words[at + 3].into(),
    }
}

/// The word offset behind a record.
fn past(number: usize) -> u64 {
    ((number + 1) * RECORD_WIDTH) as u64
}

/// The size words ending with a record's last, for a size that passes 8.
fn span(words: &[u32], number: usize) -> Range<u64> {
    let past = past(number);
    past - record(words, number).size..past
}

fn holds(outer: &Range<u64>, inner: &Range<u64>) -> bool {
    outer.start <= inner.start && inner.end <= outer.end
}

fn size_is_bad(size: u64, number: usize) -> bool {
    let width = RECORD_WIDTH as u64;
    size < width || size % width != 0 || size > past(number)
}

/// 9, for a record before which none of 6 to 9 applies.
fn begins_inside(words: &[u32], number: usize) -> bool {
    let own = span(words, number);
    (0..number).any(|earlier| {
        let other = span(words, earlier);
        other.contains(&own.start) && !holds(&own, &other)
    })
}

/// The first of 6 to 9 that a record draws, or 0.
fn fault(list: &List, number: usize) -> u32 {
    let it = record(list.words, number);
    if it.id >= u64::from(list.types) {
        6
    } else if it.start > it.end {
        7
    } else if size_is_bad(it.size, number) {
        8
    } else if begins_inside(list.words, number) {
        9
    } else {
        0
    }
}

/// The record with the smallest span that holds a record's, itself aside; none on the first level.
fn parent(words: &[u32], number: usize) -> Option<usize> {
    let own = span(words, number);
    (0..words.len() / RECORD_WIDTH)
        .filter(|&other| other != number && holds(&span(words, other), &own))
        .min_by_key(|&other| record(words, other).size)
}

fn preceding_sibling(parents: &[Option<usize>], number: usize) -> Option<usize> {
    (0..number)
        .rev()
        .find(|&earlier| parents[earlier] == parents[number])
}

/// 10, for a record of a list in which none of 6 to 9 applies.
fn out_of_place(list: &List, parents: &[Option<usize>], number: usize) -> bool {
    let own = record(list.words, number);
    let leaves = match parents[number] {
        None => own.start < u64::from(list.start),
        Some(around) => {
            let around = record(list.words, around);
            own.start < around.start || own.end > around.end
        }
    };
    let too_early = preceding_sibling(parents, number)
        .is_some_and(|before| own.start < record(list.words, before).end);
    leaves || too_early
}

/// 1, 2, 3, 4, 5 and 11: what is refused before a record is looked at.
fn early(list: &List) -> Option<u32> {
    let records = list.words.len() / RECORD_WIDTH;
    if list.types > 65_536 {
        Some(1)
    } else if list.bound > 65_535 {
        Some(2)
    } else if list.top >= list.types {
        Some(3)
    } else if list.words.len() % RECORD_WIDTH != 0 {
        Some(4)
    } else if records > MOST_RECORDS {
        Some(5)
    } else if list.work < work_words(records) {
        Some(11)
    } else {
        None
    }
}

pub fn check(list: &List) -> Verdict {
    if let Some(number) = early(list) {
        return refused(number, 0);
    }
    let records = list.words.len() / RECORD_WIDTH;
    for number in 0..records {
        let refusal = fault(list, number);
        if refusal != 0 {
            return refused(refusal, number);
        }
    }
    let parents: Vec<Option<usize>> = (0..records)
        .map(|number| parent(list.words, number))
        .collect();
    match (0..records).find(|&number| out_of_place(list, &parents, number)) {
        Some(number) => refused(10, number),
        None => accepted(records),
    }
}
