//! One case at a time: library against model in everything, library against the Rust where the Rust has an answer.

use crate::calls;
use crate::lent::{UNTOUCHED, answered};
use crate::oracle::{self, Oracle, TreeBuffer};
use crate::parts::case::{Call, Case};
use crate::parts::model::{self, Answer, Checked, Search, Slice};
use crate::parts::seen::Seen;
use crate::report::{Outcome, Run, Tally};
use crate::rezel::Panicked;

/// The most words that are lent to answer in: one more than any call tells.
const MOST_HELD: usize = 5;

/// One slice or search in so many is made again with fewer words to answer in. Each part check is; so many of them in a row
/// have the same number, so that parts and damaged copies in turn meet every number.
const FEWER_HELD_EVERY: u64 = 5;

/// A part under a number of types, with what model and Rust make of it: many calls use it.
pub struct Part {
    pub types: u32,
    pub words: Vec<u16>,
    pub verdict: Checked,
    buffer: Result<TreeBuffer, Panicked>,
}

impl Part {
    pub fn new(oracle: &mut Oracle, types: u32, words: Vec<u16>) -> Self {
        let verdict = model::check(types, &words);
        let buffer = oracle.check(types, &words);
        Self {
            types,
            words,
            verdict,
            buffer,
        }
    }

    /// The Rust's buffer of these words, if it did not refuse them.
    pub fn rust(&self) -> Result<&TreeBuffer, Panicked> {
        self.buffer.as_ref().map_err(|panicked| *panicked)
    }

    pub fn case(&self, call: Call) -> Case<'_> {
        Case {
            types: self.types,
            words: &self.words,
            call,
        }
    }
}

#[derive(Default)]
pub struct PartSession {
    pub oracle: Oracle,
    pub tally: Tally,
    /// Of the parts on which the part check was compared.
    pub seen: Seen,
    calls: u64,
}

impl Run for PartSession {
    const CASES: &str = "cases";

    fn compared(&self) -> u64 {
        self.tally.cases()
    }
}

impl PartSession {
    /// A new part, after the part check on it has been compared.
    pub fn part(&mut self, types: u32, words: Vec<u16>) -> Part {
        let part = Part::new(&mut self.oracle, types, words);
        self.check(&part);
        part
    }

    /// The Rust has no counts in its check; the records are its buffer's, and the others what it makes of the buffer.
    fn check(&mut self, part: &Part) {
        let case = part.case(Call::Check);
        let call = |info: &mut [u32]| calls::part_check(part.types, &part.words, info);
        let fewer = Some(self.seen.parts / FEWER_HELD_EVERY);
        self.seen.note(&part.words, &part.verdict);
        if !self.answers(&case, part.verdict, fewer, call) {
            return;
        }
        let same = part.rust().map(|buffer| {
            buffer.data() == part.words && oracle::counts(buffer) == Ok(part.verdict.counts)
        });
        self.settle(&case, part.verdict.number, same);
    }

    pub fn slice(&mut self, part: &Part, call: Slice) {
        let case = part.case(Call::Slice(call));
        let before: Vec<u16> = (0..call.room).map(filler).collect();
        let (expected, wanted) = model::slice(part.verdict, &part.words, &call, &before);
        let mut out = before.clone();
        let made = |info: &mut [u32]| {
            out.copy_from_slice(&before);
            calls::part_slice(part.types, &part.words, &call, &mut out, info)
        };
        let fewer = self.now_and_then();
        if !self.answers(&case, expected, fewer, made) {
            return;
        }
        if out != wanted {
            self.tally.differ(&case, "output differs from the model's");
            return;
        }
        let rust = slice_rust(part, &call);
        if expected.number == 13 && rust.is_ok() {
            let class = "slice 13: the Rust allocates and has no room to run out of";
            self.tally.count(&case, 13, Outcome::Intended(class));
            return;
        }
        let same = rust.map(|(words, length)| {
            let counts = [words.len() as u64, u64::from(length)];
            counts == expected.counts && out.starts_with(&words)
        });
        self.settle(&case, expected.number, same);
    }

    pub fn search(&mut self, part: &Part, call: Search) {
        let case = part.case(Call::Search(call));
        let expected = model::search(part.verdict, &part.words, &call);
        let made = |info: &mut [u32]| calls::part_search(part.types, &part.words, &call, info);
        let fewer = self.now_and_then();
        if !self.answers(&case, expected, fewer, made) {
            return;
        }
        if matches!(expected.number, 21 | 22) {
            let class = "search 21, 22: not shown to the Rust, which may never return";
            self.tally
                .count(&case, expected.number, Outcome::Intended(class));
            return;
        }
        let rust = search_rust(part, &call);
        if let (24 | 25, Ok(Some(at))) = (expected.number, rust) {
            self.early(&case, &call, expected.number, at);
            return;
        }
        let same = rust.map(|found| {
            let counts = found.map_or([0, 0], |at| [1, at as u64]);
            counts == expected.counts
        });
        self.settle(&case, expected.number, same);
    }

    /// 24 and 25 where the Rust answers: it may only have stopped at a match before it met the fault.
    fn early(&mut self, case: &Case, call: &Search, number: u32, at: usize) {
        if model::early_match(case.words, call) != Some(at) {
            self.tally.differ(case, "the Rust answers another match");
            return;
        }
        let class = match number {
            24 => "search 24: the Rust stops at a match before",
            _ => "search 25: the Rust stops at a match before",
        };
        self.tally.count(case, number, Outcome::Intended(class));
    }

    /// A number for some of the slices and searches, one higher each time.
    fn now_and_then(&mut self) -> Option<u64> {
        self.calls += 1;
        let turn = self.calls / FEWER_HELD_EVERY;
        (self.calls % FEWER_HELD_EVERY == 0).then_some(turn)
    }

    /// Whether the library's number, place and counts are the model's, with the most words to answer in and, where a number
    /// is given, with 0 to all of them in turn by that number.
    fn answers<const COUNTS: usize>(
        &mut self,
        case: &Case,
        expected: Answer<COUNTS>,
        fewer: Option<u64>,
        mut call: impl FnMut(&mut [u32]) -> u32,
    ) -> bool {
        let fewer = fewer.map(|turn| turn as usize % (MOST_HELD + 1));
        let mut held = fewer.into_iter().chain([MOST_HELD]);
        held.all(|held| self.answers_with(case, expected, held, &mut call))
    }

    /// The same with so many words. Those behind what is told must stay, and one behind the slice.
    fn answers_with<const COUNTS: usize>(
        &mut self,
        case: &Case,
        expected: Answer<COUNTS>,
        held: usize,
        call: &mut impl FnMut(&mut [u32]) -> u32,
    ) -> bool {
        let mut info = [UNTOUCHED; MOST_HELD + 1];
        let number = call(&mut info[..held]);
        let told: Vec<u32> = [expected.place]
            .iter()
            .chain(&expected.counts)
            .copied()
            .map(word)
            .collect();
        if number == expected.number && info == answered(&told, held) {
            return true;
        }
        let what = format!("library {number} {info:x?}, model {expected:?}, {held} words held");
        self.tally.differ(case, &what);
        false
    }

    /// Accepted: the Rust must answer the same. Refused: it must panic.
    fn settle(&mut self, case: &Case, number: u32, same: Result<bool, Panicked>) {
        match (number, same) {
            (0, Ok(true)) => self.tally.count(case, 0, Outcome::Same),
            (0, Ok(false)) => self.tally.differ(case, "the Rust answers something else"),
            (0, Err(Panicked)) => self.tally.differ(case, "accepted, and the Rust panics"),
            (_, Err(Panicked)) => self.tally.count(case, number, Outcome::Panics),
            (_, Ok(_)) => {
                let what = format!("refused with {number}, and the Rust answers");
                self.tally.differ(case, &what);
            }
        }
    }
}

pub fn slice_rust(part: &Part, call: &Slice) -> Result<(Vec<u16>, u32), Panicked> {
    oracle::slice(part.rust()?, call.from, call.to, call.base)
}

pub fn search_rust(part: &Part, call: &Search) -> Result<Option<usize>, Panicked> {
    oracle::search(part.rust()?, call)
}

/// A place or a count as a word of an answer slice.
fn word(number: u64) -> u32 {
    u32::try_from(number).unwrap_or(u32::MAX)
}

/// What stands in word `at` of an output slice before a call.
fn filler(at: usize) -> u16 {
    (at as u16).wrapping_mul(40_503) ^ 0xa5a5
}
