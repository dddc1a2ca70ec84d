//! Part checks and slices of short parts, good and bad ones, with the plain model's answers.

use std::fmt;

use crate::answers::BEFORE;
use crate::antt;
use crate::parts::cases;
use crate::parts::model::{self, Answer, Checked, Slice};
use crate::rng::Rng;
use crate::widths::RECORD_WIDTH;

/// The most records of a part.
const MOST_RECORDS: usize = 12;

/// Bounds of slices are at most so many words behind the part.
const FARTHEST: usize = 8;

/// A part under a number of types.
#[derive(Clone)]
pub struct Part {
    types: u32,
    words: Vec<u16>,
}

/// A slice of it.
#[derive(Clone)]
pub struct Sliced {
    part: Part,
    call: Slice,
}

impl fmt::Display for Part {
    fn fmt(&self, out: &mut fmt::Formatter<'_>) -> fmt::Result {
        write!(out, "part: T {}, words", self.types)?;
        for record in self.words.chunks(RECORD_WIDTH) {
            write!(out, " {record:?}")?;
        }
        Ok(())
    }
}

impl fmt::Display for Sliced {
    fn fmt(&self, out: &mut fmt::Formatter<'_>) -> fmt::Result {
        let Slice {
            from,
            to,
            base,
            room,
        } = self.call;
        let part = &self.part;
        write!(
            out,
            "slice {from} to {to}, base {base}, room {room}, of {part}"
        )
    }
}

impl Part {
    fn verdict(&self) -> Checked {
        model::check(self.types, &self.words)
    }

    pub fn number(&self) -> u32 {
        self.verdict().number
    }

    /// What the definition is to give of it.
    pub fn claim(&self) -> String {
        format!(
            "part_answer {} {}\n    ≡ {}",
            self.types,
            antt::list(&self.words),
            antt::list(told(self.verdict())),
        )
    }

    pub fn size(&self) -> usize {
        self.words.len()
    }

    /// The part without one of its records, or without the words behind the last whole one.
    pub fn smaller(&self) -> impl Iterator<Item = Part> {
        let offsets = (0..self.words.len()).step_by(RECORD_WIDTH);
        offsets.map(|offset| {
            let mut words = self.words.clone();
            let end = words.len().min(offset + RECORD_WIDTH);
            words.drain(offset..end);
            let types = self.types;
            Part { types, words }
        })
    }
}

impl Sliced {
    /// The model's answer, and what the output holds afterwards.
    fn answer(&self) -> (Answer<2>, Vec<u16>) {
        let before = vec![BEFORE; self.call.room];
        let part = &self.part;
        model::slice(part.verdict(), &part.words, &self.call, &before)
    }

    pub fn number(&self) -> u32 {
        self.answer().0.number
    }

    /// What the definition is to give of it.
    pub fn claim(&self) -> String {
        let (answer, written) = self.answer();
        let Slice {
            from,
            to,
            base,
            room,
        } = self.call;
        format!(
            "slice_answer {} {from} {to} {base} {} {}\n    ≡ {} ∷ {} ∷ []",
            self.part.types,
            antt::list(&self.part.words),
            antt::list(vec![BEFORE; room]),
            antt::list(told(answer)),
            antt::list(written),
        )
    }

    pub fn size(&self) -> usize {
        self.part.size() + self.call.room
    }

    /// The same call on a smaller part.
    pub fn smaller(&self) -> impl Iterator<Item = Sliced> {
        let call = self.call;
        self.part.smaller().map(move |part| Sliced { part, call })
    }
}

/// Number and place, and the counts where nothing is refused.
fn told<const COUNTS: usize>(answer: Answer<COUNTS>) -> Vec<u64> {
    let mut all = vec![answer.number.into(), answer.place];
    if answer.number == 0 {
        all.extend(answer.counts);
    }
    all
}

/// A random part; half of them are damaged, and few are under too many types or too few.
pub fn random_part(rng: &mut Rng) -> Part {
    let types = rng.pick(&[1, 2, 5, 300, 65_536]);
    let records = rng.below(MOST_RECORDS + 1);
    let widest = rng.pick(&[3, 20, 1_000, 65_535]);
    let nesting = cases::any_nesting(rng);
    let mut words = cases::good_part(rng, types, records, nesting, widest);
    match rng.below(6) {
        0 if records > 0 => cross(rng, &mut words),
        0..3 => words = cases::damaged(rng, types, &words),
        _ => {}
    }
    let types = match rng.one_in(20) {
        true => rng.pick(&[0, types - 1, 65_537, u32::MAX]),
        false => types,
    };
    Part { types, words }
}

/// Gives a record the end index of another one, which may be above that of a record around it.
fn cross(rng: &mut Rng, words: &mut [u16]) {
    let mut index = || record_offset(rng, words.len()) + 3;
    let (to, from) = (index(), index());
    words[to] = words[from];
}

/// The offset of one of the records in so many words.
fn record_offset(rng: &mut Rng, words: usize) -> usize {
    rng.below(words / RECORD_WIDTH) * RECORD_WIDTH
}

/// A random slice, of a good part more often than not; one in four of these has any two records as bounds.
pub fn random_slice(rng: &mut Rng) -> Sliced {
    let mut part = random_part(rng);
    if part.number() != 0 {
        part = random_part(rng);
    }
    let length = part.words.len();
    let mut call = cases::slice_call(rng, &part.words);
    while call.from.max(call.to) > length + FARTHEST {
        call = cases::slice_call(rng, &part.words);
    }
    if part.number() == 0 && length > 0 && rng.one_in(4) {
        let bounds = [record_offset(rng, length), record_offset(rng, length)];
        call.from = bounds[0].min(bounds[1]);
        call.to = bounds[0].max(bounds[1]);
        call.base = 0;
    }
    Sliced { part, call }
}
