//! All short inputs: every word over small alphabets, with one letter from the alphabet of each place.

use crate::builds::case::{Case, Numbers};
use crate::widths::RECORD_WIDTH;

/// The next letter of a word that is told by one number; the letters of the first place change fastest.
fn letter<A: Copy>(code: &mut usize, letters: &[A]) -> A {
    let letter = letters[*code % letters.len()];
    *code /= letters.len();
    letter
}

/// Every word with a letter from each alphabet.
pub fn words<A: Copy>(alphabets: &[&[A]], mut visit: impl FnMut(&[A])) {
    let all: usize = alphabets.iter().map(|letters| letters.len()).product();
    let mut word = Vec::new();
    for mut code in 0..all {
        word.clear();
        word.extend(alphabets.iter().map(|letters| letter(&mut code, letters)));
        visit(&word);
    }
}

/// What the records of short parts and lists are made of.
pub struct Records<A: 'static> {
    pub ids: &'static [A],
    pub ranges: &'static [(A, A)],
    /// The last words of the record at each place: end indices in a part, sizes in a list.
    pub lasts: &'static [&'static [A]],
}

impl<A: Copy> Records<A> {
    /// All that these records spell, as many in each as there are places.
    pub fn spell(&self, mut visit: impl FnMut(&[A])) {
        let choices = |lasts: &&[A]| self.ids.len() * self.ranges.len() * lasts.len();
        let all: usize = self.lasts.iter().map(choices).product();
        let mut words = Vec::new();
        for mut code in 0..all {
            words.clear();
            for lasts in self.lasts {
                let id = letter(&mut code, self.ids);
                let (start, end) = letter(&mut code, self.ranges);
                words.extend([id, start, end, letter(&mut code, lasts)]);
            }
            visit(&words);
        }
    }
}

/// What short lists are made of: their records, and the numbers that each list is tried with.
pub struct Lists {
    pub records: Records<u32>,
    pub types: &'static [u32],
    pub repeats: &'static [u32],
    pub bounds: &'static [u32],
    pub starts: &'static [u32],
    pub tops: &'static [u32],
    pub given: &'static [Option<u32>],
    /// Words that the work slice is short of.
    pub short: &'static [usize],
}

const MAX: u32 = u32::MAX;

/// No records, under numbers around every boundary.
pub const NO_RECORDS: Lists = Lists {
    records: Records {
        ids: &[0],
        ranges: &[(0, 0)],
        lasts: &[],
    },
    types: &[0, 1, 2, 65_535, 65_536, 65_537, MAX],
    repeats: &[0, 1, 65_536, MAX],
    bounds: &[0, 1, 65_534, 65_535, 65_536, MAX],
    starts: &[0, 1, MAX],
    tops: &[0, 1, 65_534, 65_535, 65_536, MAX],
    given: &[None],
    short: &[0],
};

/// The same under a few numbers that are not refused, for records of two types.
pub const TWO_TYPES: Lists = Lists {
    types: &[2],
    repeats: &[0, 1, 2],
    bounds: &[0, 1, 1_024],
    starts: &[0, 1],
    tops: &[0],
    ..NO_RECORDS
};

/// Four records of two types, whose sizes are not refused alone.
pub const FOUR_RECORDS: Records<u32> = Records {
    ids: &[0, 1],
    ranges: &[(0, 1), (1, 1), (1, 2), (0, 2)],
    lasts: &[&[4], &[4, 8], &[4, 8, 12], &[4, 8, 12, 16]],
};

impl Lists {
    /// Every list under all the numbers.
    pub fn spell(&self, mut visit: impl FnMut(&Case)) {
        self.records.spell(|words| self.number(words, &mut visit));
    }

    fn number(&self, words: &[u32], visit: &mut impl FnMut(&Case)) {
        let choices = [
            self.types.len(),
            self.repeats.len(),
            self.bounds.len(),
            self.starts.len(),
            self.tops.len(),
            self.given.len(),
            self.short.len(),
        ];
        for mut code in 0..choices.iter().product() {
            let numbers = Numbers {
                types: letter(&mut code, self.types),
                first_repeat: letter(&mut code, self.repeats),
                bound: letter(&mut code, self.bounds),
                start: letter(&mut code, self.starts),
                top: letter(&mut code, self.tops),
                given: letter(&mut code, self.given),
            };
            let mut case = numbers.with(words);
            case.list.work -= letter(&mut code, self.short);
            visit(&case);
        }
    }
}

/// So many words, whether or not they are whole records: each is the offset behind its record.
pub fn uneven<A: From<u8>>(length: u8) -> Vec<A> {
    let width = RECORD_WIDTH as u8;
    let behind = |at| A::from((at / width + 1) * width);
    (0..length).map(behind).collect()
}
