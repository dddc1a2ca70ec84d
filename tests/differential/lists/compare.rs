//! One list at a time: library against model in everything, library against the Rust where it can be asked.

use crate::calls;
use crate::lent::{Filling, Lent, UNTOUCHED, answered, untouched};
use crate::lists::model::{self, List, Verdict};
use crate::oracle::Oracle;
use crate::report::{Input, Outcome, Run, Tally, shortened};
use crate::rezel::Panicked;
use crate::widths::RECORD_WIDTH;

/// Refused lists of more records are not shown to the Rust: spans that cross may make it recurse once a record.
const MOST_SHOWN_REFUSED: usize = 10_000;

/// Records below this many never stand below the Rust's cut, at which it stops looking at records.
const ABOVE_THE_CUT: usize = 2_500;

impl Input for List<'_> {
    fn call(&self) -> &'static str {
        "list"
    }

    fn describe(&self) -> String {
        format!(
            "T {}, F {}, b {}, S {}, top {}, work {}, words {}",
            self.types,
            self.first_repeat,
            self.bound,
            self.start,
            self.top,
            self.work,
            shortened(self.words)
        )
    }

    fn weight(&self) -> (usize, u128) {
        let numbers = [
            self.types,
            self.first_repeat,
            self.bound,
            self.start,
            self.top,
        ];
        let all = numbers.iter().chain(self.words);
        (
            self.words.len(),
            all.map(|&number| u128::from(number)).sum(),
        )
    }
}

#[derive(Default)]
pub struct ListSession {
    pub tally: Tally,
    oracle: Oracle,
    lent: Lent,
    lists: u64,
}

impl Run for ListSession {
    const CASES: &str = "lists";

    fn compared(&self) -> u64 {
        self.tally.cases()
    }
}

impl ListSession {
    /// Compares one list with the model and with the Rust.
    pub fn check(&mut self, list: &List) {
        self.check_against(list, model::check(list));
    }

    /// The same where the answer is known from the way the list was made.
    pub fn check_against(&mut self, list: &List, expected: Verdict) {
        self.lists += 1;
        self.lent.stir(self.lists);
        let calls = [
            (Filling::Left, 4),
            (Filling::Noise, 4),
            (Filling::Ones, (self.lists % 4) as usize),
            (Filling::Zeros, 4),
        ];
        for (filling, held) in calls {
            if let Err(what) = self.answer(list, expected, filling, held) {
                self.tally.differ(list, &what);
                return;
            }
        }
        self.settle(list, expected);
    }

    /// Whether the library answers what is expected, on a work slice of one filling and with so many words to answer in.
    fn answer(
        &mut self,
        list: &List,
        expected: Verdict,
        filling: Filling,
        held: usize,
    ) -> Result<(), String> {
        let (work, guard) = self.lent.filled(list.work, filling);
        let mut info = [UNTOUCHED; 4];
        let number = calls::check(list, work, &mut info[..held]);
        let told = [expected.place, expected.count, 0];
        if number != expected.number || info != answered(&told, held) {
            return Err(format!(
                "library {number} {info:x?}, expected {expected:?}, {held} words held, work of {filling:?}"
            ));
        }
        if !untouched(guard) {
            return Err(String::from("words behind the work slice were written"));
        }
        Ok(())
    }

    /// Accepted: the Rust must build. Refused: it may panic, or answer where document 01 intends it.
    fn settle(&mut self, list: &List, verdict: Verdict) {
        let number = verdict.number;
        if let Some(class) = not_shown(list, number) {
            self.tally.count(list, number, Outcome::Intended(class));
            return;
        }
        match (number, self.oracle.build(list)) {
            (0, Ok(_)) => self.tally.count(list, 0, Outcome::Same),
            (0, Err(Panicked)) => self.tally.differ(list, "accepted, and the Rust panics"),
            (_, Err(Panicked)) => self.tally.count(list, number, Outcome::Panics),
            (_, Ok(_)) => match built_though_refused(list, verdict) {
                Some(class) => self.tally.count(list, number, Outcome::Intended(class)),
                None => {
                    let what = format!("refused with {number}, and the Rust builds");
                    self.tally.differ(list, &what);
                }
            },
        }
    }
}

/// Why the Rust is not asked about a list, if it is not.
fn not_shown(list: &List, number: u32) -> Option<&'static str> {
    match number {
        2 | 3 if list.top > 65_535 => {
            Some("list 2, 3, not shown: a top id of more than 16 bits cannot be handed to the Rust")
        }
        11 => Some("list 11, not shown: the Rust allocates and is lent no work slice"),
        6..=10 if list.words.len() / RECORD_WIDTH > MOST_SHOWN_REFUSED => Some(
            "list 6 to 10, not shown: more than 10,000 records, on which the Rust may run out of stack",
        ),
        _ => None,
    }
}

/// Why the Rust builds a list that document 01 refuses; none where nothing explains it.
fn built_though_refused(list: &List, verdict: Verdict) -> Option<&'static str> {
    let records = list.words.len() / RECORD_WIDTH;
    let below_the_cut = records > ABOVE_THE_CUT;
    let place = verdict.place as usize;
    let repeat = (list.words.get(place * RECORD_WIDTH)).is_some_and(|&id| id >= list.first_repeat);
    let last = place + 1 == records;
    match verdict.number {
        // The Rust starts with the last record and looks at all of it.
        6..=8 if last => None,
        10 if last && list.words[place * RECORD_WIDTH + 1] < list.start => None,
        5 => Some("list 5: the Rust sets no limit to the records"),
        6 if repeat => {
            Some("list 6: the Rust passes over a repeat record and does not look up its id")
        }
        7 if repeat => {
            Some("list 7: the Rust passes over a repeat record and does not look at its range")
        }
        6 | 7 if below_the_cut => Some("list 6, 7: the Rust drops the record below its cut"),
        8 => Some(
            "list 8: the Rust does not test sizes inside a run, of records passed over and below its cut",
        ),
        9 => Some("list 9: the Rust does not test whether spans cross"),
        10 => Some("list 10: the Rust does not test order and nesting of ranges"),
        _ => None,
    }
}
