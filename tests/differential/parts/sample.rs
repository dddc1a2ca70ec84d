//! A sample of short cases with the Rust's answers.
//!
//! Only cases on which document 01 and the Rust agree about accepted or refused are taken, and none on which the Rust
//! may run for ever. The answers are the Rust's; the model only says which kind of case it is.

use crate::oracle::{self, Oracle};
use crate::parts::cases;
use crate::parts::compare::{Part, search_rust, slice_rust};
use crate::parts::model::{self, Search, Slice};
use crate::recording::{self, Taken, counted};
use crate::rng::Rng;

/// Bounds above this are left out, so that a reader of the lines needs no more than 32 bits.
const FARTHEST: usize = u32::MAX as usize;

#[derive(Default)]
pub struct Sample {
    oracle: Oracle,
    taken: Taken,
}

/// How many cases of a kind are taken: many where a call is accepted, fewer for each refusal.
fn quota(call: &str, number: u32) -> usize {
    match (call, number) {
        ("check", 0) => 120,
        ("slice", 0) => 220,
        ("search", 0) => 12,
        (_, 1) => 6,
        ("slice", 23) => 50,
        ("search", 24 | 25) => 40,
        _ => 30,
    }
}

impl recording::Sample for Sample {
    const LINES: &str = "cases";

    /// Document 01's own part and slices of it.
    fn examples(&mut self, _: &mut Rng) {
        let words = vec![3, 0, 6, 12, 1, 0, 2, 8, 2, 3, 5, 12];
        let part = Part::new(&mut self.oracle, 4, words);
        self.check(&part);
        for (from, to, base) in [(4, 12, 0), (0, 8, 0), (4, 12, 1)] {
            let room = 12;
            self.slice(
                &part,
                &Slice {
                    from,
                    to,
                    base,
                    room,
                },
            );
        }
    }

    /// A random part, good or damaged, and one call of each kind on it.
    fn draw(&mut self, rng: &mut Rng) {
        let types = rng.pick(&[1, 2, 5, 300, 65_536]);
        let records = rng.below(13);
        let widest = rng.pick(&[4, 20, 1_000, 65_535]);
        let nesting = cases::any_nesting(rng);
        let mut words = cases::good_part(rng, types, records, nesting, widest);
        if rng.one_in(3) {
            words = cases::damaged(rng, types, &words);
        }
        let types = if rng.one_in(60) { 65_537 } else { types };
        let part = Part::new(&mut self.oracle, types, words);
        self.check(&part);
        self.slice(&part, &cases::slice_call(rng, &part.words));
        self.search(&part, &cases::search_call(rng, &part.words));
    }

    fn taken(&self) -> &Taken {
        &self.taken
    }
}

impl Sample {
    fn check(&mut self, part: &Part) {
        let number = part.verdict.number;
        let rust = part.rust();
        if (number == 0) != rust.is_ok() {
            return;
        }
        let answer = match rust {
            Ok(buffer) => {
                let [records, end, nesting] = oracle::counts(buffer).expect("counts of a buffer");
                format!("records {records} end {end} nesting {nesting}")
            }
            Err(_) => String::from("refused"),
        };
        let asked = format!("1 {}{}", part.types, counted(&part.words));
        self.take("check", number, "", asked, answer);
    }

    fn slice(&mut self, part: &Part, call: &Slice) {
        let (expected, _) = model::slice(part.verdict, &part.words, call, &vec![0; call.room]);
        let rust = slice_rust(part, call);
        if (expected.number == 0) != rust.is_ok() || call.from.max(call.to) > FARTHEST {
            return;
        }
        let (told, words) = match rust {
            Ok((words, length)) => (format!("words {} length {length}", words.len()), words),
            Err(_) => (String::from("refused"), Vec::new()),
        };
        let answer = format!("{told} :{}", recording::output(words, call.room));
        let asked = format!(
            "2 {} {} {} {} {}{}",
            part.types,
            call.from,
            call.to,
            call.base,
            call.room,
            counted(&part.words)
        );
        let kind = if part.verdict.number == 0 {
            " after the check"
        } else {
            ""
        };
        self.take("slice", expected.number, kind, asked, answer);
    }

    fn search(&mut self, part: &Part, call: &Search) {
        let expected = model::search(part.verdict, &part.words, call);
        if matches!(expected.number, 21 | 22) {
            return;
        }
        let rust = search_rust(part, call);
        if (expected.number == 0) != rust.is_ok() || call.from.max(call.to) > FARTHEST {
            return;
        }
        let answer = match rust {
            Ok(Some(at)) => format!("match {at}"),
            Ok(None) => String::from("none"),
            Err(_) => String::from("refused"),
        };
        let asked = format!(
            "3 {} {} {} {} {} {} {}{}",
            part.types,
            call.from,
            call.to,
            call.direction,
            call.position,
            call.base,
            call.side,
            counted(&part.words)
        );
        let found = expected.counts[0];
        let kind = match expected.number {
            0 => format!(
                " side {} direction {} matches {found}",
                call.side,
                call.direction.signum()
            ),
            _ => String::new(),
        };
        self.take("search", expected.number, &kind, asked, answer);
    }

    fn take(&mut self, call: &str, number: u32, kind: &str, asked: String, answer: String) {
        let kind = format!("{call} {number}{kind}");
        self.taken.take(kind, quota(call, number), asked, || answer);
    }
}
