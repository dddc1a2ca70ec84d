//! What the parts of a run held, to see that no shape is missing.

use crate::parts::cases::MOST_RECORDS;
use crate::parts::model::Checked;
use crate::widths::RECORD_WIDTH;

/// All parts on which the part check was compared, and what was met among the accepted ones.
#[derive(Default)]
pub struct Seen {
    pub parts: u64,
    accepted: u64,
    empty: u64,
    /// More than one record, and none in another.
    flat: u64,
    /// The greatest end is not that of the last record.
    not_last: u64,
    /// It is not that of the last record that no other holds.
    not_last_outer: u64,
    /// It is neither that of the last record nor that of any record that no other holds.
    inner: u64,
    deepest: u64,
}

impl Seen {
    pub fn note(&mut self, words: &[u16], verdict: &Checked) {
        self.parts += 1;
        if verdict.number != 0 {
            return;
        }
        let [records, greatest, deepest] = verdict.counts;
        self.accepted += 1;
        self.empty += u64::from(records == 0);
        self.flat += u64::from(records > 1 && deepest == 1);
        self.deepest = self.deepest.max(deepest);
        if records == 0 {
            return;
        }
        let end = |offset: usize| u64::from(words[offset + 2]);
        let outer = outer(words);
        let not_last = end(words.len() - RECORD_WIDTH) != greatest;
        let is_greatest = |&offset: &usize| end(offset) == greatest;
        self.not_last += u64::from(not_last);
        self.not_last_outer += u64::from(!outer.last().is_some_and(is_greatest));
        self.inner += u64::from(not_last && !outer.iter().any(is_greatest));
    }

    /// The shapes that none of the parts had.
    pub fn missing(&self) -> Vec<&'static str> {
        let shapes = [
            (self.parts > self.accepted, "a refused part"),
            (self.empty > 0, "the empty part"),
            (self.flat > 0, "a flat part"),
            (self.not_last > 0, "a greatest end before the last record"),
            (self.inner > 0, "a greatest end inside a record alone"),
            (self.deepest == MOST_RECORDS as u64, "the longest chain"),
        ];
        let lacking = shapes.into_iter().filter(|(met, _)| !met);
        lacking.map(|(_, shape)| shape).collect()
    }

    pub fn print(&self) {
        println!(
            "parts whose counts were compared: {}, {} of them accepted ({} empty, {} flat)",
            self.parts, self.accepted, self.empty, self.flat
        );
        println!(
            "greatest end not that of the last record: {}; not of the last first-level record: {}; of neither the last nor \
             any first-level record: {}",
            self.not_last, self.not_last_outer, self.inner
        );
        println!("deepest nesting: {}", self.deepest);
    }
}

/// The offsets of the records that no other holds, in an accepted part that is not empty.
fn outer(words: &[u16]) -> Vec<usize> {
    let behind = |&offset: &usize| {
        let next = usize::from(words[offset + 3]);
        (next < words.len()).then_some(next)
    };
    std::iter::successors(Some(0), behind).collect()
}
