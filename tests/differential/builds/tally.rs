//! Counts of the lists that were built, by kind of list, and the smallest one on which something differs.

use std::collections::BTreeMap;

use crate::builds::case::{Case, Kept};
use crate::report::Input;

/// A list on which library and Rust differ.
pub struct Difference {
    pub kept: Kept,
    pub what: String,
}

/// What the accepted lists and their trees held, to see that no shape is missing.
#[derive(Clone, Copy, Debug, Default)]
pub struct Seen {
    pub calls: u64,
    pub accepted: u64,
    /// Lists built on the node set with none in place 0 too, and those of them with F 0.
    pub none_first: u64,
    pub none_first_and_f_0: u64,
    pub records: u64,
    pub cells: u64,
    pub parts: u64,
    pub empty_parts: u64,
    pub words: u64,
    pub repeat_trees: u64,
    /// Lists with more repeat trees than repeat records: groups or inner trees were made.
    pub grouped: u64,
    /// Lists with a part of 65,532 words.
    pub full_parts: u64,
    pub lines: u64,
    /// Lists nested deeper than 2,503 levels, and those of them that lose an ordinary record.
    pub deep: u64,
    pub losing: u64,
}

impl Seen {
    fn add(&mut self, other: &Self) {
        self.calls += other.calls;
        self.accepted += other.accepted;
        self.none_first += other.none_first;
        self.none_first_and_f_0 += other.none_first_and_f_0;
        self.records += other.records;
        self.cells += other.cells;
        self.parts += other.parts;
        self.empty_parts += other.empty_parts;
        self.words += other.words;
        self.repeat_trees += other.repeat_trees;
        self.grouped += other.grouped;
        self.full_parts += other.full_parts;
        self.lines += other.lines;
        self.deep += other.deep;
        self.losing += other.losing;
    }
}

#[derive(Default)]
struct Row {
    lists: u64,
    /// How many of them were answered with each number.
    numbers: BTreeMap<u32, u64>,
}

#[derive(Default)]
pub struct BuildTally {
    rows: BTreeMap<&'static str, Row>,
    pub seen: Seen,
    pub differences: u64,
    pub smallest: Option<Difference>,
}

impl BuildTally {
    pub fn count(&mut self, kind: &'static str, number: u32) {
        let row = self.rows.entry(kind).or_default();
        row.lists += 1;
        *row.numbers.entry(number).or_default() += 1;
    }

    pub fn differ(&mut self, kind: &'static str, case: &Case, what: String) {
        self.rows.entry(kind).or_default().lists += 1;
        self.differences += 1;
        let less = |known: &Difference| case.weight() < known.kept.case().weight();
        if self.smallest.as_ref().is_none_or(less) {
            let kept = Kept::new(case);
            self.smallest = Some(Difference { kept, what });
        }
    }

    pub fn lists(&self) -> u64 {
        self.rows.values().map(|row| row.lists).sum()
    }

    pub fn add(&mut self, other: Self) {
        for (kind, from) in other.rows {
            let row = self.rows.entry(kind).or_default();
            row.lists += from.lists;
            for (number, count) in from.numbers {
                *row.numbers.entry(number).or_default() += count;
            }
        }
        self.seen.add(&other.seen);
        self.differences += other.differences;
        let both = self.smallest.take().into_iter().chain(other.smallest);
        self.smallest = both.min_by_key(|it| it.kept.case().weight());
    }

    pub fn print(&self) {
        println!("{:32}{:>12}  numbers", "lists", "count");
        for (kind, row) in &self.rows {
            println!("{kind:32}{:>12}  {}", row.lists, counts(&row.numbers));
        }
        let mut all = BTreeMap::new();
        for (number, count) in self.rows.values().flat_map(|row| &row.numbers) {
            *all.entry(*number).or_default() += count;
        }
        println!("{:32}{:>12}  {}", "all", self.lists(), counts(&all));
        println!("{:?}", self.seen);
        println!("differences: {}", self.differences);
    }
}

/// Numbers with how often each was answered.
fn counts(numbers: &BTreeMap<u32, u64>) -> String {
    let each = numbers
        .iter()
        .map(|(number, count)| format!("{number}: {count}"));
    each.collect::<Vec<_>>().join(", ")
}
