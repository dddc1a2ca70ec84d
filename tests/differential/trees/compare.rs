//! One tree at a time: library against model in everything, library against the Rust where the tree is accepted.

use crate::calls;
use crate::flatten::{self, flatten};
use crate::lent::{BEHIND, Filling, Lent, UNTOUCHED, answered, front_only, refill, untouched};
use crate::none_first::NoneFirst;
use crate::oracle::Oracle;
use crate::report::{Input, Outcome, Run, Tally, shortened};
use crate::rezel::Panicked;
use crate::trees::balancing;
use crate::trees::model::{self, Handed, Verdict};
use crate::trees::rust_trees;
use crate::trees::seen::Seen;
use crate::widths::{CELL_WIDTH, LINE_WIDTH};

/// One call on a tree.
struct Case<'a> {
    call: &'static str,
    tree: &'a Handed,
}

/// A call; of balance with the number that says whether place 0 of the node set is none: 0 for no, any other for yes.
#[derive(Clone, Copy)]
pub enum Call {
    Materialise,
    List,
    Balance(u32),
}

impl Call {
    pub fn name(self) -> &'static str {
        match self {
            Self::Materialise => "materialise",
            Self::List => "list",
            Self::Balance(0) => "balance",
            Self::Balance(_) => "balance, none",
        }
    }

    /// The number where the output is too short.
    fn no_room(self) -> u32 {
        match self {
            Self::List => 14,
            Self::Materialise | Self::Balance(_) => 12,
        }
    }
}

/// Numbers that say that place 0 of the node set is none.
pub const NONE_FIRST: [u32; 4] = [1, 2, 0x8000_0000, u32::MAX];

impl Input for Case<'_> {
    fn call(&self) -> &'static str {
        self.call
    }

    fn describe(&self) -> String {
        let tree = self.tree;
        let (types, first, start) = (tree.types, tree.first_repeat, tree.start);
        let cells: Vec<&[u32]> = tree.cells.chunks(CELL_WIDTH).collect();
        let (cells, words) = (shortened(&cells), shortened(&tree.words));
        let call = self.call;
        format!("{call}: T {types}, F {first}, S {start}, cells {cells}, words {words}")
    }

    fn weight(&self) -> (usize, u128) {
        let tree = self.tree;
        let cells: u128 = tree.cells.iter().map(|&word| u128::from(word)).sum();
        let words: u128 = tree.words.iter().map(|&word| u128::from(word)).sum();
        let numbers = u128::from(tree.types) + u128::from(tree.start);
        (tree.cells.len() + tree.words.len(), cells + words + numbers)
    }
}

/// What a call answers where it is lent enough, and what it then writes.
struct Expected {
    call: Call,
    /// The place of 15.
    bad: Option<usize>,
    /// Words of work that it asks for.
    work: usize,
    written: Vec<u32>,
    packed: Vec<u16>,
    counts: [usize; 2],
}

impl Expected {
    /// Nothing written yet.
    fn new(call: Call, bad: Option<usize>, work: usize) -> Self {
        Self {
            call,
            bad,
            work,
            written: Vec::new(),
            packed: Vec::new(),
            counts: [0, 0],
        }
    }

    /// The answer on slices of these sizes.
    fn verdict(&self, types: u32, lent: &Slices) -> Verdict {
        if let Some(verdict) = model::early(types, self.work, lent.work, self.bad) {
            return verdict;
        }
        if lent.room < self.written.len() {
            return model::refused(self.call.no_room(), 0);
        }
        if lent.packed < self.packed.len() {
            return model::refused(13, 0);
        }
        model::accepted(self.counts)
    }
}

/// The slices that a call is lent: how many words of work, of output and of packed output.
#[derive(Clone, Copy)]
struct Slices {
    work: usize,
    room: usize,
    packed: usize,
    filling: Filling,
    /// Words to answer in.
    held: usize,
}

#[derive(Default)]
pub struct TreeSession {
    pub tally: Tally,
    pub seen: Seen,
    oracle: Oracle,
    lent: Lent,
    out: Vec<u32>,
    packed: Vec<u16>,
}

impl Run for TreeSession {
    const CASES: &str = "trees";

    fn compared(&self) -> u64 {
        self.seen.trees
    }
}

impl TreeSession {
    pub fn oracle(&mut self) -> &mut Oracle {
        &mut self.oracle
    }

    /// Compares the calls on one tree with the model and with the Rust.
    pub fn check(&mut self, tree: &Handed) {
        self.turn(tree);
        let bad = model::bad_cell(tree.types, 0, &tree.cells, &tree.words);
        if bad.is_some() || tree.types > 65_536 {
            self.list(tree, None);
            let [without, with] = self.balances();
            for call in [Call::Materialise, without, with] {
                self.compare(tree, &Expected::new(call, bad, work_for(tree)));
            }
        } else if let Some((rust, none_first)) = self.rust_trees(tree) {
            self.seen.note(tree);
            let materialised = rust.materialize();
            self.list(tree, Some(&materialised));
            self.balance(tree, &rust, &none_first);
            self.materialise(tree, &materialised, &none_first);
        }
    }

    /// Compares list alone: the other calls do not look at the start.
    pub fn check_list(&mut self, tree: &Handed) {
        self.turn(tree);
        let bad = model::bad_cell(tree.types, 0, &tree.cells, &tree.words);
        if bad.is_some() || tree.types > 65_536 {
            self.list(tree, None);
        } else if let Some(rust) = self.rust_tree(tree) {
            self.list(tree, Some(&rust.materialize()));
        }
    }

    /// One more tree.
    fn turn(&mut self, tree: &Handed) {
        self.seen.hand_in(tree);
        self.lent.stir(self.seen.trees);
    }

    /// Balance on a set without none in place 0 and on one with it.
    fn balances(&self) -> [Call; 2] {
        let turn = (self.seen.trees / 4) as usize % NONE_FIRST.len();
        [0, NONE_FIRST[turn]].map(Call::Balance)
    }

    /// Materialise on an accepted tree, and list on what it gives. `rust` is the Rust's materialised tree.
    fn materialise(&mut self, tree: &Handed, rust: &crate::Tree, none_first: &NoneFirst) {
        let (cells, words) = rust_trees::cells_of(rust);
        assert!(words.is_empty(), "a part in a materialised tree");
        let (alike, _) = rust_trees::cells_of(&none_first.tree.materialize());
        if alike != rust_trees::with_id_0_as_none(&cells) {
            let call = "materialise";
            let what = "the Rust materialises otherwise on the set with none in place 0";
            self.tally.differ(&Case { call, tree }, what);
        }
        let mut expected = Expected::new(Call::Materialise, None, work_for(tree));
        expected.counts = [cells.len() / CELL_WIDTH, 0];
        expected.written = cells;
        self.compare(tree, &expected);
        let plain = Handed {
            cells: expected.written,
            words,
            ..*tree
        };
        self.list(&plain, Some(rust));
    }

    /// Balance on an accepted tree, on both sets.
    fn balance(&mut self, tree: &Handed, rust: &crate::Tree, none_first: &NoneFirst) {
        let results = [flatten(&rust.balance()), none_first.balanced()];
        let results = results.map(|flat| rust_trees::narrowed(&flat));
        let [without, with] = &results;
        self.seen.balanced(tree, [&without.0, &with.0]);
        for (call, (cells, words)) in self.balances().into_iter().zip(results) {
            let none_first = !matches!(call, Call::Balance(0));
            if cells != balancing::balanced(none_first, &tree.cells) {
                let call = call.name();
                let what = "the model balances otherwise than the Rust";
                self.tally.differ(&Case { call, tree }, what);
            }
            let mut expected = Expected::new(call, None, work_for(tree));
            expected.counts = [cells.len() / CELL_WIDTH, words.len()];
            expected.written = cells;
            expected.packed = words;
            self.compare(tree, &expected);
        }
    }

    /// List on a tree. `rust`: the Rust's materialised tree, where no cell breaks a rule counted from 0.
    fn list(&mut self, tree: &Handed, rust: Option<&crate::Tree>) {
        let bad = model::bad_cell(tree.types, tree.start, &tree.cells, &tree.words);
        let mut expected = Expected::new(Call::List, bad, work_for(tree));
        match (bad, rust) {
            (None, Some(rust)) => {
                let lines = flatten::lines(rust, tree.first_repeat, tree.start);
                expected.written = rust_trees::narrow(&lines);
                expected.counts = [lines.len() / LINE_WIDTH, 0];
                self.seen.listed(tree, rust, expected.counts[0]);
            }
            (Some(place), Some(_)) => self.seen.late(tree, place),
            (_, None) => {}
        }
        self.compare(tree, &expected);
    }

    /// The Rust's tree of accepted cells, which written again are the same cells; else a difference is counted.
    fn rust_tree(&mut self, tree: &Handed) -> Option<crate::Tree> {
        let set = self.oracle.set(tree.types).ok()?;
        let rust = rust_trees::tree_of(tree, &set);
        let again = rust_trees::cells_of(&rust);
        if again.0 == tree.cells && again.1 == tree.words {
            return Some(rust);
        }
        let case = Case { call: "read", tree };
        let what = "the model accepts cells that are not those of their tree";
        self.tally.differ(&case, what);
        None
    }

    /// The same, and its counterpart on the set with none in place 0.
    fn rust_trees(&mut self, tree: &Handed) -> Option<(crate::Tree, NoneFirst)> {
        let rust = self.rust_tree(tree)?;
        let set = self.oracle.set_with(tree.types, true).ok()?;
        let none_first = NoneFirst::new(&rust, &set);
        Some((rust, none_first))
    }

    /// One call on slices that are just large enough, larger, and too short.
    fn compare(&mut self, tree: &Handed, expected: &Expected) {
        if let Call::Balance(none_first) = expected.call {
            self.seen.sets[usize::from(none_first != 0)].trees += 1;
        }
        for lent in self.slices(expected) {
            self.call(tree, expected, &lent);
        }
    }

    fn slices(&self, expected: &Expected) -> Vec<Slices> {
        let just = Slices {
            work: expected.work,
            room: expected.written.len(),
            packed: expected.packed.len(),
            filling: Filling::Left,
            held: 4,
        };
        let mut calls = vec![just];
        calls.push(Slices {
            work: just.work + 5,
            room: just.room + BEHIND,
            packed: just.packed + 1,
            filling: Filling::Noise,
            held: (self.seen.trees % 4) as usize,
        });
        let mut with = |change: fn(&mut Slices)| {
            let mut other = just;
            change(&mut other);
            calls.push(other);
        };
        with(|it| it.work -= 1);
        match self.seen.trees % 4 {
            0 => with(|it| it.filling = Filling::Ones),
            1 => with(|it| it.filling = Filling::Zeros),
            2 => with(|it| (it.work, it.room, it.packed) = (0, 0, 0)),
            _ => {}
        }
        if just.room > 0 {
            with(|it| it.room -= 1);
            with(|it| it.room = 0);
        }
        if just.packed > 0 {
            with(|it| it.packed -= 1);
            with(|it| (it.room, it.packed) = (it.room - 1, 0));
        }
        calls
    }

    /// Whether the library answers and writes what is expected on slices of one size and filling.
    fn call(&mut self, tree: &Handed, expected: &Expected, lent: &Slices) {
        let call = expected.call.name();
        let case = Case { call, tree };
        let verdict = expected.verdict(tree.types, lent);
        match self.answer(tree, expected, lent, verdict) {
            Ok(()) => self.settle(&case, verdict),
            Err(what) => self.tally.differ(&case, &what),
        }
    }

    fn answer(
        &mut self,
        tree: &Handed,
        expected: &Expected,
        lent: &Slices,
        verdict: Verdict,
    ) -> Result<(), String> {
        let (work, guard) = self.lent.filled(lent.work, lent.filling);
        refill(&mut self.out, lent.room, UNTOUCHED);
        refill(&mut self.packed, lent.packed, UNTOUCHED as u16);
        let out = &mut self.out[..lent.room];
        let packed = &mut self.packed[..lent.packed];
        let mut info = [UNTOUCHED; 4];
        let held = &mut info[..lent.held];
        let number = match expected.call {
            Call::Materialise => calls::materialise(tree, work, out, held),
            Call::List => calls::list(tree, work, out, held),
            Call::Balance(none_first) => calls::balance(tree, none_first, work, out, packed, held),
        };
        let [first, second] = verdict.counts;
        let wanted = answered(&[verdict.place, first, second], lent.held);
        if number != verdict.number || info != wanted {
            let Slices { held, filling, .. } = lent;
            return Err(format!(
                "library {number} {info:x?}, expected {verdict:?}, {held} words held, work of {filling:?}"
            ));
        }
        if !untouched(guard) {
            return Err(String::from("words behind the work slice were written"));
        }
        let (written, packed): (&[u32], &[u16]) = match number {
            0 => (&expected.written, &expected.packed),
            _ => (&[], &[]),
        };
        front_only("words", &self.out, written, UNTOUCHED)?;
        front_only("words", &self.packed, packed, UNTOUCHED as u16)
    }

    /// Accepted: the Rust's answer was expected. Refused: only 1 has a counterpart in the Rust.
    fn settle(&mut self, case: &Case, verdict: Verdict) {
        let outcome = match verdict.number {
            0 => Outcome::Same,
            1 => match self.oracle.set(case.tree.types) {
                Err(Panicked) => Outcome::Panics,
                Ok(_) => return self.tally.differ(case, "the Rust takes so many types"),
            },
            11 => Outcome::Intended("11, not shown: the Rust allocates and is lent no work slice"),
            12..=14 => Outcome::Intended("12 to 14, not shown: the Rust allocates its results"),
            _ => Outcome::Intended("15, not shown: the Rust has trees and no cells"),
        };
        self.tally.count(case, verdict.number, outcome);
    }
}

/// The work slice that the calls ask for.
fn work_for(tree: &Handed) -> usize {
    model::work_words(tree.cells.len(), tree.words.len())
}
