//! A sample of small trees with the Rust's answers.
//!
//! Only calls on which document 01 and the Rust agree are taken: accepted and answered, or refused where the Rust panics on the
//! packed words or the number of types. The answers are the Rust's; the model only says which kind of call it is.

use std::sync::Arc;

use crate::none_first::NoneFirst;
use crate::oracle::Oracle;
use crate::recording::{self, Taken};
use crate::rezel::{Panicked, guarded};
use crate::rng::Rng;
use crate::tree::NodeSet;
use crate::trees::compare::{Call, NONE_FIRST};
use crate::trees::model::{self, Handed};
use crate::trees::{balancing, damage, rust_trees};
use crate::widths::{CELL_WIDTH, KIND, LINE_WIDTH, RECORD_WIDTH};
use crate::{Tree, flatten, trees};

/// The largest trees that are taken: words of cells, before and after, and packed words.
const MOST_CELLS: usize = 30 * CELL_WIDTH;
const MOST_WORDS: usize = 30 * RECORD_WIDTH;

/// A top with eight leaves and a tree of id 0 that holds three leaves of kind 3: with none in place 0 the tree is divided.
const NINE: [[u32; CELL_WIDTH]; 13] = [
    [1, 1, 0, 11, 2, 9, 0],
    [1, 1, 0, 1, 0, 0, 3],
    [1, 1, 1, 1, 0, 0, 4],
    [1, 1, 2, 1, 0, 0, 5],
    [1, 1, 3, 1, 0, 0, 6],
    [1, 1, 4, 1, 0, 0, 7],
    [1, 1, 5, 1, 0, 0, 8],
    [1, 1, 6, 1, 0, 0, 9],
    [1, 1, 7, 1, 0, 0, 10],
    [1, 0, 8, 3, 11, 3, 0],
    [3, 0, 0, 1, 0, 0, 12],
    [3, 0, 1, 1, 0, 0, 13],
    [3, 0, 2, 1, 0, 0, 0],
];

pub struct Sample {
    oracle: Oracle,
    sets: Vec<Arc<NodeSet>>,
    taken: Taken,
}

impl Default for Sample {
    fn default() -> Self {
        let mut oracle = Oracle::default();
        let sets = trees::small_sets(&mut oracle);
        Self {
            oracle,
            sets,
            taken: Taken::default(),
        }
    }
}

/// What the Rust answers: cells or lines, and packed words.
#[derive(Default)]
struct Answer {
    written: Vec<u32>,
    words: Vec<u16>,
}

impl Answer {
    /// The answer of an accepted call, without the outputs.
    fn counted(&self, call: Call) -> String {
        let Self { written, words } = self;
        match call {
            Call::Materialise => format!("cells {}", written.len() / CELL_WIDTH),
            Call::List => format!("lines {}", written.len() / LINE_WIDTH),
            Call::Balance(_) => {
                let cells = written.len() / CELL_WIDTH;
                format!("cells {cells} words {}", words.len())
            }
        }
    }
}

impl recording::Sample for Sample {
    const LINES: &str = "calls";
    const DRAWS: usize = 40_000;

    /// Document 01's list P, built with each of its three bounds, and nine children.
    fn examples(&mut self, rng: &mut Rng) {
        let one = [1, 0, 0, 6, 2, 1, 0, 2, 0, 0, 6, 0, 12, 0];
        let two = [
            1, 0, 0, 6, 2, 1, 0, 1, 3, 0, 6, 3, 1, 0, 2, 0, 0, 5, 0, 8, 0,
        ];
        let four = [
            1, 0, 0, 6, 2, 1, 0, 1, 3, 0, 6, 3, 2, 0, 1, 1, 0, 2, 0, 0, 4, 1, 2, 3, 2, 0, 0, 0,
        ];
        let nine = NINE.concat();
        let all: [(u32, &[u32], &[u16]); 4] = [
            (4, &one, &[3, 0, 6, 12, 1, 0, 2, 8, 2, 3, 5, 12]),
            (4, &two, &[1, 0, 2, 4, 2, 3, 5, 8]),
            (4, &four, &[]),
            (2, &nine, &[]),
        ];
        for (types, cells, words) in all {
            let tree = Handed {
                types,
                first_repeat: types,
                start: 0,
                cells: cells.to_vec(),
                words: words.to_vec(),
            };
            self.calls(rng, &tree);
        }
    }

    /// A random tree, now and then with a packed word changed or too many types.
    fn draw(&mut self, rng: &mut Rng) {
        let mut tree = trees::any_tree(&mut self.oracle, rng, &self.sets);
        if rng.one_in(3) && !tree.words.is_empty() {
            tree = damage::with_packed_word_changed(rng, &tree);
        }
        if rng.one_in(60) {
            tree.types = rng.pick(&[65_537, u32::MAX]);
        }
        self.calls(rng, &tree);
    }

    fn taken(&self) -> &Taken {
        &self.taken
    }
}

impl Sample {
    /// Materialise, balance and list, and list on the Rust's materialised tree too.
    fn calls(&mut self, rng: &mut Rng, tree: &Handed) {
        if tree.cells.len() > MOST_CELLS || tree.words.len() > MOST_WORDS {
            return;
        }
        let from_0 = number(tree, 0);
        let rust = self.rust(tree);
        let balanced = rust.clone().map(|rust| cells_answer(&rust.balance()));
        self.agreed(rng, Call::Balance(0), tree, from_0, balanced);
        let call = Call::Balance(rng.pick(&NONE_FIRST));
        let balanced = self.none_first(tree, &rust);
        self.agreed(rng, call, tree, from_0, balanced);
        let materialised = rust.and_then(|rust| guarded(|| rust.materialize()));
        let cells = materialised.clone().map(|rust| cells_answer(&rust));
        self.agreed(rng, Call::Materialise, tree, from_0, cells);
        self.list(rng, tree, &materialised);
        if let (0, Ok(rust)) = (from_0, &materialised) {
            let plain = Handed {
                cells: cells_answer(rust).written,
                words: Vec::new(),
                ..*tree
            };
            self.list(rng, &plain, &materialised);
        }
    }

    /// The Rust's tree of cells whose links are good.
    fn rust(&mut self, tree: &Handed) -> Result<Tree, Panicked> {
        let set = self.oracle.set(tree.types)?;
        guarded(|| rust_trees::tree_of(tree, &set))
    }

    /// What the Rust's tree is balanced to on the set with none in place 0.
    fn none_first(
        &mut self,
        tree: &Handed,
        rust: &Result<Tree, Panicked>,
    ) -> Result<Answer, Panicked> {
        let set = self.oracle.set_with(tree.types, true)?;
        let rust = rust.as_ref().map_err(|&panicked| panicked)?;
        let (written, words) = rust_trees::narrowed(&NoneFirst::new(rust, &set).balanced());
        Ok(Answer { written, words })
    }

    /// Takes a call if it is accepted and the Rust answers, or refused and the Rust panics.
    fn agreed(
        &mut self,
        rng: &mut Rng,
        call: Call,
        tree: &Handed,
        number: u32,
        answer: Result<Answer, Panicked>,
    ) {
        if (number == 0) == answer.is_ok() {
            self.take(rng, call, tree, number, answer.unwrap_or_default());
        }
    }

    /// List on a tree, by the Rust's materialised tree. The Rust has no counterpart of an end that is too late from the start alone:
    /// such a tree is not taken.
    fn list(&mut self, rng: &mut Rng, tree: &Handed, materialised: &Result<Tree, Panicked>) {
        let number = number(tree, tree.start);
        let rust = materialised.as_ref().map_err(|&panicked| panicked);
        let lines = rust.map(|rust| match number {
            0 => lines_answer(rust, tree),
            _ => Answer::default(),
        });
        self.agreed(rng, Call::List, tree, number, lines);
    }

    /// Takes a call with the Rust's answer unless it is too large.
    fn take(&mut self, rng: &mut Rng, call: Call, tree: &Handed, number: u32, answer: Answer) {
        if tree.cells.len().max(answer.written.len()) > MOST_CELLS {
            return;
        }
        let room = answer.written.len() + rng.pick(&[0, 0, 3]);
        let change = match number {
            0 => Change::of(call, tree, &answer.written),
            _ => Change::No,
        };
        let kind = kind(call, tree, number, change);
        let asked = line(call, tree, room);
        let most = quota(call, number, change);
        self.taken.take(kind, most, asked, || {
            let told = match number {
                0 => answer.counted(call),
                _ => String::from("refused"),
            };
            let out = recording::output(answer.written, room);
            let words = match call {
                Call::Balance(_) => {
                    format!(" :{}", recording::output(answer.words, tree.words.len()))
                }
                _ => String::new(),
            };
            format!("{told} :{out}{words}")
        });
    }
}

/// The number that a call is answered with that is lent enough and counts ends from this start.
fn number(tree: &Handed, start: u32) -> u32 {
    let bad = model::bad_cell(tree.types, start, &tree.cells, &tree.words);
    match (tree.types > 65_536, bad) {
        (true, _) => 1,
        (false, Some(_)) => 15,
        (false, None) => 0,
    }
}

/// The lines of the Rust's materialised tree, by the numbers of a tree that is handed in.
fn lines_answer(materialised: &Tree, tree: &Handed) -> Answer {
    let lines = flatten::lines(materialised, tree.first_repeat, tree.start);
    Answer {
        written: rust_trees::narrow(&lines),
        words: Vec::new(),
    }
}

/// Cells and words of a Rust tree.
fn cells_answer(tree: &Tree) -> Answer {
    let (written, words) = rust_trees::cells_of(tree);
    Answer { written, words }
}

/// What a call changes in the cells of an accepted tree by balancing it.
#[derive(Clone, Copy, Eq, PartialEq)]
enum Change {
    No,
    Yes,
    /// Other cells than on a node set without none in place 0.
    Otherwise,
}

impl Change {
    fn of(call: Call, tree: &Handed, written: &[u32]) -> Self {
        let without_none = || balancing::balanced(false, &tree.cells);
        match call {
            Call::Balance(1..) if written != without_none() => Self::Otherwise,
            Call::Balance(_) if written != tree.cells => Self::Yes,
            _ => Self::No,
        }
    }
}

fn quota(call: Call, number: u32, change: Change) -> usize {
    match (call, number) {
        (Call::Balance(1..), 0) if change != Change::Otherwise => 4,
        (Call::Balance(1..), 1..) => 20,
        (_, 0) => 14,
        _ => 60,
    }
}

/// Each number of parts and of trees of kind 3 is a kind of its own, up to a few, where a call is accepted.
fn kind(call: Call, tree: &Handed, number: u32, change: Change) -> String {
    let name = call.name();
    if number != 0 {
        return format!("{name} refused with {number}");
    }
    let cells = || tree.cells.chunks(CELL_WIDTH);
    let of_kind = |kind| cells().filter(|cell| cell[KIND] == kind).count();
    let (parts, none) = (of_kind(2).min(3), of_kind(3).min(3));
    let how = match change {
        Change::No => "",
        Change::Yes => " that change",
        Change::Otherwise => " that change otherwise",
    };
    format!("{name}, {parts} parts, {none} trees of kind 3{how}")
}

/// The number of the call, T, F, S, the room, the words of cells and packed words, and these. In a line of balance the
/// number that says whether place 0 of the node set is none stands in the place of F.
fn line(call: Call, tree: &Handed, room: usize) -> String {
    let (number, second) = match call {
        Call::Materialise => (1, tree.first_repeat),
        Call::List => (2, tree.first_repeat),
        Call::Balance(none_first) => (3, none_first),
    };
    format!(
        "{number} {} {second} {} {room} {} {}{}{}",
        tree.types,
        tree.start,
        tree.cells.len(),
        tree.words.len(),
        recording::spaced(&tree.cells),
        recording::spaced(&tree.words)
    )
}
