//! One list at a time: the build against the Rust's, cell by cell and word by word, and the whole run, with materialising and
//! without it, against the ordinary reading of the records.

use crate::builds::case::{self, Case};
use crate::builds::tally::BuildTally;
use crate::lent::{Filling, Lent, UNTOUCHED, answered, front_only, refill, untouched};
use crate::lists::model::{List, Verdict, work_words};
use crate::oracle::Oracle;
use crate::report::shortened;
use crate::rezel::Panicked;
use crate::trees::model::{self, Handed};
use crate::trees::rust_trees;
use crate::widths::{CELL_WIDTH, COUNT, ID, KIND, LINE_WIDTH, RECORD_WIDTH};
use crate::{Tree, calls, flatten};

/// Lists of fewer records are tried with some of the slices in turn; longer ones with all of them, where they are fewer than
/// many one time in eight.
const FEW: usize = 8;
const MANY: usize = 200;

/// Lists of at most so many levels list their ordinary reading.
const LEVELS: usize = 2_503;

/// The words of the longest part.
const FULL: u32 = 65_532;

/// What an accepted build writes.
struct Written {
    cells: Vec<u32>,
    words: Vec<u16>,
}

/// The slices that a build is lent, in words, and what the work slice holds.
#[derive(Clone, Copy, Debug)]
struct Slices {
    work: usize,
    cells: usize,
    words: usize,
    filling: Filling,
    /// Words to answer in.
    held: usize,
}

#[derive(Default)]
pub struct BuildSession {
    pub tally: BuildTally,
    oracle: Oracle,
    lent: Lent,
    cells: Vec<u32>,
    words: Vec<u16>,
    lists: u64,
}

impl BuildSession {
    /// Compares one list and counts it under a kind.
    pub fn check(&mut self, kind: &'static str, case: &Case) {
        self.lists += 1;
        self.lent.stir(self.lists);
        match self.compare(case) {
            Ok(number) => self.tally.count(kind, number),
            Err(what) => self.tally.differ(kind, case, what),
        }
    }

    /// The number that a list is answered with, or what differs.
    pub fn compare(&mut self, case: &Case) -> Result<u32, String> {
        let verdict = self.verdict(&case.list)?;
        match verdict.number {
            0 => self.accepted(case)?,
            _ => self.refused(case, verdict)?,
        }
        Ok(verdict.number)
    }

    /// What the list check answers.
    fn verdict(&mut self, list: &List) -> Result<Verdict, String> {
        let (work, _) = self.lent.filled(list.work, Filling::Left);
        let mut info = [UNTOUCHED; 3];
        let number = calls::check(list, work, &mut info);
        let [place, count, last] = info;
        let records = list.words.len() / RECORD_WIDTH;
        let counted = if number == 0 { records } else { 0 };
        if last != 0 || count as usize != counted || (number == 0 && place != 0) {
            return Err(format!("the list check answers {number} {info:x?}"));
        }
        Ok(Verdict {
            number,
            place,
            count,
        })
    }

    /// Refused by the list check: the build answers the same, whatever it is lent for the result.
    fn refused(&mut self, case: &Case, verdict: Verdict) -> Result<(), String> {
        let lent = Slices {
            work: case.list.work,
            cells: 3 * CELL_WIDTH,
            words: 2 * RECORD_WIDTH,
            filling: Filling::Noise,
            held: 4,
        };
        let nothing = Slices {
            cells: 0,
            words: 0,
            filling: Filling::Left,
            held: (self.lists % 4) as usize,
            ..lent
        };
        let wanted = [verdict.place, 0, 0];
        for lent in [lent, nothing] {
            self.call(case, &lent, verdict.number, wanted, None)?;
        }
        Ok(())
    }

    /// Accepted by the list check: the Rust's cells and words, and its lines.
    fn accepted(&mut self, case: &Case) -> Result<(), String> {
        let built = self.oracle.build_given(&case.list, case.given);
        let rust = built.map_err(|Panicked| String::from("accepted, and the Rust panics"))?;
        let (cells, words) = rust_trees::cells_of(&rust);
        let written = Written { cells, words };
        self.none_first(case, &written)?;
        self.sized(case, &written)?;
        self.note(case, &written);
        self.run(case, &rust, written)
    }

    /// Whether the Rust builds the same tree on the set with none in place 0.
    fn none_first(&mut self, case: &Case, written: &Written) -> Result<(), String> {
        let built = self.oracle.build_with(&case.list, case.given, true);
        let rust =
            built.map_err(|Panicked| String::from("the Rust panics with none in place 0"))?;
        let (cells, words) = rust_trees::built_cells(&rust);
        if cells != written.cells || words != written.words {
            return Err(format!(
                "with none in place 0 the Rust builds {} {}",
                shortened(&cells),
                shortened(&words)
            ));
        }
        self.tally.seen.none_first += 1;
        self.tally.seen.none_first_and_f_0 += u64::from(case.list.first_repeat == 0);
        Ok(())
    }

    /// The build on slices that are just large enough, larger, and one word short.
    fn sized(&mut self, case: &Case, written: &Written) -> Result<(), String> {
        let records = case.list.words.len() / RECORD_WIDTH;
        let just = Slices {
            work: work_words(records),
            cells: written.cells.len(),
            words: written.words.len(),
            filling: Filling::Left,
            held: 4,
        };
        let counts = [0, (just.cells / CELL_WIDTH) as u32, just.words as u32];
        let more = Slices {
            work: just.work + 5,
            cells: just.cells + 9,
            words: just.words + 3,
            filling: Filling::Ones,
            held: (self.lists % 4) as usize,
        };
        let with = |filling| Slices { filling, ..just };
        let good = [just, with(Filling::Noise), more, with(Filling::Zeros)];
        let few = records < FEW || (records < MANY && self.lists % 8 != 0);
        for lent in in_turn(&good, self.lists, few) {
            self.call(case, &lent, 0, counts, Some(written))?;
        }
        for (lent, number) in in_turn(&short(just), self.lists, few) {
            self.call(case, &lent, number, [0; 3], None)?;
        }
        Ok(())
    }

    /// Whether the build answers and writes what is expected; refused, nothing is written.
    fn call(
        &mut self,
        case: &Case,
        lent: &Slices,
        number: u32,
        told: [u32; 3],
        written: Option<&Written>,
    ) -> Result<(), String> {
        self.tally.seen.calls += 1;
        let (work, guard) = self.lent.filled(lent.work, lent.filling);
        refill(&mut self.cells, lent.cells, UNTOUCHED);
        refill(&mut self.words, lent.words, UNTOUCHED as u16);
        let cells = &mut self.cells[..lent.cells];
        let words = &mut self.words[..lent.words];
        let mut info = [UNTOUCHED; 4];
        let answer = calls::build(case, work, cells, words, &mut info[..lent.held]);
        let wanted = answered(&told, lent.held);
        if answer != number || info != wanted {
            return Err(format!(
                "library {answer} {info:x?}, expected {number} {wanted:x?}, lent {lent:?}"
            ));
        }
        if !untouched(guard) {
            return Err(format!(
                "words behind the work slice written, lent {lent:?}"
            ));
        }
        let (cells, words): (&[u32], &[u16]) = match written {
            Some(written) => (&written.cells, &written.words),
            None => (&[], &[]),
        };
        front_only("cells", &self.cells, cells, UNTOUCHED)
            .and_then(|()| front_only("words", &self.words, words, UNTOUCHED as u16))
            .map_err(|what| format!("{what}, lent {lent:?}"))
    }

    /// Build and list: the ordinary reading of the records. Build, materialise and list: cells as the Rust materialises them, and
    /// the same lines.
    fn run(&mut self, case: &Case, rust: &Tree, written: Written) -> Result<(), String> {
        let list = &case.list;
        let built = Handed {
            types: list.types,
            first_repeat: list.first_repeat,
            start: list.start,
            cells: written.cells,
            words: written.words,
        };
        let materialised = rust.materialize();
        let (cells, _) = rust_trees::cells_of(&materialised);
        let found = self.materialise(&built, cells.len())?;
        if found.cells != cells {
            return Err(format!("materialised {}", shortened(&found.cells)));
        }
        let reading = case::reading(list.words, list.first_repeat);
        let lines = match reading.levels <= LEVELS {
            true => reading.lines,
            false => self.deep_lines(list, &materialised, &reading.lines),
        };
        self.tally.seen.lines += (lines.len() / LINE_WIDTH) as u64;
        self.list(&built, &lines)?;
        self.list(&found, &lines)
            .map_err(|what| format!("materialised, {what}"))
    }

    /// The lines of a list that is nested too deep to be listed whole: those of the Rust's tree.
    fn deep_lines(&mut self, list: &List, tree: &Tree, reading: &[u32]) -> Vec<u32> {
        let lines = rust_trees::narrow(&flatten::lines(tree, list.first_repeat, list.start));
        self.tally.seen.deep += 1;
        self.tally.seen.losing += u64::from(lines.len() < reading.len());
        lines
    }

    fn materialise(&mut self, tree: &Handed, room: usize) -> Result<Handed, String> {
        let need = model::work_words(tree.cells.len(), tree.words.len());
        let (work, _) = self.lent.filled(need, Filling::Left);
        let mut info = [UNTOUCHED; 3];
        let mut cells = vec![UNTOUCHED; room];
        let number = calls::materialise(tree, work, &mut cells, &mut info);
        if number != 0 || info != [0, (room / CELL_WIDTH) as u32, 0] {
            return Err(format!("materialise answers {number} {info:x?}"));
        }
        Ok(Handed {
            cells,
            words: Vec::new(),
            ..*tree
        })
    }

    fn list(&mut self, tree: &Handed, lines: &[u32]) -> Result<(), String> {
        let need = model::work_words(tree.cells.len(), tree.words.len());
        let (work, _) = self.lent.filled(need, Filling::Left);
        let mut info = [UNTOUCHED; 3];
        let mut found = vec![UNTOUCHED; lines.len()];
        let number = calls::list(tree, work, &mut found, &mut info);
        if number != 0 || info != [0, (lines.len() / LINE_WIDTH) as u32, 0] {
            return Err(format!("list answers {number} {info:x?}"));
        }
        if found != lines {
            return Err(format!("listed {}", shortened(&found)));
        }
        Ok(())
    }

    fn note(&mut self, case: &Case, written: &Written) {
        let list = &case.list;
        let seen = &mut self.tally.seen;
        let repeat = |&id: &u32| id >= list.first_repeat;
        let records = list.words.chunks(RECORD_WIDTH);
        let repeats = records.clone().filter(|it| repeat(&it[0])).count() as u64;
        let cells = written.cells.chunks(CELL_WIDTH);
        let below = || cells.clone().skip(1);
        let trees = below()
            .filter(|cell| cell[KIND] == 1 && repeat(&cell[ID]))
            .count() as u64;
        let all_parts = || below().filter(|cell| cell[KIND] == 2);
        let parts = |words: u32| all_parts().filter(move |cell| cell[COUNT] == words);
        seen.accepted += 1;
        seen.records += records.len() as u64;
        seen.cells += cells.len() as u64;
        seen.words += written.words.len() as u64;
        seen.parts += all_parts().count() as u64;
        seen.empty_parts += parts(0).count() as u64;
        seen.full_parts += u64::from(parts(FULL).next().is_some());
        seen.repeat_trees += trees;
        seen.grouped += u64::from(trees > repeats);
    }
}

/// All of them, or two that change from list to list.
fn in_turn<A: Copy>(all: &[A], turn: u64, few: bool) -> Vec<A> {
    if !few {
        return all.to_vec();
    }
    let at = turn as usize % all.len();
    vec![all[at], all[(at + 1) % all.len()]]
}

/// Slices that are too short, with the number of each.
fn short(just: Slices) -> Vec<(Slices, u32)> {
    let noise = Slices {
        filling: Filling::Noise,
        ..just
    };
    let less = |work: usize, cells: usize, words: usize| Slices {
        work: just.work - work,
        cells: just.cells - cells,
        words: just.words - words,
        ..noise
    };
    let mut all = vec![
        (less(1, 0, 0), 11),
        (less(0, 1, 0), 12),
        (less(0, just.cells, just.words), 12),
    ];
    if just.words > 0 {
        all.push((less(0, 0, 1), 13));
        all.push((less(1, 1, 1), 11));
        all.push((less(0, 1, 1), 12));
    }
    all
}
