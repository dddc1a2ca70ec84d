//! What antt computes for each case. This is the one place that cites definitions by name; which of them must be unfolded
//! is read from the specs.

/// A module of the crate of cases.
pub struct Computed {
    pub module: &'static str,
    pub text: &'static str,
    /// The names in it that cases cite.
    pub names: &'static str,
}

/// An outcome as a list of numbers: every other module uses it.
pub const TOLD: Computed = Computed {
    module: "Told",
    names: "told",
    text: "\
use Rattle.std.specs.Prelude.{List, ◌∷◌, ℕ}
use Rattle.words.specs.Outcome.{Outcome, number_of, place_of, counts_of}

-- number, place and counts
unfoldable pub told : Outcome → List ℕ
told o = number_of o ∷ place_of o ∷ counts_of o
",
};

/// The part check.
pub const PARTS: Computed = Computed {
    module: "PartAnswers",
    names: "part_answer",
    text: "\
use Rattle.std.specs.Prelude.{List, ℕ}
use Rattle.part.specs.Part.{part_check}
use Rattle.compare.proofs.Told.{told}

-- the part check: number and place, and the three counts where it is accepted
unfoldable pub part_answer : (T : ℕ) (w : List ℕ) → List ℕ
part_answer T w = told (part_check w T)
",
};

/// A slice of a part.
pub const SLICES: Computed = Computed {
    module: "SliceAnswers",
    names: "slice_answer",
    text: "\
use Rattle.std.specs.Prelude.{List, ◌∷◌, ℕ}
use Rattle.words.specs.Outcome.{Result}
use Rattle.slicing.specs.Slice.{slice_part}
use Rattle.compare.proofs.Told.{told}

-- a slice into an output that held `out`: number, place and counts, and what the output holds afterwards
unfoldable pub slice_answer : (T from to base : ℕ) (w out : List ℕ) → List (List ℕ)
slice_answer T from to base w out =
    let r : Result = slice_part w T from to base out in
    told r.outcome ∷ r.outputs
",
};

/// Lists, trees and calls of list.
pub const TREES: Computed = Computed {
    module: "Answers",
    names: "list_answer, list_rust, tree_answer, tree_rust, call_answer, deep_answer, wide_answer",
    text: "\
-- What is computed of the definitions for each case, and the Rust's answers in the same order.
use Rattle.std.specs.Prelude.{true, false, ◌&&◌, List, [], ◌∷◌, ◌++◌, ℕ, zero, suc, ◌+◌, ◌-◌, ◌*◌, ◌/◌, eqb, length}
use Rattle.std.specs.Prelude.{Option, None, Some}
use Rattle.words.specs.Outcome.{Result}
use Rattle.compare.proofs.Told.{told}
use Rattle.records.specs.Forest.{Forest, empty, add, reading}
use Rattle.records.specs.Parse.{parse}
use Rattle.records.specs.Check.{check}
use Rattle.tree.specs.Trees.{Trees, nil, tree, part, is_nil, siblings}
use Rattle.tree.specs.Build.{build}
use Rattle.tree.specs.Materialise.{materialise}
use Rattle.tree.specs.Listing.{listing}
use Rattle.tree.specs.Cells.{absolute, relative, kind, id_word, cells, packed, decode}
use Rattle.rules.specs.Lowest.{bad_cell}
use Rattle.tree.specs.Calls.{Written, written, build_cells, materialise_cells, balance_cells, list_cells}
use Rattle.rules.specs.Calls.{list_call}

-- the check of a list with the least work slice
unfoldable pub checked : (T b top S : ℕ) (list : List ℕ) → List ℕ
checked T b top S list = told (check T b top S (96 * (length list / 4) + 96) list)

-- the place of a cell that breaks a rule, if there is one
unfoldable pub at_fault : Option ℕ → List ℕ
at_fault None = []
at_fault (Some c) = c ∷ []

-- A list: its check, its ordinary reading, cells and words of the build, the cells that materialise writes of these, the lines that
-- listing writes of those and of cells and words of the build, and what the cell rules say against each, counted from S.
unfoldable pub list_answer : (T F b S top : ℕ) (given : Option ℕ) (list : List ℕ) → List (List ℕ)
list_answer T F b S top given list =
    let f : Forest = parse list in
    let w : Written = build_cells F b S top given f in
    let m : List ℕ = materialise_cells w.cells w.words in
    checked T b top S list ∷ reading F 0 f ∷ w.cells ∷ w.words ∷ m ∷ list_cells F S m [] ∷ list_cells F S w.cells w.words
    ∷ at_fault (bad_cell T S w.cells w.words) ∷ at_fault (bad_cell T S m []) ∷ []

-- the Rust's: n records, all of them accepted; the reading is what the Rust lists; no cell breaks a rule
unfoldable pub list_rust : (n : ℕ) (cs ws m lines : List ℕ) → List (List ℕ)
list_rust n cs ws m lines = (0 ∷ 0 ∷ n ∷ []) ∷ lines ∷ cs ∷ ws ∷ m ∷ lines ∷ lines ∷ [] ∷ [] ∷ []

-- A tree handed in as cells and words: what the cell rules say against it, counted from 0 and from S; it written again as it is
-- read, balanced on a set without none in place 0 and on one with it, materialised and then listed, and listed as it is.
unfoldable pub tree_answer : (T F S : ℕ) (cs ws : List ℕ) → List (List ℕ)
tree_answer T F S cs ws =
    let again : Written = written 0 (absolute 0 (decode ws cs)) in
    let b : Written = balance_cells false cs ws in
    let n : Written = balance_cells true cs ws in
    let m : List ℕ = materialise_cells cs ws in
    at_fault (bad_cell T 0 cs ws) ∷ at_fault (bad_cell T S cs ws)
    ∷ again.cells ∷ again.words ∷ b.cells ∷ b.words ∷ n.cells ∷ n.words ∷ m ∷ list_cells F S m [] ∷ list_cells F S cs ws
    ∷ at_fault (bad_cell T 0 b.cells b.words) ∷ at_fault (bad_cell T 0 n.cells n.words)
    ∷ at_fault (bad_cell T S m []) ∷ []

-- the Rust's: the tree itself, balanced on the two sets and materialised, and the lines; no cell breaks a rule
unfoldable pub tree_rust : (cs ws bcs bws ncs nws m lines : List ℕ) → List (List ℕ)
tree_rust cs ws bcs bws ncs nws m lines =
    [] ∷ [] ∷ cs ∷ ws ∷ bcs ∷ bws ∷ ncs ∷ nws ∷ m ∷ lines ∷ lines ∷ [] ∷ [] ∷ [] ∷ []

-- The call list as a whole, on cells and words that may break rules, with a work slice of so many words and an output that held
-- `out`: number, place and counts, and what the output holds afterwards.
unfoldable pub call_answer : (T F S : ℕ) (cs ws : List ℕ) (work : ℕ) (out : List ℕ) → List (List ℕ)
call_answer T F S cs ws work out =
    let r : Result = list_call T F S cs ws work out in
    told r.outcome ∷ r.outputs

-- the forest f inside n records of id 0 from 0 to e, each in the next
unfoldable pub around : (n e : ℕ) → Forest → Forest
around zero e f = f
around (suc n) e f = add empty 0 0 e (around n e f)

-- the children of a tree of id 0 from 0 to e that stands alone; none of any other
unfoldable pub inside : (e : ℕ) → Trees → Trees
inside e nil = nil
inside e (tree None s l kids rest) = nil
inside e (tree (Some i) s l kids rest) =
    elim (is_nil rest && (eqb i 0 && (eqb s 0 && eqb l e))) [ true ↦ kids | false ↦ nil ]
inside e (part s l ws rest) = nil

-- what stands inside n such trees, each in the next
unfoldable pub under : (n e : ℕ) → Trees → Trees
under zero e t = t
under (suc n) e t = under n e (inside e t)

-- A run of a list inside n records, under a top of id 0: the cells from the last of the n on, the packed words, the materialised
-- cells and the lines from there on. The cells and lines before them are all alike; `under` holds them to it. Then the lines that
-- listing writes of cells and words from there on under a top of their own: of all of them they take too many steps.
unfoldable pub deep_answer : (F b n e : ℕ) (list : List ℕ) → List (List ℕ)
deep_answer F b n e list =
    let t : Trees = build F b 0 0 None (around n e (parse list)) in
    let u : Trees = under n e t in
    let w : Written = written 0 (tree (Some 0) 0 e u nil) in
    let m : Trees = under n e (materialise t) in
    cells (suc n) 0 (relative 0 u) ∷ packed u ∷ cells (suc n) 0 (relative 0 m) ∷ listing F (n - 1) m
    ∷ list_cells F 0 w.cells w.words ∷ []

-- k records of id i from 0 to 0 before those of a forest
unfoldable pub ahead : (k i : ℕ) → Forest → Forest
ahead zero i empty = empty
ahead (suc k) i empty = add (ahead k i empty) i 0 0 empty
ahead k i (add before j s e kids) = add (ahead k i before) j s e kids

-- of siblings with their descendants: kind, id, start, length and number of children. A part's words are not looked at: those
-- of the longest parts take too many steps.
unfoldable pub outline : Trees → List ℕ
outline nil = []
outline (tree t s l kids rest) = kind t ∷ id_word t ∷ s ∷ l ∷ siblings kids ∷ (outline kids ++ outline rest)
outline (part s l ws rest) = 2 ∷ 0 ∷ s ∷ l ∷ 0 ∷ outline rest

-- the build of a list with k records of id i ahead of it, all in a record of id j from 0 to e, inside n records: its outline from
-- the last of the n on
unfoldable pub wide_answer : (F b n e k i j : ℕ) (list : List ℕ) → List ℕ
wide_answer F b n e k i j list =
    outline (under n e (build F b 0 0 None (around n e (add empty j 0 e (ahead k i (parse list))))))
",
};
