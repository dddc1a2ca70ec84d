//! Compares the definitions of the build and of the tree calls with the Rust before any code does, and those of the part
//! check and of slicing with the plain model: random lists, trees and parts go through these, and antt computes the
//! definitions on the same ones.

mod answers;
mod antt;
mod calls;
mod computed;
mod flatten;
mod forests;
mod lists;
mod none_first;
mod packed;
mod shrink;
mod specs;
mod trees;
mod verdict;

// Shared with the driver of the calls.
#[path = "../options.rs"]
mod options;
#[path = "../rezel.rs"]
mod rezel;
#[path = "../rng.rs"]
mod rng;
#[path = "../shim.rs"]
mod shim;
#[allow(dead_code)]
#[path = "../widths.rs"]
mod widths;

// Random parts and the plain model of the part calls, and trees that are handed in as cells, with the model of their rules.
#[allow(dead_code)]
#[path = "../parts"]
mod parts {
    pub mod cases;
    pub mod model;
}
#[allow(dead_code)]
#[path = "../trees"]
mod handed {
    pub mod damage;
    pub mod model;
    pub mod rust_trees;
}

// The names that the Rust sources expect at the root of their crate.
pub use rezel::root::*;

use std::io;
use std::path::PathBuf;
use std::process::ExitCode;
use std::time::Instant;

use answers::{Input, Rust, Wide};
use antt::{Case, Folder};
use lists::List;
use rng::Rng;
use verdict::{Difference, Verdict};

struct Options {
    seed: u64,
    lists: usize,
    /// Lists that stand inside about 2,500 records, in which parts are flat.
    deep: usize,
    /// Lists with some 16,383 empty records.
    wide: usize,
    trees: usize,
    /// Calls of list on trees as cells, some of which are refused.
    calls: usize,
    /// Parts that are checked, and slices of parts, some of which are refused.
    parts: usize,
    slices: usize,
    folder: PathBuf,
    /// The repository whose definitions are compared.
    repository: PathBuf,
}

/// The folder that is written into where none is named: outside the repository, whose gate takes no second crates.txt in it, and
/// one for each clone.
fn own_folder() -> io::Result<PathBuf> {
    let clone = std::env::current_dir()?.display().to_string();
    let name = clone.trim_matches('/').replace('/', "-");
    Ok(std::env::temp_dir().join("hulwyth-definitions").join(name))
}

fn read_options() -> Result<Options, String> {
    let mut all = Options {
        seed: 1,
        lists: 1_000,
        deep: 50,
        wide: 8,
        trees: 400,
        calls: 400,
        parts: 400,
        slices: 200,
        folder: own_folder().map_err(|error| format!("no folder to write into: {error}"))?,
        repository: PathBuf::from("."),
    };
    options::read(options::words(), |given| {
        match given.name.as_str() {
            "--seed" => all.seed = given.number()?,
            "--lists" => all.lists = given.number()?,
            "--deep" => all.deep = given.number()?,
            "--wide" => all.wide = given.number()?,
            "--trees" => all.trees = given.number()?,
            "--calls" => all.calls = given.number()?,
            "--parts" => all.parts = given.number()?,
            "--slices" => all.slices = given.number()?,
            "--folder" => all.folder = given.path(),
            "--repository" => all.repository = given.path(),
            _ => return given.unknown(),
        }
        Ok(())
    })?;
    Ok(all)
}

fn main() -> ExitCode {
    rezel::silence_expected_panics();
    match read_options() {
        Ok(options) => compare(&options).unwrap_or_else(|error| {
            let text = format!("the generated repository cannot be made or proved: {error}");
            options::refused(&text)
        }),
        Err(text) => options::refused(&text),
    }
}

fn compare(options: &Options) -> io::Result<ExitCode> {
    let mut rust = Rust::default();
    let kinds = cases(options, &mut rust);
    let folder = Folder::new(options.folder.clone(), &options.repository, &kinds)?;
    println!("seed {}: {}", options.seed, rust.seen);
    let start = Instant::now();
    let found = match prove(&folder, &kinds)? {
        Verdict::Compared(found) => found,
        Verdict::Failed(text) => {
            eprintln!("{text}\nthe definitions could not be computed");
            return Ok(ExitCode::from(2));
        }
    };
    println!("computed in {:.0} s", start.elapsed().as_secs_f64());
    let status = report(options, &rust, &found);
    smallest(&folder, &mut rust, found)?;
    Ok(status)
}

/// The cases by the names of their files.
fn cases(options: &Options, rust: &mut Rust) -> Vec<(&'static str, Vec<Case>)> {
    let rng = &mut Rng::new(options.seed);
    let sets = rust.small_sets();
    let lists = Vec::from_iter((0..options.lists).map(|_| Input::List(lists::random(rng))));
    let deep = Vec::from_iter((0..options.deep).map(|_| deep(rng)));
    let wide = limits().chain(std::iter::repeat_with(|| wide(rng)));
    let wide = Vec::from_iter(wide.take(options.wide).map(Input::Wide));
    let trees = (0..options.trees).map(|_| Input::Tree(trees::random(rng, &sets)));
    let trees = Vec::from_iter(trees);
    let calls = (0..options.calls).map(|_| Input::Call(calls::random(rng, &sets)));
    let calls = Vec::from_iter(calls);
    let parts = (0..options.parts).map(|_| Input::Part(packed::random_part(rng)));
    let parts = Vec::from_iter(parts);
    let slices = (0..options.slices).map(|_| Input::Slice(packed::random_slice(rng)));
    let slices = Vec::from_iter(slices);
    let mut made = |inputs: Vec<Input>| {
        let cases = inputs.into_iter().filter_map(|input| rust.case(input));
        cases.collect()
    };
    vec![
        ("Lists", made(lists)),
        ("Deep", made(deep)),
        ("Wide", made(wide)),
        ("Trees", made(trees)),
        ("Calls", made(calls)),
        ("Parts", made(parts)),
        ("Slices", made(slices)),
    ]
}

fn deep(rng: &mut Rng) -> Input {
    let around = rng.pick(&[2_499, 2_500, 2_501, 2_501, 2_502, 2_502]);
    Input::Deep(lists::deep(rng), around)
}

/// The limits of 16,383 packed and of 16,383 flat records.
fn limits() -> impl Iterator<Item = Wide> {
    let places = [0, 2_501].into_iter();
    let counts = [16_383, 16_384];
    places.flat_map(move |around| {
        counts.map(|empties| Wide {
            list: List::empty(1, 1, 1_024),
            around,
            empties,
            id: 0,
            parent: 0,
        })
    })
}

/// A list about as long, mostly with something behind the empty records.
fn wide(rng: &mut Rng) -> Wide {
    let mut list = lists::deep(rng);
    while forests::count(&list.forest) > 12 {
        list = lists::deep(rng);
    }
    if rng.one_in(3) {
        list.forest.clear();
    }
    list.bound = list.bound.max(1);
    let types = list.types as usize;
    Wide {
        around: rng.pick(&[0, 0, 2_499, 2_500, 2_501, 2_501]),
        empties: 16_380 + rng.below(7),
        id: rng.below(types) as u32,
        parent: rng.below(types) as u32,
        list,
    }
}

fn prove(folder: &Folder, kinds: &[(&str, Vec<Case>)]) -> io::Result<Verdict> {
    let files = folder.write_cases(kinds)?;
    verdict::prove(folder, &files)
}

/// Prints what came of it; status 1 on a difference, 2 where some case could not be computed.
fn report(options: &Options, rust: &Rust, found: &[Difference]) -> ExitCode {
    for Difference {
        case,
        input,
        unknown,
        said,
    } in found
    {
        let word = if *unknown {
            "NOT COMPUTED"
        } else {
            "DIFFERENT"
        };
        println!("{word}: {case}: {input}\n  {said}");
    }
    for text in &rust.wrong {
        println!("DIFFERENT: {text}");
    }
    let unknown = found.iter().filter(|it| it.unknown).count();
    let differ = found.len() - unknown + rust.wrong.len();
    println!(
        "{} lists (and {} deep, {} wide ones), {} trees, {} calls of list, {} part checks and {} slices: {differ} differ, \
         {unknown} not computed",
        options.lists,
        options.deep,
        options.wide,
        options.trees,
        options.calls,
        options.parts,
        options.slices
    );
    match (differ, unknown) {
        (0, 0) => ExitCode::SUCCESS,
        (0, _) => ExitCode::from(2),
        _ => ExitCode::FAILURE,
    }
}

/// Makes the smallest of the inputs that differ smaller while it still differs, and prints it.
fn smallest(folder: &Folder, rust: &mut Rust, found: Vec<Difference>) -> io::Result<()> {
    let mut found = found;
    let mut best = None;
    loop {
        found.retain(|it| !it.unknown);
        found.sort_by_key(|it| shrink::size(&it.input));
        let Some(first) = found.into_iter().next() else {
            break;
        };
        let smaller = shrink::smaller(&first.input).into_iter();
        let cases = smaller.filter_map(|input| rust.case(input)).collect();
        best = Some(first);
        found = match prove(folder, &[("Smaller", cases)])? {
            Verdict::Compared(found) => found,
            Verdict::Failed(_) => break,
        };
    }
    if let Some(best) = best {
        println!("SMALLEST: {}\n  {}", best.input, best.said);
    }
    Ok(())
}
