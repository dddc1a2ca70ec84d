//! The differential driver: library, model and Rust on the same inputs.
//!
//! There is a driver for each of parts, lists, trees and builds: a file with its runs, and a folder with its random
//! inputs (`cases`, `bundles`), all short ones (`short`), the comparison of one input (`compare`) with what is expected
//! (`model`, `balancing`), the recorded sample (`sample`) and the times (`bench`). What several of them use is beside
//! this file: the exported calls (`calls`), the Rust (`rezel`, `oracle`), all short inputs (`spelling`), the slices that
//! are lent (`lent`), the widths of records, cells and lines (`widths`), samples written to files (`recording`), what is
//! printed (`report`), options and times, and the times of two archives in turn (`versus`).

mod builds;
mod calls;
mod lent;
mod lists;
mod options;
mod oracle;
mod parts;
mod recording;
mod report;
mod rezel;
mod rng;
mod shim;
mod spelling;
mod timing;
mod trees;
mod widths;

// The calls of another archive, where one is compared with.
#[cfg(before)]
#[allow(dead_code)]
mod before {
    include!(env!("BEFORE_CALLS"));
}
#[cfg(before)]
mod versus;

// Shared with the comparison of the definitions.
#[allow(dead_code)]
#[path = "definitions/flatten.rs"]
mod flatten;
#[path = "definitions/forests.rs"]
mod forests;
#[path = "definitions/none_first.rs"]
mod none_first;
#[allow(dead_code)]
#[path = "definitions/lists.rs"]
mod random_lists;
#[path = "definitions/trees.rs"]
mod shapes;

// The names that the Rust sources expect at the root of their crate.
pub use rezel::root::*;

use std::path::{Path, PathBuf};
use std::process::ExitCode;

use recording::Sample;

/// The crates whose programs are asked what was recorded.
const ASKED_PARTS: &str = "crates/replay_parts";
const ASKED_LISTS: &str = "crates/replay_lists";
const ASKED_TREES: &str = "crates/replay_trees";
const ASKED_BUILDS: &str = "crates/replay_builds";

struct Options {
    command: String,
    seed: u64,
    /// Random cases are made until this many cases have been compared in all; of trees so many are made.
    cases: Option<u64>,
    /// The folder that recorded answers are written into.
    into: Option<PathBuf>,
}

fn read_options() -> Result<Options, String> {
    let mut words = options::words();
    let mut all = Options {
        command: words.next().ok_or("a command is missing")?,
        seed: 1,
        cases: None,
        into: None,
    };
    options::read(words, |given| {
        match given.name.as_str() {
            "--seed" => all.seed = given.number()?,
            "--cases" => all.cases = Some(given.number()?),
            "--into" => all.into = Some(given.path()),
            _ => return given.unknown(),
        }
        Ok(())
    })?;
    Ok(all)
}

fn main() -> ExitCode {
    rezel::silence_expected_panics();
    match read_options() {
        Ok(options) => run(&options),
        Err(text) => options::refused(&text),
    }
}

fn run(options: &Options) -> ExitCode {
    let seed = options.seed;
    let cases = |unless: u64| options.cases.unwrap_or(unless);
    match options.command.as_str() {
        "parts" => parts::run(seed, cases(6_000_000)),
        "lists" => lists::run(seed, cases(6_000_000)),
        "trees" => trees::run(seed, cases(600_000)),
        "builds" => builds::run(seed, cases(12_000_000)),
        #[cfg(before)]
        "versus-parts" => versus::parts(seed, cases(25) as usize),
        #[cfg(before)]
        "versus-trees" => versus::trees(seed, cases(11) as usize),
        "bench-parts" => parts::bench::run(seed),
        "bench-lists" => lists::bench::run(seed),
        "bench-trees" => trees::bench::run(seed),
        "bench-builds" => builds::bench::run(seed),
        "record-parts" => record::<parts::sample::Sample>(options, ASKED_PARTS),
        "record-lists" => record::<lists::sample::Sample>(options, ASKED_LISTS),
        "record-trees" => record::<trees::sample::Sample>(options, ASKED_TREES),
        "record-builds" => record::<builds::sample::Sample>(options, ASKED_BUILDS),
        other => options::refused(&format!("unknown command {other}")),
    }
}

fn record<S: Sample>(options: &Options, asked: &str) -> ExitCode {
    let into = options.into.as_deref().unwrap_or(Path::new(asked));
    recording::run::<S>(options.seed, into)
}
