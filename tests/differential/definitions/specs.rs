//! Modules of specs, found by what cites them. Definitions cite no code and no proofs, so they can be computed without
//! proving any crate.

use std::collections::BTreeMap;
use std::fs;
use std::io;
use std::path::Path;

/// The standard library, whose definitions are there already.
const STANDARD: &str = "std";

/// The modules of specs that some text rests on, by crate and module, with their texts.
pub type Modules = BTreeMap<(String, String), String>;

/// Adds the modules that a text cites, and those that they cite in turn, from the crates of a repository.
pub fn collect(crates: &Path, text: &str, found: &mut Modules) -> io::Result<()> {
    for (name, module) in text.lines().filter_map(cited) {
        let key = (name.to_string(), module.to_string());
        if found.contains_key(&key) {
            continue;
        }
        let path = crates.join(name).join("specs").join(module);
        let path = path.with_extension("antt");
        let text = fs::read_to_string(&path)
            .map_err(|error| io::Error::other(format!("{}: {error}", path.display())))?;
        found.insert(key, text.clone());
        collect(crates, &text, found)?;
    }
    Ok(())
}

/// Crate and module of a line `use Rattle.CRATE.specs.MODULE..`; those of the standard library are no crate of a repository.
fn cited(line: &str) -> Option<(&str, &str)> {
    let (name, rest) = line.strip_prefix("use Rattle.")?.split_once('.')?;
    let module = rest.strip_prefix("specs.")?.split(['.', ' ']).next()?;
    (name != STANDARD).then_some((name, module))
}

/// The definitions of a module that must be unfolded.
pub fn unfoldable(text: &str) -> impl Iterator<Item = &str> {
    let lines = text.lines().map(str::trim_start);
    let marked = lines.filter_map(|line| line.strip_prefix("unfoldable pub "));
    marked.filter_map(|rest| rest.split(' ').next())
}
