//! Writes the generated repository: copies of the definitions, in crates of their names, and a crate of cases.

use std::fmt::Write as _;
use std::fs;
use std::io;
use std::path::{Path, PathBuf};

use crate::answers::Input;
use crate::computed::{Computed, TOLD};
use crate::specs::{self, Modules};

/// The crate of cases, which is written anew each time.
const CASES: &str = "compare";

/// So many cases stand in one file.
const IN_FILE: usize = 100;

/// What stands in place of the code of a crate.
const NO_CODE: &str = "// Generated: no code.\n";

/// What every file of cases begins with.
const HEAD: &str = "\
-- Generated: each case says that the definitions give what the Rust or the model gave.
use Rattle.std.proofs.Common.{◌≡◌, [], ◌∷◌, refl}
use Rattle.std.specs.Prelude.{None, Some}
";

/// A case: what it says in antt, and its input.
pub struct Case {
    pub claim: String,
    pub input: Input,
}

/// A file of cases, and the line on which each of them begins.
pub struct File {
    pub name: String,
    pub begins: Vec<usize>,
    pub inputs: Vec<Input>,
}

/// Cases by the name of their files; those of one name all cite one module.
pub type Kinds<'a> = [(&'a str, Vec<Case>)];

/// The modules that cases of these kinds cite.
fn computed(kinds: &Kinds) -> Vec<&'static Computed> {
    let mut modules = vec![&TOLD];
    for case in kinds.iter().filter_map(|(_, cases)| cases.first()) {
        let computed = case.input.computed();
        if !modules.iter().any(|it| it.module == computed.module) {
            modules.push(computed);
        }
    }
    modules
}

/// The generated repository.
pub struct Folder {
    pub at: PathBuf,
}

impl Folder {
    /// The folder of the crate of cases.
    pub fn cases(&self) -> PathBuf {
        self.at.join("crates").join(CASES)
    }

    /// Copies the definitions that these cases rest on out of a repository, and no code: no function is to be
    /// proved. What is there from an earlier time stays proved.
    pub fn new(at: PathBuf, repository: &Path, kinds: &Kinds) -> io::Result<Self> {
        let from = repository.join("crates");
        let mut modules = Modules::new();
        for computed in computed(kinds) {
            specs::collect(&from, computed.text, &mut modules)?;
        }
        let mut listed = String::new();
        let mut names: Vec<String> = Vec::new();
        for (name, below) in crates(&fs::read_to_string(repository.join("crates.txt"))?) {
            if !modules.keys().any(|(owner, _)| *owner == name) {
                continue;
            }
            copy_specs(
                &from.join(&name),
                &at.join("crates").join(&name),
                &modules,
                &name,
            )?;
            let below = Vec::from_iter(below.into_iter().filter(|it| names.contains(it)));
            writeln!(listed, "{name}: {}", below.join(" ")).expect("a string takes all");
            names.push(name);
        }
        writeln!(listed, "{CASES}: {}", names.join(" ")).expect("a string takes all");
        fs::write(at.join("crates.txt"), listed)?;
        Ok(Self { at })
    }

    /// Writes the crate of cases anew.
    pub fn write_cases(&self, kinds: &Kinds) -> io::Result<Vec<File>> {
        let proofs = new_crate(&self.cases(), "proofs")?;
        let mut modules = String::new();
        for Computed { module, text, .. } in computed(kinds) {
            fs::write(proofs.join(module).with_extension("antt"), text)?;
            writeln!(modules, "pub mod {module}").expect("a string takes all");
        }
        let mut files = Vec::new();
        for (kind, cases) in kinds {
            for (number, some) in cases.chunks(IN_FILE).enumerate() {
                let file = self.write_file(&proofs, format!("{kind}{number}"), some)?;
                writeln!(modules, "pub mod {}", file.name).expect("a string takes all");
                files.push(file);
            }
        }
        fs::write(proofs.join("Lib.antt"), modules)?;
        Ok(files)
    }

    /// The `use` lines of cases that cite a module, and the line that unfolds all that it rests on.
    fn cites(&self, computed: &Computed) -> io::Result<(String, String)> {
        let Computed { module, names, .. } = computed;
        let mut uses = format!("use Rattle.{CASES}.proofs.{module}.{{{names}}}\n");
        let mut unfolding = String::from("unfolding");
        let mut unfold = |path: String, alias: &str, text: &str| {
            let before = unfolding.len();
            for name in specs::unfoldable(text) {
                write!(unfolding, " {alias}.{name}").expect("a string takes all");
            }
            if unfolding.len() > before {
                writeln!(uses, "use {path} as {alias}").expect("a string takes all");
            }
        };
        let mut modules = Modules::new();
        for Computed { module, text, .. } in [&TOLD, computed] {
            specs::collect(&self.at.join("crates"), text, &mut modules)?;
            unfold(format!("Rattle.{CASES}.proofs.{module}"), module, text);
        }
        for ((name, module), text) in &modules {
            let alias = format!("{name}_{module}");
            unfold(format!("Rattle.{name}.specs.{module}"), &alias, text);
        }
        Ok((uses, unfolding))
    }

    fn write_file(&self, proofs: &Path, name: String, cases: &[Case]) -> io::Result<File> {
        let (uses, unfolding) = self.cites(cases[0].input.computed())?;
        let mut text = format!("{HEAD}{uses}");
        let mut file = File {
            name,
            begins: Vec::new(),
            inputs: Vec::new(),
        };
        for (number, case) in cases.iter().enumerate() {
            text.push('\n');
            file.begins.push(text.lines().count() + 1);
            file.inputs.push(case.input.clone());
            let Case { claim, .. } = case;
            write!(
                text,
                "pub case_{number} : {claim}\n{unfolding}\ncase_{number} = refl\n"
            )
            .expect("a string takes all");
        }
        fs::write(proofs.join(&file.name).with_extension("antt"), text)?;
        Ok(file)
    }
}

/// The crates of a crates.txt, bottom up, with those that each stands on. Settings may stand behind a name.
fn crates(lines: &str) -> impl Iterator<Item = (String, Vec<String>)> {
    let lines = lines.lines().filter(|line| !line.starts_with('#'));
    lines
        .filter_map(|line| line.split_once(':'))
        .filter_map(|(front, below)| {
            let name = front.split_whitespace().next()?.to_string();
            let below = below.split_whitespace().map(String::from).collect();
            Some((name, below))
        })
}

/// Makes the folder of a crate without code anew, and one folder in it, which is answered. What checks kept stays.
fn new_crate(at: &Path, inside: &str) -> io::Result<PathBuf> {
    for part in ["src", "specs", "proofs"] {
        let part = at.join(part);
        if part.exists() {
            fs::remove_dir_all(part)?;
        }
    }
    fs::create_dir_all(at.join("src"))?;
    fs::write(at.join("src/lib.rt"), NO_CODE)?;
    fs::create_dir_all(at.join(inside))?;
    Ok(at.join(inside))
}

/// Copies those of a crate's definitions that are among the modules.
fn copy_specs(from: &Path, to: &Path, modules: &Modules, name: &str) -> io::Result<()> {
    let specs = new_crate(to, "specs")?;
    let own = |line: &str| {
        let module = line.strip_prefix("pub mod ")?.to_string();
        let text = modules.get(&(name.to_string(), module.clone()))?;
        Some((module, text))
    };
    let mut listed = String::new();
    let all = fs::read_to_string(from.join("specs/Lib.antt"))?;
    for (module, text) in all.lines().filter_map(own) {
        fs::write(specs.join(&module).with_extension("antt"), text)?;
        writeln!(listed, "pub mod {module}").expect("a string takes all");
    }
    fs::write(specs.join("Lib.antt"), listed)
}

/// A list in antt.
pub fn list(words: impl IntoIterator<Item = impl std::fmt::Display>) -> String {
    let mut text = String::from("(");
    for word in words {
        write!(text, "{word} ∷ ").expect("a string takes all");
    }
    text.push_str("[])");
    text
}
