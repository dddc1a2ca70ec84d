//! The options of the command line, each with a value behind it.

use std::path::PathBuf;
use std::process::ExitCode;
use std::str::FromStr;

/// An option and its value.
pub struct Given {
    pub name: String,
    value: String,
}

impl Given {
    pub fn number<N: FromStr>(&self) -> Result<N, String> {
        let number = self.value.parse();
        number.map_err(|_| format!("{} wants a number", self.name))
    }

    pub fn path(&self) -> PathBuf {
        PathBuf::from(&self.value)
    }

    pub fn unknown(&self) -> Result<(), String> {
        Err(format!("unknown option {}", self.name))
    }
}

/// Hands each option over in turn; the first that is refused ends it.
pub fn read(
    mut words: impl Iterator<Item = String>,
    mut take: impl FnMut(&Given) -> Result<(), String>,
) -> Result<(), String> {
    while let Some(name) = words.next() {
        let value = words.next().ok_or(format!("{name} wants a value"))?;
        take(&Given { name, value })?;
    }
    Ok(())
}

/// The words behind the program's name.
pub fn words() -> impl Iterator<Item = String> {
    std::env::args().skip(1)
}

/// Says what is wrong with the command line.
pub fn refused(text: &str) -> ExitCode {
    eprintln!("{text}");
    ExitCode::from(2)
}
