//! A part with a call on it, as the tables need it.

use crate::parts::model::{Search, Slice};
use crate::report::{Input, shortened};

#[derive(Clone, Copy, Debug)]
pub enum Call {
    Check,
    Slice(Slice),
    Search(Search),
}

impl Call {
    fn name(&self) -> &'static str {
        match self {
            Call::Check => "check",
            Call::Slice(_) => "slice",
            Call::Search(_) => "search",
        }
    }
}

/// One case: a call on a part under a number of types.
pub struct Case<'a> {
    pub types: u32,
    pub words: &'a [u16],
    pub call: Call,
}

impl Input for Case<'_> {
    fn call(&self) -> &'static str {
        self.call.name()
    }

    fn describe(&self) -> String {
        let call = match self.call {
            Call::Check => String::from("check"),
            Call::Slice(c) => format!(
                "slice {} to {}, base {}, room {}",
                c.from, c.to, c.base, c.room
            ),
            Call::Search(c) => format!(
                "search {} to {}, direction {}, position {}, base {}, side {}",
                c.from, c.to, c.direction, c.position, c.base, c.side
            ),
        };
        format!("{call}, T {}, words {}", self.types, shortened(self.words))
    }

    fn weight(&self) -> (usize, u128) {
        let numbers: u128 = match self.call {
            Call::Check => 0,
            Call::Slice(c) => sum(&[c.from as u64, c.to as u64, c.base.into(), c.room as u64]),
            Call::Search(c) => {
                let signs = [c.direction.unsigned_abs(), c.side.unsigned_abs()];
                sum(&[c.from as u64, c.to as u64, c.base.into(), c.position.into()])
                    + sum(&signs.map(u64::from))
            }
        };
        let words: u128 = self.words.iter().map(|&word| u128::from(word)).sum();
        (self.words.len(), numbers + words + u128::from(self.types))
    }
}

fn sum(numbers: &[u64]) -> u128 {
    numbers.iter().map(|&number| u128::from(number)).sum()
}
