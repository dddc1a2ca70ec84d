//! The slices that are lent to a call: what they hold before it, and what must stay as it is.

use std::fmt::Debug;

use crate::report::shortened;
use crate::rng::Rng;

/// What stands in a slice before a call where nothing else is said: no answer has it in any word.
pub const UNTOUCHED: u32 = 0xdead_cafe;

/// Words behind the work slice that must stay as they are.
const GUARD: usize = 16;

/// Words behind an output slice that must stay as they are.
pub const BEHIND: usize = 8;

/// The noise changes once in so many cases.
const NEW_NOISE_EVERY: u64 = 64;

/// What the work slice holds before a call.
#[derive(Clone, Copy, Debug)]
pub enum Filling {
    /// What the call before left there, on another list.
    Left,
    Zeros,
    Ones,
    Noise,
}

/// The words that are lent as a work slice, and noise to fill them with.
pub struct Lent {
    words: Vec<u32>,
    noise: Vec<u32>,
}

impl Default for Lent {
    fn default() -> Self {
        let mut rng = Rng::new(77);
        // Small numbers too: they look like records and levels.
        let noise = (0..8_192)
            .map(|_| rng.next() as u32 >> rng.pick(&[0, 12, 24, 28, 30]))
            .collect();
        Self {
            words: Vec::new(),
            noise,
        }
    }
}

impl Lent {
    /// Other noise from some cases on; cases are counted from 1.
    pub fn stir(&mut self, case: u64) {
        if case % NEW_NOISE_EVERY == 0 {
            self.noise.rotate_left(5);
        }
    }

    /// So many words with a filling, and the guard behind them.
    pub fn filled(&mut self, count: usize, filling: Filling) -> (&mut [u32], &mut [u32]) {
        if self.words.len() < count + GUARD {
            self.words.resize(count + GUARD, 0);
        }
        let (work, rest) = self.words.split_at_mut(count);
        match filling {
            Filling::Left => {}
            Filling::Zeros => work.fill(0),
            Filling::Ones => work.fill(u32::MAX),
            Filling::Noise => {
                for piece in work.chunks_mut(self.noise.len()) {
                    piece.copy_from_slice(&self.noise[..piece.len()]);
                }
            }
        }
        let guard = &mut rest[..GUARD];
        guard.fill(UNTOUCHED);
        (work, guard)
    }
}

pub fn untouched(guard: &[u32]) -> bool {
    guard.iter().all(|&word| word == UNTOUCHED)
}

/// What words hold after a call that was lent so many of them to answer in, and told these: place and counts.
pub fn answered<const WORDS: usize>(told: &[u32], held: usize) -> [u32; WORDS] {
    let mut words = [UNTOUCHED; WORDS];
    let taken = told.len().min(held);
    words[..taken].copy_from_slice(&told[..taken]);
    words
}

/// So many words of output and some behind them, all of one value.
pub fn refill<A: Clone>(words: &mut Vec<A>, count: usize, value: A) {
    words.clear();
    words.resize(count + BEHIND, value);
}

/// Whether an output holds what is expected at its front, and nothing new behind it.
pub fn front_only<A: Copy + PartialEq + Debug>(
    name: &str,
    out: &[A],
    written: &[A],
    untouched: A,
) -> Result<(), String> {
    let (front, rest) = out.split_at(written.len());
    if front != written {
        let at = front.iter().zip(written).position(|(a, b)| a != b);
        let at = at.unwrap_or(0);
        return Err(format!(
            "{name} differ from word {at} on: written {}, expected {}",
            shortened(&front[at..]),
            shortened(&written[at..])
        ));
    }
    if rest.iter().any(|&word| word != untouched) {
        return Err(format!("{name} behind the counted front were written"));
    }
    Ok(())
}
