//! The Rust original behind plain functions, which answer or say that it panics.

use std::collections::HashMap;
use std::process::ExitCode;
use std::sync::Arc;
use std::thread::{Builder, JoinHandle};

use crate::TextSize;
use crate::lists::model::List;
use crate::parts::model::Search;
pub use crate::rezel::tree::TreeBuffer;
use crate::rezel::tree::{self, NodeSet, Tree, TreeBuild};
use crate::rezel::{self, Panicked, guarded};
use crate::widths::RECORD_WIDTH;

/// One more type than a set may have: every larger number of types fails by the same assertion.
const TOO_MANY_TYPES: u32 = 65_537;

/// The node sets made so far, by the number of types and whether none is in place 0.
#[derive(Default)]
pub struct Oracle {
    sets: HashMap<(u32, bool), Result<Arc<NodeSet>, Panicked>>,
}

impl Oracle {
    /// The set of so many types without none.
    pub fn set(&mut self, types: u32) -> Result<Arc<NodeSet>, Panicked> {
        self.set_with(types, false)
    }

    /// The set of so many types, with none in place 0 or without it.
    pub fn set_with(&mut self, types: u32, none_first: bool) -> Result<Arc<NodeSet>, Panicked> {
        let types = types.min(TOO_MANY_TYPES);
        self.sets
            .entry((types, none_first))
            .or_insert_with(|| guarded(|| rezel::node_set(types, none_first)))
            .clone()
    }

    /// The part check: a buffer that holds the words. Its own length plays no part in the three calls.
    pub fn check(&mut self, types: u32, words: &[u16]) -> Result<TreeBuffer, Panicked> {
        let set = self.set(types)?;
        let words = words.to_vec();
        guarded(|| TreeBuffer::new(words, TextSize::new(0), set))
    }

    /// The build: the tree of a list of records. Document 01's top id has 32 bits and the Rust's 16.
    pub fn build(&mut self, list: &List) -> Result<Tree, Panicked> {
        self.build_given(list, None)
    }

    /// The same with a given length or none.
    pub fn build_given(&mut self, list: &List, given: Option<u32>) -> Result<Tree, Panicked> {
        self.build_with(list, given, false)
    }

    /// The same on the set with none in place 0 or without it.
    pub fn build_with(
        &mut self,
        list: &List,
        given: Option<u32>,
        none_first: bool,
    ) -> Result<Tree, Panicked> {
        let set = self.set_with(list.types, none_first)?;
        let top = u16::try_from(list.top).map_err(|_| Panicked)?;
        let build = TreeBuild {
            buffer: list.words.to_vec(),
            node_set: set,
            top_id: top,
            start: TextSize::new(list.start),
            length: given.map(TextSize::new),
            max_buffer_length: TextSize::new(list.bound),
            min_repeat_type: list.first_repeat as usize,
        };
        guarded(|| Tree::build(&build))
    }

    /// The same with words that are handed over, and no guard: for timing.
    pub fn check_unguarded(&mut self, types: u32) -> impl Fn(Vec<u16>) -> TreeBuffer + use<> {
        let set = self.set(types).expect("a set of few types");
        move |words| TreeBuffer::new(words, TextSize::new(0), Arc::clone(&set))
    }
}

/// The slice: its words and its length.
pub fn slice(
    buffer: &TreeBuffer,
    from: usize,
    to: usize,
    base: u32,
) -> Result<(Vec<u16>, u32), Panicked> {
    guarded(|| {
        let cut = buffer.slice(from, to, TextSize::new(base));
        (cut.data().to_vec(), u32::from(cut.len()))
    })
}

/// The part check's counts: the records; the length of a slice of all of them; how deep the text of the buffer nests.
pub fn counts(buffer: &TreeBuffer) -> Result<[u64; 3], Panicked> {
    let (words, length) = slice(buffer, 0, buffer.data().len(), 0)?;
    let text = guarded(|| tree::buffer_text(buffer))?;
    let records = words.len() / RECORD_WIDTH;
    Ok([records as u64, length.into(), nesting(&text)])
}

/// How deep a text nests in which every record is a name, with its children in brackets behind it; 0 if it has no name.
fn nesting(text: &str) -> u64 {
    let mut open = u64::from(!text.is_empty());
    let mut deepest = open;
    for byte in text.bytes() {
        match byte {
            b'(' => open += 1,
            b')' => open -= 1,
            _ => {}
        }
        deepest = deepest.max(open);
    }
    deepest
}

/// The search: the offset of the match, or none. Some bounds make it run for ever: see `parts/compare.rs`.
pub fn search(buffer: &TreeBuffer, call: &Search) -> Result<Option<usize>, Panicked> {
    guarded(|| search_unguarded(buffer, call))
}

/// The same without a guard: for timing.
pub fn search_unguarded(buffer: &TreeBuffer, call: &Search) -> Option<usize> {
    tree::search_buffer(
        buffer,
        [call.from, call.to],
        call.direction,
        call.position,
        call.base,
        call.side,
    )
}

/// The Rust recurses once for each nested record and tree.
const STACK: usize = 1 << 30;

/// Work that shows deep trees to the Rust, on a thread of its own with a large stack.
pub fn on_large_stack<A: Send + 'static>(
    work: impl FnOnce() -> A + Send + 'static,
) -> JoinHandle<A> {
    let thread = Builder::new().stack_size(STACK).spawn(work);
    thread.expect("a thread")
}

/// A whole run of such work; failed where it panics.
pub fn run_on_large_stack(work: impl FnOnce() -> ExitCode + Send + 'static) -> ExitCode {
    on_large_stack(work).join().unwrap_or(ExitCode::FAILURE)
}
