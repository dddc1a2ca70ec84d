//! The Rust original, unchanged: its sources are taken in from the folder that REZEL_SRC names at compile time; none of
//! them is copied.
//!
//! They stand in modules of the names that they expect, and what is private in them is reached from a function beside
//! the inclusion.

use std::cell::Cell;
use std::panic::{AssertUnwindSafe, catch_unwind, set_hook, take_hook};
use std::sync::Arc;

#[allow(dead_code, unused_imports, clippy::all)]
pub mod prop {
    include!(concat!(
        env!("REZEL_SRC"),
        "/crates/rezel-common/src/prop.rs"
    ));
}

#[allow(dead_code, unused_imports, clippy::all)]
pub mod parse {
    include!(concat!(
        env!("REZEL_SRC"),
        "/crates/rezel-common/src/parse.rs"
    ));
}

#[allow(dead_code, unused_imports, clippy::all)]
pub mod tree {
    include!(concat!(
        env!("REZEL_SRC"),
        "/crates/rezel-common/src/tree.rs"
    ));

    /// The private search, which calls the private `check_side`.
    pub fn search_buffer(
        buffer: &TreeBuffer,
        bounds: [usize; 2],
        direction: i8,
        position: u32,
        base: u32,
        side: i8,
    ) -> Option<usize> {
        let [from, to] = bounds;
        let (position, base) = (TextSize::new(position), TextSize::new(base));
        find_buffer_child(buffer, from, to, direction, position, base, side)
    }

    /// The private text of a buffer: the name of each record, and behind it its children in brackets.
    pub fn buffer_text(buffer: &TreeBuffer) -> String {
        buffer.render()
    }

    /// Where a tree stands in memory: no two trees that are held at one time stand in one place.
    pub fn address(tree: &Tree) -> usize {
        Arc::as_ptr(&tree.0) as usize
    }
}

/// The names that the sources expect at the root of their crate.
pub mod root {
    pub use super::parse::{self, Parser};
    pub use super::prop::{self, NodeProp};
    pub use super::tree::{self, MountedTree, NodeType, Tree};
    pub use crate::shim::{TextRange, TextSize};
}

use tree::{NodeFlags, NodeSet, NodeType};

/// So many types. `none_first`: place 0 is `NodeType::none` itself, if there is such a place; else no place is.
pub fn node_set(types: u32, none_first: bool) -> Arc<NodeSet> {
    let all = (0..types).map(|id| match id {
        0 if none_first => NodeType::none(),
        _ => NodeType::new(id as u16, "t", NodeFlags::default()),
    });
    Arc::new(NodeSet::new(all.collect()))
}

/// The Rust panicked: its way to refuse.
#[derive(Clone, Copy, Debug, PartialEq)]
pub struct Panicked;

thread_local! {
    /// Whether a panic belongs to the Rust and is caught, so that nothing is printed.
    static EXPECTED: Cell<bool> = const { Cell::new(false) };
}

/// Panics inside `guarded` print nothing from here on; all others print as ever.
pub fn silence_expected_panics() {
    let before = take_hook();
    set_hook(Box::new(move |info| {
        if !EXPECTED.get() {
            before(info);
        }
    }));
}

/// What the Rust answers, or that it panics.
pub fn guarded<A>(work: impl FnOnce() -> A) -> Result<A, Panicked> {
    EXPECTED.set(true);
    let answer = catch_unwind(AssertUnwindSafe(work));
    EXPECTED.set(false);
    answer.map_err(|_| Panicked)
}
