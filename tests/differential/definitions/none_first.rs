//! Trees on a node set with `NodeType::none` itself in place 0.
//!
//! There the Rust cannot tell a tree of kind 1 and id 0 from one of kind 3. Trees that stay as they were handed in are
//! recognised by their address.

use std::collections::HashMap;
use std::sync::Arc;

use crate::flatten::{Flat, KindAndId, flatten_by, kind_and_id};
use crate::tree::{NodeSet, Tree, TreeBuffer, TreeChild, address};

/// A tree on such a set, with the kind and id that each tree in it is handed in with, by its address.
pub struct NoneFirst {
    pub tree: Tree,
    handed: HashMap<usize, KindAndId>,
}

impl NoneFirst {
    /// The counterpart on `set` of a tree on a set of as many types without none.
    pub fn new(tree: &Tree, set: &Arc<NodeSet>) -> Self {
        let mut handed = HashMap::new();
        let tree = counterpart(tree, set, &mut handed);
        Self { tree, handed }
    }

    /// Cells and words of the tree balanced. The top keeps its kind and id, made anew or not; any other tree that was
    /// not handed in is told by its type.
    pub fn balanced(&self) -> Flat {
        let balanced = self.tree.balance();
        let known = |tree: &Tree| self.handed.get(&address(tree)).copied();
        let top = known(&self.tree).expect("the top was handed in");
        flatten_by(&balanced, |tree| {
            match address(tree) == address(&balanced) {
                true => top,
                false => known(tree).unwrap_or_else(|| kind_and_id(tree.node_type())),
            }
        })
    }
}

fn counterpart(tree: &Tree, set: &Arc<NodeSet>, handed: &mut HashMap<usize, KindAndId>) -> Tree {
    let children = tree.children().iter().map(|child| match child {
        TreeChild::Tree(child) => TreeChild::Tree(counterpart(child, set, handed)),
        TreeChild::Buffer(part) => {
            let words = part.data().to_vec();
            TreeChild::Buffer(TreeBuffer::new(words, part.len(), Arc::clone(set)))
        }
    });
    let children = children.collect();
    let told = kind_and_id(tree.node_type());
    let kind = match told {
        (1, id) => &set.types()[id as usize],
        _ => tree.node_type(),
    };
    let made = Tree::new(
        kind.clone(),
        children,
        tree.positions().to_vec(),
        tree.len(),
    );
    handed.insert(address(&made), told);
    made
}
