//! Smaller inputs than one that differs: each lacks one record, one tree or one part.

use crate::answers::{Input, Wide};
use crate::forests::{Node, count};
use crate::lists::List;
use crate::rezel::tree::{Tree, TreeChild};
use crate::trees::Sample;
use crate::widths::RECORD_WIDTH;

/// All inputs one step smaller, the smallest first; none of a call.
pub fn smaller(input: &Input) -> Vec<Input> {
    let mut all: Vec<Input> = match input {
        Input::List(list) => lists(list).map(Input::List).collect(),
        Input::Deep(list, around) => lists(list).map(|it| Input::Deep(it, *around)).collect(),
        Input::Wide(wide) => {
            let wider = |list| Wide {
                list,
                ..wide.clone()
            };
            lists(&wide.list).map(wider).map(Input::Wide).collect()
        }
        Input::Tree(sample) => {
            let trees = without_one(&sample.tree).into_iter();
            let samples = trees.map(|tree| Sample {
                tree,
                ..sample.clone()
            });
            samples.map(Input::Tree).collect()
        }
        Input::Call(_) => Vec::new(),
        Input::Part(part) => part.smaller().map(Input::Part).collect(),
        Input::Slice(sliced) => sliced.smaller().map(Input::Slice).collect(),
    };
    all.sort_by_key(size);
    all
}

/// Records, or trees and parts, or words of a call or a part.
pub fn size(input: &Input) -> usize {
    match input {
        Input::List(list) | Input::Deep(list, _) => count(&list.forest),
        Input::Wide(wide) => wide.empties + count(&wide.list.forest),
        Input::Tree(sample) => tree_size(&sample.tree),
        Input::Call(call) => call.tree.cells.len() + call.tree.words.len(),
        Input::Part(part) => part.size(),
        Input::Slice(sliced) => sliced.size(),
    }
}

fn tree_size(tree: &Tree) -> usize {
    let sizes = tree.children().iter().map(|child| match child {
        TreeChild::Tree(kid) => tree_size(kid),
        TreeChild::Buffer(buffer) => 1 + buffer.data().len() / RECORD_WIDTH,
    });
    1 + sizes.sum::<usize>()
}

fn lists(list: &List) -> impl Iterator<Item = List> {
    let forests = without_record(&list.forest).into_iter();
    forests.map(|forest| List {
        forest,
        given: None,
        ..list.clone()
    })
}

/// A record is left out with what it holds, or its children take its place.
fn without_record(forest: &[Node]) -> Vec<Vec<Node>> {
    let mut all = Vec::new();
    for (index, node) in forest.iter().enumerate() {
        let mut with = |instead: Vec<Node>| {
            let mut copy = forest.to_vec();
            copy.splice(index..=index, instead);
            all.push(copy);
        };
        with(Vec::new());
        with(node.kids.clone());
        for kids in without_record(&node.kids) {
            with(vec![Node {
                kids,
                ..node.clone()
            }]);
        }
    }
    all
}

/// A child is left out; those behind it stay where they are.
fn without_one(tree: &Tree) -> Vec<Tree> {
    let mut all = Vec::new();
    for (index, child) in tree.children().iter().enumerate() {
        all.push(with_child(tree, index, None));
        if let TreeChild::Tree(kid) = child {
            let kids = without_one(kid).into_iter();
            all.extend(kids.map(|kid| with_child(tree, index, Some(TreeChild::Tree(kid)))));
        }
    }
    all
}

fn with_child(tree: &Tree, index: usize, instead: Option<TreeChild>) -> Tree {
    let mut children = tree.children().to_vec();
    let mut positions = tree.positions().to_vec();
    if instead.is_none() {
        positions.remove(index);
    }
    children.splice(index..=index, instead);
    Tree::new(tree.node_type().clone(), children, positions, tree.len())
}
