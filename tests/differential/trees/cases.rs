//! Random trees as cells and packed words.

use crate::forests::{Node, count};
use crate::lists::cases::{Shape, Stuff, good_list};
use crate::parts::cases::MOST_RECORDS;
use crate::rng::Rng;
use crate::trees::model::Handed;
use crate::widths::{
    CELL_WIDTH, COUNT, FIRST, KIND, LENGTH, NEXT, POSITION, RECORD_SIZE, RECORD_WIDTH, cell_number,
};

/// How the nodes of a forest become cells.
#[derive(Clone, Copy, Debug)]
pub struct Mix {
    /// Of a hundred runs of siblings so many become a part, with all that stands in them.
    pub parts: usize,
    /// Of a hundred trees so many are of kind 3.
    pub none: usize,
    /// Of a hundred of these so many are of kind 1 with id 0 instead.
    pub id_0: usize,
    /// The most siblings of one part.
    pub run: usize,
}

impl Mix {
    pub const fn new(parts: usize, none: usize, id_0: usize, run: usize) -> Self {
        Self {
            parts,
            none,
            id_0,
            run,
        }
    }
}

pub fn any_mix(rng: &mut Rng) -> Mix {
    Mix {
        parts: rng.pick(&[0, 10, 40, 80]),
        none: rng.pick(&[0, 20, 90]),
        id_0: rng.pick(&[0, 0, 40, 100]),
        run: rng.pick(&[1, 3, 40]),
    }
}

/// The end of the longest packed range.
const LONGEST: u32 = 65_535;

/// A tree over a random forest of so many nodes.
pub fn good_tree(rng: &mut Rng, stuff: &Stuff, nodes: usize, shape: Shape, mix: Mix) -> Handed {
    let records = good_list(rng, stuff, nodes, shape);
    tree_over(rng, stuff.types, &forest(&records), mix)
}

/// A tree over a forest, with ids below the type count.
pub fn tree_over(rng: &mut Rng, types: u32, forest: &[Node], mix: Mix) -> Handed {
    let tree = Handed {
        types,
        first_repeat: rng.pick(&[0, types / 2, types - 1, types, types, u32::MAX]),
        start: rng.pick(&[0, 0, 0, 5, 70_000]),
        cells: Vec::new(),
        words: Vec::new(),
    };
    let mut writer = Writer { rng, mix, tree };
    writer.top(forest);
    writer.tree
}

/// A forest in which so many nodes stand each in the next, too long for a part, and in the last of them so many short ones, each in
/// the next. Before and behind some of them stand leaves.
pub fn nested(rng: &mut Rng, types: u32, long: usize, short: usize) -> Vec<Node> {
    let id = |rng: &mut Rng| rng.below(types as usize) as u32;
    let leaf = |rng: &mut Rng, start: u32| {
        let end = start + rng.below(3) as u32;
        let (id, kids) = (id(rng), Vec::new());
        rng.one_in(40).then_some(Node {
            id,
            start,
            end,
            kids,
        })
    };
    let mut end = 0;
    let before = (0..long + short).map(|_| {
        let leaf = leaf(rng, end);
        end = leaf.as_ref().map_or(end, |leaf| leaf.end);
        (leaf, end)
    });
    let before: Vec<(Option<Node>, u32)> = before.collect();
    let mut row = Vec::new();
    for (level, (leaf_before, start)) in before.into_iter().enumerate().rev() {
        if level + 1 == long {
            end += LONGEST + 1;
        }
        let node = Node {
            id: id(rng),
            start,
            end,
            kids: row,
        };
        row = Vec::from_iter(leaf_before);
        row.push(node);
        row.extend(leaf(rng, end));
        end = row[row.len() - 1].end;
    }
    row
}

/// The forest of a record list that is accepted.
pub fn forest(records: &[u32]) -> Vec<Node> {
    let mut finished: Vec<Node> = Vec::new();
    let mut sizes: Vec<u32> = Vec::new();
    for it in records.chunks(RECORD_WIDTH) {
        let mut left = it[3] - RECORD_SIZE;
        let mut first = finished.len();
        while left > 0 {
            first -= 1;
            left -= sizes[first];
        }
        let kids = finished.split_off(first);
        sizes.truncate(first);
        sizes.push(it[3]);
        finished.push(Node {
            id: it[0],
            start: it[1],
            end: it[2],
            kids,
        });
    }
    finished
}

struct Writer<'a> {
    rng: &'a mut Rng,
    mix: Mix,
    tree: Handed,
}

impl Writer<'_> {
    /// The top, whose length is free. Where the last cell is a part right below it, that part is often longer than its records.
    fn top(&mut self, forest: &[Node]) {
        let end = forest.last().map_or(0, |node| node.end);
        let length = self.rng.pick(&[end, end, 0, end / 2, u32::MAX]);
        let id = self.rng.below(self.tree.types as usize) as u32;
        let last = self.cell([1, id, 0, length, 0, 0, 0], forest, 0);
        let cell = &mut self.tree.cells[last.unwrap_or(0)..];
        if cell[KIND] == 2 {
            let room = u32::MAX - cell[POSITION] - cell[LENGTH];
            cell[LENGTH] += self.rng.pick(&[0, 0, room.min(1), room.min(70_000), room]);
        }
    }

    /// A cell with its descendants, of a tree that starts at `start`; the word offset of its last child, if it has one.
    fn cell(&mut self, words: [u32; CELL_WIDTH], kids: &[Node], start: u32) -> Option<usize> {
        let at = self.tree.cells.len();
        self.tree.cells.extend(words);
        let mut chain: Vec<usize> = Vec::new();
        let mut rest = kids;
        while !rest.is_empty() {
            chain.push(self.tree.cells.len());
            rest = self.child(rest, start);
            if self.rng.one_in(40) && self.mix.parts > 0 {
                chain.push(self.tree.cells.len());
                let end = kids[kids.len() - rest.len() - 1].end;
                self.part(&[], end - start);
            }
        }
        self.link(at, &chain);
        chain.last().copied()
    }

    fn link(&mut self, at: usize, chain: &[usize]) {
        let cells = &mut self.tree.cells;
        cells[at + FIRST] = chain.first().map_or(0, |&first| cell_number(first));
        cells[at + COUNT] = chain.len() as u32;
        for pair in chain.windows(2) {
            cells[pair[0] + NEXT] = cell_number(pair[1]);
        }
    }

    /// A part of the first siblings, or the first one as a tree; the siblings that are left.
    fn child<'n>(&mut self, siblings: &'n [Node], start: u32) -> &'n [Node] {
        if self.rng.below(100) < self.mix.parts {
            let run = 1 + self.rng.below(self.mix.run.min(siblings.len()));
            if packs(&siblings[..run]) {
                self.part(&siblings[..run], siblings[0].start - start);
                return &siblings[run..];
            }
        }
        let node = &siblings[0];
        let (kind, id) = self.kind_and_id(node);
        let (position, length) = (node.start - start, node.end - node.start);
        self.cell(
            [kind, id, position, length, 0, 0, 0],
            &node.kids,
            node.start,
        );
        &siblings[1..]
    }

    fn kind_and_id(&mut self, node: &Node) -> (u32, u32) {
        let Mix { none, id_0, .. } = self.mix;
        let mut of = |share: usize| self.rng.below(100) < share;
        match of(none) {
            false => (1, node.id),
            true if of(id_0) => (1, 0),
            true => (3, 0),
        }
    }

    /// A part at a position, as long as its records need.
    fn part(&mut self, run: &[Node], position: u32) {
        let from = self.tree.words.len();
        let start = run.first().map_or(0, |node| node.start);
        for node in run {
            pack(&mut self.tree.words, from, node, start);
        }
        let count = self.tree.words.len() - from;
        let length = run.last().map_or(0, |node| node.end - start);
        let words = [2, 0, position, length, from as u32, count as u32, 0];
        self.tree.cells.extend(words);
    }
}

/// Whether siblings fit a part: ranges of 16 bits, and no more records than end indices reach.
fn packs(run: &[Node]) -> bool {
    let (first, last) = (&run[0], &run[run.len() - 1]);
    last.end - first.start <= LONGEST && count(run) <= MOST_RECORDS
}

/// A record with its descendants, in a part that begins at the word offset `from` and starts at `start`.
fn pack(words: &mut Vec<u16>, from: usize, node: &Node, start: u32) {
    let at = words.len();
    let (begin, end) = (node.start - start, node.end - start);
    words.extend([node.id as u16, begin as u16, end as u16, 0]);
    for kid in &node.kids {
        pack(words, from, kid, start);
    }
    words[at + 3] = (words.len() - from) as u16;
}
