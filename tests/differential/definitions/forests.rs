//! Random forests of records: nested and ordered ranges, ids below the type count.

use crate::rng::Rng;

/// One record with its children.
#[derive(Clone, Debug)]
pub struct Node {
    pub id: u32,
    pub start: u32,
    pub end: u32,
    pub kids: Vec<Node>,
}

/// How many records there are.
pub fn count(forest: &[Node]) -> usize {
    forest.iter().map(|node| 1 + count(&node.kids)).sum()
}

/// The records of the longest random list: what is computed from one grows with their square.
pub const MOST_RECORDS: usize = 90;

/// Makes forests of all shapes.
pub struct Maker<'a> {
    pub rng: &'a mut Rng,
    pub types: u32,
    pub first_repeat: u32,
    /// No random length is above it.
    pub step: usize,
}

impl Maker<'_> {
    pub fn forest(&mut self, start: u32) -> Vec<Node> {
        match self.rng.below(9) {
            0 => self.flat(start),
            1 | 2 if self.first_repeat < self.types => vec![self.long_repeat(start)],
            3 if self.first_repeat < self.types => vec![self.left_nested(start)],
            4 => self.chain(start),
            5 if self.first_repeat < self.types => vec![self.one_group(start)],
            _ => {
                let extent = self.rng.pick(&[0, 2, 10, 40, 120, 400]);
                let depth = 1 + self.rng.below(6);
                let most = self.rng.pick(&[2, 3, 4, 6, 14]);
                self.mixed(start, start + extent, depth, most, None)
            }
        }
    }

    fn length(&mut self) -> u32 {
        match self.rng.below(4) {
            0 => 0,
            1 => 1,
            _ => self.rng.below(self.step + 1) as u32,
        }
    }

    fn gap(&mut self) -> u32 {
        self.rng.pick(&[0, 0, 0, 1, 2, 5])
    }

    fn ordinary(&mut self) -> u32 {
        self.rng
            .below(self.first_repeat.clamp(1, self.types) as usize) as u32
    }

    fn repeat(&mut self) -> u32 {
        self.first_repeat + self.rng.below((self.types - self.first_repeat) as usize) as u32
    }

    /// An id under a parent: often the parent's own where that is a repeat id.
    fn id(&mut self, own: Option<u32>) -> u32 {
        match own {
            Some(id) if self.rng.below(9) < 4 => id,
            _ if self.first_repeat < self.types && self.rng.one_in(4) => self.repeat(),
            _ => self.ordinary(),
        }
    }

    fn leaf(&mut self, id: u32, start: u32) -> Node {
        let end = start + self.length();
        Node {
            id,
            start,
            end,
            kids: Vec::new(),
        }
    }

    /// Siblings between two places, with descendants.
    fn mixed(
        &mut self,
        lo: u32,
        hi: u32,
        depth: usize,
        most: usize,
        own: Option<u32>,
    ) -> Vec<Node> {
        let mut forest = Vec::new();
        let mut at = lo;
        for _ in 0..self.rng.below(most + 1) {
            let start = hi.min(at + self.gap());
            let long = self.rng.pick(&[0, 1, 1, 2, 3, 5, 8, 20, 60, hi - lo]);
            let end = hi.min(start + long);
            let id = self.id(own);
            let inner = (id >= self.first_repeat).then_some(id);
            let kids = match depth {
                1 => Vec::new(),
                _ => self.mixed(start, end, depth - 1, most, inner),
            };
            forest.push(Node {
                id,
                start,
                end,
                kids,
            });
            at = end;
        }
        forest
    }

    /// Many siblings without children.
    fn flat(&mut self, start: u32) -> Vec<Node> {
        let mut at = start;
        let mut forest = Vec::new();
        for _ in 0..self.rng.below(MOST_RECORDS) {
            let id = self.id(None);
            let node = self.leaf(id, at);
            at = node.end + self.gap();
            forest.push(node);
        }
        forest
    }

    /// A repeat tree over many records of its own id, as a list rule makes them: groups and balancing.
    fn long_repeat(&mut self, start: u32) -> Node {
        let own = self.repeat();
        let turns = 1 + self.rng.below(60);
        let mut kids = Vec::new();
        let mut at = start;
        for _ in 0..turns {
            let from = at;
            let inner = self.turn(own, &mut at);
            let depth = self.rng.pick(&[0, 1, 1, 1, 1, 2]);
            kids.extend(wrapped(inner, own, from, at, depth));
            at += self.rng.pick(&[0, 0, 0, 1]);
        }
        let end = kids.last().map_or(start, |kid| kid.end) + self.rng.pick(&[0, 0, 0, 3]);
        let tree = Node {
            id: own,
            start,
            end,
            kids,
        };
        self.maybe_inside(tree)
    }

    /// What one turn of a list rule holds: a few leaves, now and then of any id.
    fn turn(&mut self, own: u32, at: &mut u32) -> Vec<Node> {
        let mut inner = Vec::new();
        for _ in 0..self.rng.pick(&[0, 1, 1, 1, 2, 3]) {
            let id = match self.rng.below(10) {
                0 => own,
                1 => self.repeat(),
                _ => self.ordinary(),
            };
            let node = self.leaf(id, *at);
            *at = node.end;
            inner.push(node);
        }
        inner
    }

    /// A repeat tree with an empty record of its own id at its start: one group may be all of it.
    fn one_group(&mut self, start: u32) -> Node {
        let id = self.repeat();
        let mut at = start;
        let mut kids = vec![Node {
            id,
            start,
            end: start,
            kids: Vec::new(),
        }];
        for _ in 0..1 + self.rng.below(4) {
            kids.extend(self.turn(id, &mut at));
        }
        let tree = Node {
            id,
            start,
            end: at,
            kids,
        };
        self.maybe_inside(tree)
    }

    fn maybe_inside(&mut self, tree: Node) -> Node {
        if self.rng.one_in(2) {
            return tree;
        }
        Node {
            id: self.ordinary(),
            start: tree.start,
            end: tree.end + self.length(),
            kids: vec![tree],
        }
    }

    /// Records of one repeat id, each the first child of the next: a list rule that recurs on its left.
    fn left_nested(&mut self, start: u32) -> Node {
        let own = self.repeat();
        let mut at = start;
        let mut tree: Option<Node> = None;
        for _ in 0..1 + self.rng.below(30) {
            let mut kids = Vec::from_iter(tree.take());
            kids.extend(self.turn(own, &mut at));
            tree = Some(Node {
                id: own,
                start,
                end: at,
                kids,
            });
        }
        let tree = tree.expect("one turn at least");
        self.maybe_inside(tree)
    }

    /// Records one in another, with a leaf beside some of them.
    fn chain(&mut self, start: u32) -> Vec<Node> {
        let mut forest = Vec::new();
        let mut end = start;
        for _ in 0..self.rng.below(40) {
            if self.rng.one_in(4) {
                let id = self.id(None);
                let node = self.leaf(id, end);
                end = node.end;
                forest.push(node);
            }
            let id = self.id(None);
            end += self.rng.pick(&[0, 0, 0, 0, 1, 3]);
            forest = vec![Node {
                id,
                start,
                end,
                kids: forest,
            }];
        }
        forest
    }
}

/// Records inside so many records of one id and range.
fn wrapped(mut inner: Vec<Node>, id: u32, start: u32, end: u32, depth: usize) -> Vec<Node> {
    for _ in 0..depth {
        inner = vec![Node {
            id,
            start,
            end,
            kids: inner,
        }];
    }
    inner
}
