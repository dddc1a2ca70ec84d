//! Every short slice of cells over small alphabets, good and bad.

use crate::spelling;
use crate::trees::compare::TreeSession;
use crate::trees::model::Handed;
use crate::widths::CELL_WIDTH;

/// What each word of a cell is made of.
type Alphabet = [&'static [u32]; CELL_WIDTH];

const ONE: Alphabet = [
    &[0, 1, 2, 3, 4],
    &[0, 1, 2, u32::MAX],
    &[0, 1, u32::MAX],
    &[0, 1, u32::MAX],
    &[0, 1, 2, 4],
    &[0, 1, 4],
    &[0, 1, 2, u32::MAX],
];

/// The top of a slice of two cells, and the cell behind it.
const TOP: Alphabet = [
    &[1, 3],
    &[0],
    &[0, 1],
    &[0, 1],
    &[0, 1, 2, 3],
    &[0, 1, 2],
    &[0, 2],
];
const BEHIND: Alphabet = [
    &[1, 2, 3],
    &[0, 1],
    &[0, 1],
    &[0, 1, u32::MAX],
    &[0, 1, 2, 3],
    &[0, 1, 4],
    &[0, 1, 3],
];

/// Links alone, of slices of three cells.
const LINKED: Alphabet = [
    &[1],
    &[0],
    &[0],
    &[0],
    &[0, 1, 2, 3, 4],
    &[0, 1, 2],
    &[0, 2, 3, 4],
];

/// Ranges alone, of a child with a child and a sibling.
const RANGED: [&[u32]; 3] = [&[0, 1, 2], &[0, 1, 2, u32::MAX], &[0, 1, 2, u32::MAX]];

/// Kinds and ids of a top, of a tree, and of a child that holds nothing.
const TOPS: &[KindAndId] = &[(1, 0), (1, 1)];
const TREES: &[KindAndId] = &[(1, 0), (1, 1), (3, 0)];
const LEAVES: &[KindAndId] = &[(1, 0), (1, 1), (2, 0), (3, 0)];

type KindAndId = (u32, u32);

pub fn run(session: &mut TreeSession) {
    for types in [0, 1, 2, 65_536, 65_537, u32::MAX] {
        check(session, types, &[], &[]);
        for length in 1..3 * CELL_WIDTH {
            check(session, types, &vec![1; length], &[]);
        }
        for words in [&[][..], &[0], &[0, 0, 0, 4], &[0, 0, 1, 4]] {
            spelling::words(&ONE, |cells| check(session, types, cells, words));
        }
    }
    for words in [&[][..], &[0, 0, 1, 4]] {
        let both = [TOP, BEHIND].concat();
        spelling::words(&both, |cells| check(session, 2, cells, words));
    }
    spelling::words(&[LINKED; 3].concat(), |cells| {
        check(session, 1, cells, &[]);
    });
    ranges(session);
    starts(session);
    kinds(session);
}

fn check(session: &mut TreeSession, types: u32, cells: &[u32], words: &[u16]) {
    session.check(&Handed {
        types,
        first_repeat: 1,
        start: 0,
        cells: cells.to_vec(),
        words: words.to_vec(),
    });
}

/// Four cells with good links: the top over two siblings, the first of them with a child. All kinds, starts and ranges.
fn ranges(session: &mut TreeSession) {
    let [lengths, positions, starts] = RANGED;
    let letters = [
        lengths, positions, lengths, positions, lengths, positions, lengths, starts,
    ];
    spelling::words(&letters, |word| {
        let &[top, a, al, b, bl, c, cl, start] = word else {
            unreachable!("a word has a letter for each alphabet");
        };
        let cells = [
            [1, 0, 0, top, 2, 2, 0],
            [1, 0, a, al, 3, 1, 4],
            [3, 0, b, bl, 0, 0, 0],
            [1, 1, c, cl, 0, 0, 0],
        ];
        session.check(&Handed {
            types: 2,
            first_repeat: 1 + (start & 1),
            start,
            cells: cells.concat(),
            words: Vec::new(),
        });
    });
}

/// A top alone, with a child, with two, and with a child that holds one: trees, trees of kind 3, empty parts and parts whose records
/// end at their start, one behind it and nested. All ranges near the start and near the last position of 32 bits.
fn starts(session: &mut TreeSession) {
    const LAST: u32 = u32::MAX;
    const PLACES: &[u32] = &[0, 1, LAST - 1, LAST];
    const LENGTHS: &[u32] = &[0, 1, 2, LAST - 1, LAST];
    const STARTS: &[u32] = &[0, 1, LAST - 2, LAST - 1, LAST];
    const HELD: [Child; 6] = [
        (1, &[]),
        (3, &[]),
        (2, &[]),
        (2, &[0, 0, 0, 4]),
        (2, &[1, 0, 1, 4]),
        (2, &[0, 0, 1, 8, 1, 1, 1, 8]),
    ];
    spelling::words(&[LENGTHS, STARTS], |word| {
        check_from(session, word[1], &[[1, 0, 0, word[0], 0, 0, 0]], &[]);
    });
    for (kind, words) in HELD {
        spelling::words(&[PLACES, LENGTHS, STARTS], |word| {
            let only = with_words([kind, 0, word[0], word[1]], 0, words, 0);
            check_from(session, word[2], &[[1, 0, 0, 0, 2, 1, 0], only], words);
        });
        for (kind_2, words_2) in HELD {
            let letters = [PLACES, LENGTHS, PLACES, LENGTHS, STARTS];
            spelling::words(&letters, |word| {
                let &[a, al, b, bl, start] = word else {
                    unreachable!("a word has a letter for each alphabet");
                };
                let [first, second] = [[kind, 0, a, al], [kind_2, 0, b, bl]];
                let cells = [
                    [1, 0, 0, 0, 2, 2, 0],
                    with_words(first, 0, words, 3),
                    with_words(second, words.len(), words_2, 0),
                ];
                check_from(session, start, &cells, &[words, words_2].concat());
                if kind != 2 {
                    let cells = [
                        [1, 0, 0, 0, 2, 1, 0],
                        [kind, 0, a, al, 3, 1, 0],
                        with_words(second, 0, words_2, 0),
                    ];
                    check_from(session, start, &cells, words_2);
                }
            });
        }
    }
}

/// The kind of a cell without children, and the words of a part.
type Child = (u32, &'static [u16]);

/// A cell without children, with the words of a part at an offset.
fn with_words(cell: [u32; 4], offset: usize, words: &[u16], next: u32) -> [u32; CELL_WIDTH] {
    let [kind, id, position, length] = cell;
    let first = if kind == 2 { offset as u32 } else { 0 };
    let count = words.len() as u32;
    [kind, id, position, length, first, count, next]
}

/// Lists of a few short cells, and the other calls where the start is 0: they do not look at it.
fn check_from(session: &mut TreeSession, start: u32, cells: &[[u32; CELL_WIDTH]], words: &[u16]) {
    let tree = Handed {
        types: 2,
        first_repeat: 1,
        start,
        cells: cells.concat(),
        words: words.to_vec(),
    };
    match start {
        0 => session.check(&tree),
        _ => session.check_list(&tree),
    }
}

/// Kinds and ids alone, of a top with nine children: the first, fifth or last of these holds three, of which the first
/// holds two.
fn kinds(session: &mut TreeSession) {
    let letters = [TOPS, TREES, TREES, TREES, LEAVES, LEAVES, TREES, TREES];
    for place in [0, 4, 8] {
        spelling::words(&letters, |word| {
            let cells = nine(place, word).concat();
            check(session, 2, &cells, &[]);
        });
    }
}

fn nine(place: u32, word: &[KindAndId]) -> Vec<[u32; CELL_WIDTH]> {
    let &[top, leaf, held, a, b, c, d, e] = word else {
        unreachable!("a word has a letter for each alphabet");
    };
    let mut cells = vec![[top.0, top.1, 0, 12, 2, 9, 0]];
    for child in 0..9 {
        let at = cells.len() as u32 + 1;
        let position = if child > place { child + 3 } else { child };
        let behind = if child == place { at + 6 } else { at + 1 };
        let next = if child == 8 { 0 } else { behind };
        if child != place {
            cells.push([leaf.0, leaf.1, position, 1, 0, 0, next]);
            continue;
        }
        cells.extend([
            [held.0, held.1, position, 4, at + 1, 3, next],
            [a.0, a.1, 0, 2, at + 2, 2, at + 4],
            [d.0, d.1, 0, 1, 0, 0, at + 3],
            [e.0, e.1, 1, 1, 0, 0, 0],
            [b.0, b.1, 2, 1, 0, 0, at + 5],
            [c.0, c.1, 3, 1, 0, 0, 0],
        ]);
    }
    cells
}
