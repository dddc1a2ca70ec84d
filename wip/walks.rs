//! Forms of the part check's walk, timed beside each other: which one counts greatest end and nesting at no more than a tenth above a walk
//! that counts neither. Nothing of this is proved, and nothing builds it but `rustc -C opt-level=3 walks.rs`.
use std::hint::black_box;
use std::time::Instant;

/// Number (0: accepted), place or records, greatest end, deepest nesting.
type Answer = (u32, usize, u16, usize);

macro_rules! at {
    ($words:expr, $i:expr) => {
        // every index below is in range, as the proofs of the library show of theirs
        unsafe { *$words.get_unchecked($i) }
    };
}

#[cold]
#[inline(never)]
fn fault(words: &[u16], types: u32, at: usize) -> Answer {
    let end = words[at + 3] as usize;
    let number = if types <= words[at] as u32 {
        17
    } else if words[at + 2] < words[at + 1] {
        18
    } else if end < at + 4 || words.len() < end || end % 4 != 0 {
        19
    } else {
        20
    };
    (number, at, 0, 0)
}

/// The walk before it counted: records alone.
#[inline(never)]
fn uncounted(words: &[u16], types: u32) -> Answer {
    let mut ends = [0u16; 16383];
    let records = words.len() / 4;
    let (mut top, mut i) = (0usize, 0usize);
    while i < records {
        let at = i * 4;
        let end = at!(words, at + 3);
        let index = end as usize;
        if types <= at!(words, at) as u32 || at!(words, at + 2) < at!(words, at + 1) {
            return fault(words, types, at);
        }
        if index < at + 4 || words.len() < index || index % 4 != 0 {
            return fault(words, types, at);
        }
        while 0 < top && at!(ends, top - 1) as usize <= at {
            top -= 1;
        }
        if 0 < top && at!(ends, top - 1) < end {
            return fault(words, types, at);
        }
        ends[top] = end;
        top += 1;
        i += 1;
    }
    (0, records, 0, 0)
}

/// As it is now: every record is put on, and both figures are counted.
#[inline(never)]
fn counted(words: &[u16], types: u32) -> Answer {
    let mut ends = [0u16; 16383];
    let records = words.len() / 4;
    let (mut top, mut i, mut greatest, mut deepest) = (0usize, 0usize, 0u16, 0usize);
    while i < records {
        let at = i * 4;
        let end = at!(words, at + 3);
        let index = end as usize;
        if types <= at!(words, at) as u32 || at!(words, at + 2) < at!(words, at + 1) {
            return fault(words, types, at);
        }
        if index < at + 4 || words.len() < index || index % 4 != 0 {
            return fault(words, types, at);
        }
        while 0 < top && at!(ends, top - 1) as usize <= at {
            top -= 1;
        }
        if 0 < top && at!(ends, top - 1) < end {
            return fault(words, types, at);
        }
        ends[top] = end;
        top += 1;
        greatest = greatest.max(at!(words, at + 2));
        deepest = deepest.max(top);
        i += 1;
    }
    (0, records, greatest, deepest)
}

/// The part itself stands below as a record around all: no test for an empty stack, and 19 "above the length" and 20 are one test.
#[inline(never)]
fn bounded(words: &[u16], types: u32) -> Answer {
    let mut ends = [0u16; 16384];
    ends[0] = words.len().min(65535) as u16;
    let records = words.len() / 4;
    let (mut top, mut i, mut greatest, mut deepest) = (1usize, 0usize, 0u16, 1usize);
    while i < records {
        let at = i * 4;
        let end = at!(words, at + 3);
        if types <= at!(words, at) as u32 || at!(words, at + 2) < at!(words, at + 1) {
            return fault(words, types, at);
        }
        if (end as usize) < at + 4 || end % 4 != 0 {
            return fault(words, types, at);
        }
        while at!(ends, top - 1) as usize <= at {
            top -= 1;
        }
        if at!(ends, top - 1) < end {
            return fault(words, types, at);
        }
        ends[top] = end;
        top += 1;
        greatest = greatest.max(at!(words, at + 2));
        deepest = deepest.max(top);
        i += 1;
    }
    (0, records, greatest, deepest - 1)
}

/// The same, with the innermost end in a variable, and a record that holds no other is not put on.
#[inline(never)]
fn leaves_left_out(words: &[u16], types: u32) -> Answer {
    let mut ends = [0u16; 16384];
    let whole = words.len().min(65535) as u16;
    ends[0] = whole;
    let records = words.len() / 4;
    let (mut inner, mut top, mut i, mut greatest, mut deepest) = (whole, 1usize, 0usize, 0u16, 0usize);
    while i < records {
        let at = i * 4;
        let end = at!(words, at + 3);
        let index = end as usize;
        if types <= at!(words, at) as u32 || at!(words, at + 2) < at!(words, at + 1) {
            return fault(words, types, at);
        }
        greatest = greatest.max(at!(words, at + 2));
        while inner as usize <= at {
            top -= 1;
            inner = at!(ends, top - 1);
        }
        deepest = deepest.max(top);
        if index != at + 4 {
            if index < at + 4 || end % 4 != 0 || inner < end {
                return fault(words, types, at);
            }
            ends[top] = end;
            inner = end;
            top += 1;
        }
        i += 1;
    }
    (0, records, greatest, deepest)
}

fn nested(words: &mut [u16], mut i: usize, to: usize, next: &mut dyn FnMut() -> usize) {
    while i < to {
        let mut size = 1 + next() % (to - i);
        if next() % 3 != 0 {
            size = 1 + next() % size.min(8);
        }
        words[4 * i..4 * i + 4].copy_from_slice(&[1, 0, 9, (4 * (i + size)) as u16]);
        nested(words, i + 1, i + size, next);
        i += size;
    }
}

fn part(shape: &str, records: usize) -> Vec<u16> {
    let mut words = vec![0u16; 4 * records];
    let mut seed = 7u64;
    let mut next = || {
        seed ^= seed << 13;
        seed ^= seed >> 7;
        seed ^= seed << 17;
        (seed >> 11) as usize
    };
    match shape {
        "flat" => (0..records).for_each(|i| words[4 * i..4 * i + 4].copy_from_slice(&[1, 0, 3, (4 * i + 4) as u16])),
        "chain" => (0..records).for_each(|i| words[4 * i..4 * i + 4].copy_from_slice(&[1, 0, 9, (4 * records) as u16])),
        _ => nested(&mut words, 0, records, &mut next),
    }
    words
}

fn main() {
    type Walk = fn(&[u16], u32) -> Answer;
    let walks: [(&str, Walk); 4] =
        [("uncounted", uncounted), ("counted", counted), ("bounded", bounded), ("leaves_left_out", leaves_left_out)];
    for shape in ["flat", "chain", "random"] {
        for records in [100, 16383] {
            let words = part(shape, records);
            assert!(walks[1..].iter().all(|(_, walk)| walk(&words, 4) == counted(&words, 4)));
            let repeats = (400_000 / records).max(4);
            let mut best = [f64::MAX; 4];
            for _ in 0..60 {
                for (k, (_, walk)) in walks.iter().enumerate() {
                    let start = Instant::now();
                    for _ in 0..repeats {
                        black_box(walk(black_box(&words), 4));
                    }
                    best[k] = best[k].min(start.elapsed().as_nanos() as f64 / (repeats * records) as f64);
                }
            }
            for (k, (name, _)) in walks.iter().enumerate() {
                println!("{shape} {records} {name}: {:.2} ns a record, {:.2}", best[k], best[k] / best[0]);
            }
        }
    }
}
