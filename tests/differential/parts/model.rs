//! Document 01's three part calls, and the counts that request T-03 gives the part check, read word for word and computed in
//! the plainest way.
//!
//! Nothing here is fast or shared with the library: 20 and the nesting look at all earlier records, a cut is rebased first
//! and then looked at as a part of its own, and the way of a search is collected before it is used.

use crate::widths::RECORD_WIDTH;

/// What a call that tells so many counts answers. Refused: the number, the place, counts 0. Accepted: number 0, place 0 and
/// the counts.
#[derive(Clone, Copy, Debug, Eq, PartialEq)]
pub struct Answer<const COUNTS: usize> {
    pub number: u32,
    pub place: u64,
    pub counts: [u64; COUNTS],
}

/// The part check's answer. Counts: records, greatest end, deepest nesting.
pub type Checked = Answer<3>;

#[derive(Clone, Copy, Debug)]
pub struct Slice {
    pub from: usize,
    pub to: usize,
    pub base: u32,
    /// Words in the output slice.
    pub room: usize,
}

#[derive(Clone, Copy, Debug)]
pub struct Search {
    pub from: usize,
    pub to: usize,
    pub direction: i8,
    pub position: u32,
    pub base: u32,
    pub side: i8,
}

const LAST: u64 = 4_294_967_295;

fn refused<const COUNTS: usize>(number: u32, place: usize) -> Answer<COUNTS> {
    Answer {
        number,
        place: place as u64,
        counts: [0; COUNTS],
    }
}

fn accepted<const COUNTS: usize>(counts: [u64; COUNTS]) -> Answer<COUNTS> {
    Answer {
        number: 0,
        place: 0,
        counts,
    }
}

/// The refusal of a part, as a call on it answers it.
fn passed_on(verdict: Checked) -> Answer<2> {
    refused(verdict.number, verdict.place as usize)
}

struct Record {
    id: u64,
    start: u64,
    end: u64,
    index: u64,
}

fn record(words: &[u16], offset: usize) -> Record {
    Record {
        id: u64::from(words[offset]),
        start: u64::from(words[offset + 1]),
        end: u64::from(words[offset + 2]),
        index: u64::from(words[offset + 3]),
    }
}

/// 19 for a record at an offset of a part of so many words.
fn index_is_bad(index: u64, offset: usize, words: usize) -> bool {
    let width = RECORD_WIDTH as u64;
    index < offset as u64 + width || index > words as u64 || index % width != 0
}

/// 20: some earlier record whose end index lies past this offset encloses it, and this end index is above that one.
fn leaves_an_enclosing_record(words: &[u16], offset: usize, index: u64) -> bool {
    (0..offset / RECORD_WIDTH).any(|earlier| {
        let around = u64::from(words[earlier * RECORD_WIDTH + 3]);
        around > offset as u64 && index > around
    })
}

/// The first of 17 to 20 that the record at an offset draws, or 0.
fn fault(types: u32, words: &[u16], offset: usize) -> u32 {
    let it = record(words, offset);
    if it.id >= u64::from(types) {
        17
    } else if it.start > it.end {
        18
    } else if index_is_bad(it.index, offset, words.len()) {
        19
    } else if leaves_an_enclosing_record(words, offset, it.index) {
        20
    } else {
        0
    }
}

/// Number and place of a part's refusal, if it is refused: 1, 16, then 17 to 20 record by record.
pub fn refusal(types: u32, words: &[u16]) -> Option<(u32, usize)> {
    if types > 65_536 {
        return Some((1, 0));
    }
    if words.len() % RECORD_WIDTH != 0 {
        return Some((16, 0));
    }
    let offsets = (0..words.len()).step_by(RECORD_WIDTH);
    offsets
        .map(|offset| (fault(types, words, offset), offset))
        .find(|&(number, _)| number != 0)
}

/// "the greatest end of any record (0 for an empty part)"
fn greatest_end(words: &[u16]) -> u64 {
    let ends = words.chunks_exact(RECORD_WIDTH).map(|it| u64::from(it[2]));
    ends.max().unwrap_or(0)
}

/// How many records hold the one at an offset: the earlier ones whose end index lies past it.
fn holders(words: &[u16], offset: usize) -> u64 {
    let earlier = words[..offset].chunks_exact(RECORD_WIDTH);
    earlier.filter(|it| usize::from(it[3]) > offset).count() as u64
}

/// "its deepest nesting (1 for records held by no other, 0 for an empty part)"
fn deepest_nesting(words: &[u16]) -> u64 {
    let offsets = (0..words.len()).step_by(RECORD_WIDTH);
    let nestings = offsets.map(|offset| holders(words, offset) + 1);
    nestings.max().unwrap_or(0)
}

/// The part check.
pub fn check(types: u32, words: &[u16]) -> Checked {
    if let Some((number, offset)) = refusal(types, words) {
        return refused(number, offset);
    }
    let records = (words.len() / RECORD_WIDTH) as u64;
    accepted([records, greatest_end(words), deepest_nesting(words)])
}

/// 21, then 22, on the bounds of a part of so many words.
fn bounds(from: usize, to: usize, words: usize) -> Option<Answer<2>> {
    if from > to || from > words || to > words {
        return Some(refused(21, 0));
    }
    if from % RECORD_WIDTH != 0 || to % RECORD_WIDTH != 0 {
        return Some(refused(22, 0));
    }
    None
}

/// Slicing, after the part check's answer for the same words. Counts: words and length. Answers also what stands in
/// the output slice afterwards, which held `before`.
pub fn slice(
    verdict: Checked,
    words: &[u16],
    call: &Slice,
    before: &[u16],
) -> (Answer<2>, Vec<u16>) {
    match sliced(verdict, words, call, before.len()) {
        Err(answer) => (answer, before.to_vec()),
        Ok((answer, mut out)) => {
            let written = out.len();
            out.extend_from_slice(&before[written..]);
            (answer, out)
        }
    }
}

fn sliced(
    verdict: Checked,
    words: &[u16],
    call: &Slice,
    room: usize,
) -> Result<(Answer<2>, Vec<u16>), Answer<2>> {
    if verdict.number != 0 {
        return Err(passed_on(verdict));
    }
    if let Some(answer) = bounds(call.from, call.to, words.len()) {
        return Err(answer);
    }
    let offsets = || (call.from..call.to).step_by(RECORD_WIDTH);
    if let Some(offset) = offsets().find(|&at| u64::from(call.base) > record(words, at).start) {
        return Err(refused(23, offset));
    }
    let cut = rebased(words, call);
    let bad = |at: &usize| index_is_bad(cut[at - call.from + 3], at - call.from, cut.len());
    if let Some(offset) = offsets().find(bad) {
        return Err(refused(19, offset));
    }
    if room < cut.len() {
        return Err(refused(13, 0));
    }
    let out: Vec<u16> = cut.iter().map(|&word| word as u16).collect();
    // "A slice's length is this figure for the part written"
    let length = greatest_end(&out);
    Ok((accepted([out.len() as u64, length]), out))
}

/// The cut with the base taken from starts and ends, and the first bound from end indices.
fn rebased(words: &[u16], call: &Slice) -> Vec<u64> {
    let mut cut = Vec::new();
    for offset in (call.from..call.to).step_by(RECORD_WIDTH) {
        let it = record(words, offset);
        let base = u64::from(call.base);
        cut.extend([
            it.id,
            it.start - base,
            it.end - base,
            it.index - call.from as u64,
        ]);
    }
    cut
}

/// The offsets met by following end indices from one bound up to the other, if it is ever met. Without a second bound,
/// all up to the part's end.
fn way(words: &[u16], from: usize, to: Option<usize>) -> Option<Vec<usize>> {
    let mut met = Vec::new();
    let mut at = from;
    while Some(at) != to {
        if at >= words.len() {
            return to.is_none().then_some(met);
        }
        met.push(at);
        at = words[at + 3] as usize;
    }
    Some(met)
}

/// Whether a record counted from the base is on the given side of a position.
fn on_side(words: &[u16], at: usize, call: &Search) -> bool {
    let it = record(words, at);
    let position = u64::from(call.position);
    let starts = u64::from(call.base) + it.start;
    let ends = u64::from(call.base) + it.end;
    match call.side {
        -2 => starts < position,
        -1 => starts < position && position <= ends,
        0 => starts < position && position < ends,
        1 => starts <= position && position < ends,
        2 => position < ends,
        4 => true,
        _ => false,
    }
}

/// Searching, after the part check's answer for the same words. Counts: 1 and the match's offset, or 0 and 0.
pub fn search(verdict: Checked, words: &[u16], call: &Search) -> Answer<2> {
    if verdict.number != 0 {
        return passed_on(verdict);
    }
    if let Some(answer) = bounds(call.from, call.to, words.len()) {
        return answer;
    }
    let Some(met) = way(words, call.from, Some(call.to)) else {
        return refused(24, 0);
    };
    let past = |at: usize| u64::from(call.base) + record(words, at).end > LAST;
    if let Some(&offset) = met.iter().find(|&&at| past(at)) {
        return refused(25, offset);
    }
    let matching: Vec<usize> = met
        .into_iter()
        .filter(|&at| on_side(words, at, call))
        .collect();
    let chosen = if call.direction > 0 {
        matching.first()
    } else {
        matching.last()
    };
    match chosen {
        Some(&offset) => accepted([1, offset as u64]),
        None => accepted([0, 0]),
    }
}

/// Where the Rust, which looks no further than a first match, stops on a way that document 01 refuses (24 or 25):
/// the first match going forward, if no record up to it ends past 32 bits.
pub fn early_match(words: &[u16], call: &Search) -> Option<usize> {
    if call.direction <= 0 {
        return None;
    }
    let met = way(words, call.from, None)?;
    let first = met.iter().position(|&at| on_side(words, at, call))?;
    let fits = |at: usize| u64::from(call.base) + record(words, at).end <= LAST;
    met[..=first]
        .iter()
        .all(|&at| fits(at))
        .then_some(met[first])
}
