//! The library's eight exported calls, through their C interface: each slice is a pointer and a number of elements.

use crate::builds::case::Case;
use crate::lists::model::List;
use crate::parts::model::{Search, Slice};
use crate::trees::model::Handed;

#[link(name = "gateway", kind = "static")]
unsafe extern "C" {
    fn hulwyth_check(
        types: u32,
        first_repeat: u32,
        bound: u32,
        start: u32,
        top: u32,
        records: *const u32,
        records_len: usize,
        work: *mut u32,
        work_len: usize,
        info: *mut u32,
        info_len: usize,
    ) -> u32;

    fn hulwyth_build(
        types: u32,
        first_repeat: u32,
        bound: u32,
        start: u32,
        top: u32,
        given: u32,
        length: u32,
        records: *const u32,
        records_len: usize,
        work: *mut u32,
        work_len: usize,
        cells: *mut u32,
        cells_len: usize,
        words: *mut u16,
        words_len: usize,
        info: *mut u32,
        info_len: usize,
    ) -> u32;

    fn hulwyth_materialise(
        types: u32,
        cells: *const u32,
        cells_len: usize,
        words: *const u16,
        words_len: usize,
        work: *mut u32,
        work_len: usize,
        out: *mut u32,
        out_len: usize,
        info: *mut u32,
        info_len: usize,
    ) -> u32;

    fn hulwyth_balance(
        types: u32,
        none_first: u32,
        cells: *const u32,
        cells_len: usize,
        words: *const u16,
        words_len: usize,
        work: *mut u32,
        work_len: usize,
        out: *mut u32,
        out_len: usize,
        packed: *mut u16,
        packed_len: usize,
        info: *mut u32,
        info_len: usize,
    ) -> u32;

    fn hulwyth_list(
        types: u32,
        first_repeat: u32,
        start: u32,
        cells: *const u32,
        cells_len: usize,
        words: *const u16,
        words_len: usize,
        work: *mut u32,
        work_len: usize,
        lines: *mut u32,
        lines_len: usize,
        info: *mut u32,
        info_len: usize,
    ) -> u32;

    fn hulwyth_part_check(
        types: u32,
        words: *const u16,
        words_len: usize,
        info: *mut u32,
        info_len: usize,
    ) -> u32;

    fn hulwyth_part_slice(
        types: u32,
        from: usize,
        to: usize,
        base: u32,
        words: *const u16,
        words_len: usize,
        out: *mut u16,
        out_len: usize,
        info: *mut u32,
        info_len: usize,
    ) -> u32;

    fn hulwyth_part_search(
        types: u32,
        from: usize,
        to: usize,
        direction: i8,
        position: u32,
        base: u32,
        side: i8,
        words: *const u16,
        words_len: usize,
        info: *mut u32,
        info_len: usize,
    ) -> u32;
}

/// Every exported call takes its numbers, then the slices that it reads, then those that it writes to.
macro_rules! call {
    ($name:ident, [$($number:expr),*], [$($read:expr),*], [$($written:expr),*]) => {
        // Safe: the slices are borrowed for the call, and the callee keeps to their lengths.
        unsafe {
            $name(
                $($number,)*
                $($read.as_ptr(), $read.len(),)*
                $($written.as_mut_ptr(), $written.len(),)*
            )
        }
    };
}

/// The list check. The slice decides what is lent; the list's own figure for the work slice is not looked at.
pub fn check(list: &List, work: &mut [u32], info: &mut [u32]) -> u32 {
    call!(
        hulwyth_check,
        [
            list.types,
            list.first_repeat,
            list.bound,
            list.start,
            list.top
        ],
        [list.words],
        [work, info]
    )
}

/// The build. The slices decide what is lent here too.
pub fn build(
    case: &Case,
    work: &mut [u32],
    cells: &mut [u32],
    words: &mut [u16],
    info: &mut [u32],
) -> u32 {
    let list = &case.list;
    let (given, length) = case.given.map_or((0, 0), |length| (1, length));
    call!(
        hulwyth_build,
        [
            list.types,
            list.first_repeat,
            list.bound,
            list.start,
            list.top,
            given,
            length
        ],
        [list.words],
        [work, cells, words, info]
    )
}

pub fn materialise(tree: &Handed, work: &mut [u32], out: &mut [u32], info: &mut [u32]) -> u32 {
    call!(
        hulwyth_materialise,
        [tree.types],
        [tree.cells, tree.words],
        [work, out, info]
    )
}

/// `none_first`: 0 where place 0 of the node set is not none.
pub fn balance(
    tree: &Handed,
    none_first: u32,
    work: &mut [u32],
    out: &mut [u32],
    packed: &mut [u16],
    info: &mut [u32],
) -> u32 {
    call!(
        hulwyth_balance,
        [tree.types, none_first],
        [tree.cells, tree.words],
        [work, out, packed, info]
    )
}

pub fn list(tree: &Handed, work: &mut [u32], lines: &mut [u32], info: &mut [u32]) -> u32 {
    list_of(tree, &tree.cells, &tree.words, work, lines, info)
}

/// The same of other cells and words, with the numbers of a tree.
pub fn list_of(
    tree: &Handed,
    cells: &[u32],
    words: &[u16],
    work: &mut [u32],
    lines: &mut [u32],
    info: &mut [u32],
) -> u32 {
    call!(
        hulwyth_list,
        [tree.types, tree.first_repeat, tree.start],
        [cells, words],
        [work, lines, info]
    )
}

pub fn part_check(types: u32, words: &[u16], info: &mut [u32]) -> u32 {
    call!(hulwyth_part_check, [types], [words], [info])
}

/// The output slice decides the room; the call's own figure is not looked at.
pub fn part_slice(
    types: u32,
    words: &[u16],
    call: &Slice,
    out: &mut [u16],
    info: &mut [u32],
) -> u32 {
    call!(
        hulwyth_part_slice,
        [types, call.from, call.to, call.base],
        [words],
        [out, info]
    )
}

pub fn part_search(types: u32, words: &[u16], call: &Search, info: &mut [u32]) -> u32 {
    call!(
        hulwyth_part_search,
        [
            types,
            call.from,
            call.to,
            call.direction,
            call.position,
            call.base,
            call.side
        ],
        [words],
        [info]
    )
}
