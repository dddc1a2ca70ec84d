/* Hulwyth's exported calls. Link libgateway.a, which tools/archive writes to target/staticlib/; of the C library it needs memset
 * alone.
 *
 *   record lists   hulwyth_check        checks a record list
 *                  hulwyth_build        writes the tree of a record list
 *   trees          hulwyth_materialise  writes a tree again, with each packed record as a tree of its own
 *                  hulwyth_balance      writes a tree again, with a wide top balanced
 *                  hulwyth_list         writes a line for each ordinary node of a tree
 *   packed parts   hulwyth_part_check   checks a packed part
 *                  hulwyth_part_slice   writes a slice of a packed part as a part
 *                  hulwyth_part_search  finds a record of a packed part
 *
 *
 * Every call
 *
 * A slice is a pointer and a number of elements, not of bytes; a slice of no elements may be NULL. Each pointer is aligned for its
 * element type, as C asks of any uint32_t and uint16_t. Output slices, the work slice and info overlap no other slice of the call.
 * Apart from that a call answers on any numbers and on any words in its slices.
 *
 * Return: 0 where the call is accepted, else the number of the refusal. Where several apply it is the first, in the order in which
 * the tables below have them; of several records or cells at fault the lowest is named.
 *
 * info takes, as many as it holds: the place, the first count, the second count, and of hulwyth_part_check alone a third count; no
 * other call writes to its fourth word. Accepted: the place is 0, and so is a count that the call does not name. Refused: the place
 * is the offender, or 0 where none is named, and all counts are 0. A place or count above 4,294,967,295 is told as 4,294,967,295.
 *
 * Outputs: a refused call leaves them as they were; an accepted one writes only the counted front.
 *
 * The work slice is scratch space: what it held before decides nothing, and nothing is said of what it holds afterwards.
 *
 *
 * Native stack
 *
 * What the calls take of it, the parameters included, was measured on x86-64 on the worst inputs known; it is not proved.
 * tests/c/stack measures it again:
 *
 *   hulwyth_build         1.1 MB  1,048,999 bytes where 16,383 records are packed, each in the next; no more can be
 *   the part calls        40 KB   33,079 bytes for 3 records as for 16,383
 *   the tree calls        40 KB   34,295 bytes for hulwyth_balance on 1,000,000 siblings, 33,287 for the others, with and without parts
 *   hulwyth_check         1 KB
 *
 * The first call of a part or tree takes 3 KB more, if memset is bound only then.
 * The part calls and the tree calls hold the end indices of open packed records in an array of 16-bit words, 32,766 bytes.
 *
 *
 * Threads
 *
 * The calls keep no state: they have no data of their own that is written to, and allocate nothing. Any number of threads may call
 * at the same time, each with output, work and info slices of its own; input slices may be shared where nobody writes to them.
 */
#ifndef HULWYTH_H
#define HULWYTH_H

#include <stddef.h>
#include <stdint.h>

#ifdef __cplusplus
extern "C" {
#endif

/* The version of these declarations, and what changed in it. Nothing tests it when a program is linked.
 *
 *   2: hulwyth_list takes the packed words behind the cells and lists trees with packed parts; a program compiled against version
 *      1 links and misreads
 */
#define HULWYTH_VERSION 2

/* How many words a record of a list or of a packed part, a cell and a line have, and the places of a cell's words. */
enum {
    HULWYTH_RECORD_WIDTH = 4,
    HULWYTH_CELL_WIDTH = 7,
    HULWYTH_LINE_WIDTH = 4,

    HULWYTH_KIND = 0,
    HULWYTH_ID = 1,
    HULWYTH_POSITION = 2,
    HULWYTH_LENGTH = 3,
    HULWYTH_FIRST = 4,
    HULWYTH_COUNT = 5,
    HULWYTH_NEXT = 6
};

/* Record lists
 *
 * Four words a record: id, start, end, size; children before parents. The size counts the words of the record and its descendants;
 * the record's span is as many words, its own the last of them. T is the number of node types, F the first repeat id (ids from F up
 * are repeat records, the others ordinary), b the length bound, S the build start.
 *
 *    1  T is above 65,536
 *    2  b is above 65,535
 *    3  the top id is not below T
 *    4  the number of words is not a multiple of 4
 *    5  there are more than 1,048,576 records
 *   11  the work slice is below 96 words for each record and 96 more
 *    6  an id is not below T
 *    7  a start is after the end
 *    8  a size is below 4, not a multiple of 4, or above 4 * (record number + 1)
 *    9  a span begins inside an earlier record's span without covering it whole
 *   10  a first-level record starts before S, a child's range leaves its parent's, or a record starts before the end of its
 *       preceding sibling
 *   12  there is too little room for the cells (hulwyth_build)
 *   13  there is too little room for the packed words (hulwyth_build)
 *
 * 6 to 9 are tested together, record by record, and 10 only where none of them applies. The place of 6 to 10 is the number of the
 * record, counted from 0: in 10 of the first-level record, the child, the later sibling.
 */

/* Checks a record list. First count: the records. Refusals 1 to 5, 11, 6 to 10.
 *
 * types         T
 * first_repeat  F; it decides nothing here
 * bound         b
 * start         S
 * top           the id of the top
 * records       the list
 * records_len   its words
 * work          scratch space
 * work_len      its words: 96 for each record, and 96
 * info          place and counts
 * info_len      its words
 */
uint32_t hulwyth_check(uint32_t types, uint32_t first_repeat, uint32_t bound, uint32_t start, uint32_t top,
                       const uint32_t *records, size_t records_len, uint32_t *work, size_t work_len,
                       uint32_t *info, size_t info_len);

/* Builds the tree of a record list. First count: the cells written; second count: the packed words written. Refusals 1 to 5, 11, 6
 * to 10, 12, 13.
 *
 * A list that is nested deeper than 2,503 levels may lose records: inside 2,502 trees, each in the next, and the top around them,
 * only records without children are kept. So the listing of what was built, materialised or not, is the list's ordinary reading for
 * lists of at most 2,503 levels.
 *
 * types         T
 * first_repeat  F
 * bound         b; a record no longer than b may be packed
 * start         S, from which the positions of the first level are counted
 * top           the id of the top
 * given         0: no length is given, and the top ends with its last child; any other number: the top's length is given
 * length        the top's length; it decides nothing where given is 0
 * records       the list
 * records_len   its words
 * work          scratch space
 * work_len      its words: 96 for each record, and 96
 * cells         the cells of the result
 * cells_len     its words: HULWYTH_CELL_WIDTH for each cell; a list of n records has at most 2 * n + 1 cells
 * words         the packed words of the result
 * words_len     how many: HULWYTH_RECORD_WIDTH for each record always suffice
 * info          place and counts
 * info_len      its words
 */
uint32_t hulwyth_build(uint32_t types, uint32_t first_repeat, uint32_t bound, uint32_t start, uint32_t top,
                       uint32_t given, uint32_t length, const uint32_t *records, size_t records_len,
                       uint32_t *work, size_t work_len, uint32_t *cells, size_t cells_len,
                       uint16_t *words, size_t words_len, uint32_t *info, size_t info_len);

/* Trees
 *
 * Cells of HULWYTH_CELL_WIDTH words, numbered from 1 in preorder:
 *
 *   kind      1 a tree, 2 a packed part, 3 a tree of no type
 *   id        below T; 0 for the kinds 2 and 3
 *   position  from the parent's start
 *   length
 *   first     the first child's cell, 0 for none; of a packed part its word offset
 *   count     of the children; of a packed part's words
 *   next      the next sibling's cell, 0 for none
 *
 * Beside them stand the packed words, of one part after the other (see "Packed parts").
 *
 *    1  T is above 65,536
 *   11  the work slice is below 96 words for each item and 96 more; the items are the cells and every fourth packed word
 *   15  a cell breaks a rule; the place is the lowest such cell, or 0 where there is no cell or the words are no whole cells
 *   12  there is too little room for the cells of the result, or it has more than 4,294,967,295 of them; in hulwyth_balance also:
 *       there are more than 44,739,241 items
 *   13  there is too little room for the packed words of the result (hulwyth_balance)
 *   14  there is too little room for the lines, or there are more than 4,294,967,295 of them (hulwyth_list)
 *
 * The rules: kind and id are as above. Cell 1 is the top, of kind 1, at position 0, without a next. A first child is the next cell;
 * next names the cell after a cell's last descendant; a cell has count children; each cell but the top is the child of one cell. A
 * sibling starts at or after the end of the one before it. Children end within their parent, those of the top excepted. The packed
 * parts follow each other from word 0 on in the order of their cells, to the last word, and 16 to 20 apply to none of them; their
 * records nest and follow each other as in 10 and end within the part's length. The absolute end of each cell but the top is at
 * most 4,294,967,295; it is counted from S in hulwyth_list and from 0 elsewhere. A rule about two cells counts against the higher
 * one, a rule about the number of a cell's children against that cell.
 */

/* Writes the cells of a tree with each packed record as a tree of its own, under the tree or the record that held it. First count:
 * the cells written; no packed words are written. Refusals 1, 11, 15, 12.
 *
 * types      T
 * cells      the cells
 * cells_len  their words
 * words      the packed words
 * words_len  how many
 * work       scratch space
 * work_len   its words: 96 for each item, and 96
 * out        the cells of the result
 * out_len    its words: HULWYTH_CELL_WIDTH for each tree and each packed record
 * info       place and counts
 * info_len   its words
 */
uint32_t hulwyth_materialise(uint32_t types, const uint32_t *cells, size_t cells_len,
                             const uint16_t *words, size_t words_len, uint32_t *work, size_t work_len,
                             uint32_t *out, size_t out_len, uint32_t *info, size_t info_len);

/* Writes the cells and packed words of a tree with its top balanced, where it has more than 8 children: groups of them are put
 * under trees of no type. First count: the cells written; second count: the packed words written, as many as are handed in.
 * Refusals 1, 11, 15, 12, 13.
 *
 * Where place 0 of the node set is none, the type of the trees of kind 3, a tree of kind 1 with id 0 counts as a tree of no type
 * wherever types are compared. The trees that the call makes are of kind 3 on either set, and a cell that stays keeps its kind and
 * id. But balancing may put the children of a tree of no type in its place: so on such a set a node of kind 1 with id 0 may vanish,
 * and its line in hulwyth_list with it. On any other set every node of kind 1 stays.
 *
 * No other call takes the number. hulwyth_build compares ids with a repeat tree's own id alone and writes no tree of kind 3, so it
 * gives the same tree on either set. hulwyth_materialise and hulwyth_list do not look at the set: id 0 is listed where it is below
 * F.
 *
 * types       T
 * none_first  0: place 0 of the node set is not none; any other number: it is
 * cells       the cells
 * cells_len   their words
 * words       the packed words
 * words_len   how many
 * work        scratch space
 * work_len    its words: 96 for each item, and 96
 * out         the cells of the result
 * out_len     its words: HULWYTH_CELL_WIDTH for each cell; twice as many cells as are handed in always suffice
 * packed      the packed words of the result
 * packed_len  how many: words_len
 * info        place and counts
 * info_len    its words
 */
uint32_t hulwyth_balance(uint32_t types, uint32_t none_first, const uint32_t *cells, size_t cells_len,
                         const uint16_t *words, size_t words_len, uint32_t *work, size_t work_len,
                         uint32_t *out, size_t out_len, uint16_t *packed, size_t packed_len,
                         uint32_t *info, size_t info_len);

/* Lists a tree: a line of depth, id, start and end for each tree and each packed record, the top, repeat ids and trees of no type
 * left out, parents first. The depth counts the listed nodes around it. The lines are those of the cells that hulwyth_materialise
 * writes. First count: the lines. Refusals 1, 11, 15, 14.
 *
 * types         T
 * first_repeat  F: ids from F up are repeat ids
 * start         S, added to every start and end; 15 counts the ends of the cells from it, a packed part's by its own length
 * cells         the cells
 * cells_len     their words
 * words         the packed words
 * words_len     how many
 * work          scratch space
 * work_len      its words: 96 for each item, and 96
 * lines         HULWYTH_LINE_WIDTH words a line
 * lines_len     its words: HULWYTH_LINE_WIDTH for each line; there are fewer lines than items
 * info          place and counts
 * info_len      its words
 */
uint32_t hulwyth_list(uint32_t types, uint32_t first_repeat, uint32_t start, const uint32_t *cells, size_t cells_len,
                      const uint16_t *words, size_t words_len, uint32_t *work, size_t work_len,
                      uint32_t *lines, size_t lines_len, uint32_t *info, size_t info_len);

/* Packed parts
 *
 * Four words a record: id, start, end, end index; parents before children. The end index is the word offset behind the last
 * descendant of the record.
 *
 *    1  T is above 65,536
 *   16  the number of words is not a multiple of 4
 *   17  an id is not below T
 *   18  a start is after the end
 *   19  an end index is below the record's offset + 4, above the number of words, or not a multiple of 4
 *   20  an end index is above that of a record around it
 *   21  from is above to, or to is above the number of words
 *   22  from or to is not a multiple of 4
 *   23  base is above the start of a record from from up to to (hulwyth_part_slice)
 *   19  the end index of a record from from up to to is above to (hulwyth_part_slice)
 *   13  there is too little room for the words (hulwyth_part_slice)
 *   24  following end indices from from never meets to (hulwyth_part_search)
 *   25  base and the end of a record on that way are together above 4,294,967,295 (hulwyth_part_search)
 *
 * 17 to 20 are tested together, record by record. The place of 17 to 20, 23 and 25 is the word offset of the record in words.
 */

/* Checks a packed part. First count: the records; second count: the greatest end of any record; third count: the deepest nesting,
 * which is 1 for records held by no other. All are 0 where there is no record. Refusals 1, 16 to 20.
 *
 * A record is held by each earlier one whose end index is above its word offset, whatever their ranges. So the greatest end need
 * not be that of a record held by no other: 1,0,2,8, 1,0,9,8 has 2 records, the greatest end 9 and the nesting 2.
 *
 * types      T
 * words      the part
 * words_len  its words
 * info       place and counts
 * info_len   its words: 4 for all of them
 */
uint32_t hulwyth_part_check(uint32_t types, const uint16_t *words, size_t words_len, uint32_t *info, size_t info_len);

/* Writes the records of a packed part from the word from up to the word to, as a part: starts and ends are counted from base, end
 * indices from from. First count: the words written; second count: the slice's length, which is the greatest end of the part
 * written, as hulwyth_part_check tells it. Refusals 1, 16 to 22, 23, 19, 13.
 *
 * types      T
 * from       the word offset of the first record
 * to         the word offset behind the last record
 * base       what starts and ends are lowered by
 * words      the part
 * words_len  its words
 * out        the slice
 * out_len    its words: to - from
 * info       place and counts
 * info_len   its words
 */
uint32_t hulwyth_part_slice(uint32_t types, size_t from, size_t to, uint32_t base, const uint16_t *words, size_t words_len,
                            uint16_t *out, size_t out_len, uint32_t *info, size_t info_len);

/* Follows the end indices of a packed part, from sibling to sibling, and finds a record on a side of a position. Counts: 1 and the
 * match's word offset, or 0 and 0 for none. Refusals 1, 16 to 22, 24, 25; the place of 25 is the first such record on the way, past
 * a match too.
 *
 * types      T
 * from       the word offset of the first record on the way
 * to         the word offset behind the last one
 * direction  above 0: the first match is found; else the last
 * position   the position
 * base       added to starts and ends before they are compared with it
 * side       which records match: -2 start < position; -1 start < position <= end; 0 start < position < end; 1 start <= position <
 *            end; 2 position < end; 4 any; any other number none
 * words      the part
 * words_len  its words
 * info       place and counts
 * info_len   its words
 */
uint32_t hulwyth_part_search(uint32_t types, size_t from, size_t to, int8_t direction, uint32_t position, uint32_t base,
                             int8_t side, const uint16_t *words, size_t words_len, uint32_t *info, size_t info_len);

#ifdef __cplusplus
}
#endif

#endif
