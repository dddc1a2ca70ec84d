/* Materialises, lists and balances trees of about 1,000,000 cells: one chain, one row of siblings, and a top with nine children of
 * which one is a chain of trees of no type, or of id 0 on a node set with none in place 0, so that balancing divides it; and one of
 * packed parts with about as many records. Builds lists of 1,000,000 records, and lists what was built. Prints the counts; a count
 * that is not the one due is followed by WRONG, and the status is then 1. Run by tests/c/large under a native stack of 8 MiB. */
#include "hulwyth.h"

#include <stdio.h>
#include <stdlib.h>

enum { MANY = 1000000, ROOM = 2 * MANY, FULL = 16383, PARTS = 60 };

static int status = 0;

/* What the calls are lent. */
static uint32_t *work, *cells, *out, *lines;
static uint16_t *words, *moved;
static const size_t work_len = 96 * (size_t)(MANY + 1000) + 96;
static const size_t cells_len = (size_t)ROOM * HULWYTH_CELL_WIDTH;
static const size_t lines_len = (size_t)ROOM * HULWYTH_LINE_WIDTH;

/* The words of so many records, in a list and packed. */
static const size_t records_len = (size_t)MANY * HULWYTH_RECORD_WIDTH;

static void *words32(size_t count) {
    void *at = malloc(count * sizeof(uint32_t));
    if (at == NULL) {
        fprintf(stderr, "no memory for %zu words\n", count);
        exit(2);
    }
    return at;
}

static void put(size_t cell, uint32_t kind, uint32_t id, uint32_t position, uint32_t length, uint32_t first, uint32_t count,
                uint32_t next) {
    const uint32_t row[HULWYTH_CELL_WIDTH] = {kind, id, position, length, first, count, next};
    for (int i = 0; i < HULWYTH_CELL_WIDTH; i++) cells[(cell - 1) * HULWYTH_CELL_WIDTH + i] = row[i];
}

/* A chain of `count` trees from cell `from` on, each with the next one as its only child; `next` follows the first of them. */
static void put_chain(size_t from, size_t count, uint32_t kind, uint32_t id, uint32_t position, uint32_t next) {
    for (size_t i = 0; i < count; i++) {
        int last = i + 1 == count;
        put(from + i, kind, id, i == 0 ? position : 0, 1, last ? 0 : (uint32_t)(from + i + 1), last ? 0 : 1, i == 0 ? next : 0);
    }
}

/* A top and a chain of trees under it. */
static size_t chain(uint32_t kind, uint32_t id) {
    put(1, 1, 0, 0, 1, 2, 1, 0);
    put_chain(2, MANY, kind, id, 0, 0);
    return MANY + 1;
}

/* A top and leaves of length 1 under it. */
static size_t siblings(void) {
    put(1, 1, 0, 0, MANY, 2, MANY, 0);
    for (uint32_t i = 0; i < MANY; i++) put(i + 2, 1, 1, i, 1, 0, 0, i + 1 == MANY ? 0 : i + 3);
    return MANY + 1;
}

/* A top with eight leaves and, as the fifth of nine children, a chain of trees of a kind, with id 0. */
static size_t nine(uint32_t kind) {
    put(1, 1, 0, 0, 9, 2, 9, 0);
    for (uint32_t i = 0; i < 4; i++) put(i + 2, 1, 1, i, 1, 0, 0, i + 3);
    put_chain(6, MANY, kind, 0, 4, MANY + 6);
    for (uint32_t i = 0; i < 4; i++) put(MANY + 6 + i, 1, 1, 5 + i, 1, 0, 0, i == 3 ? 0 : MANY + 7 + i);
    return MANY + 9;
}

/* A top and packed parts under it, each of as many records as a part holds, each in the one before. */
static size_t parts(void) {
    uint32_t part = HULWYTH_RECORD_WIDTH * FULL;
    put(1, 1, 0, 0, 2 * PARTS, 2, PARTS, 0);
    for (uint32_t i = 0; i < PARTS; i++) put(i + 2, 2, 0, 2 * i, 2, i * part, part, i + 1 == PARTS ? 0 : i + 3);
    for (uint32_t i = 0; i < PARTS * FULL; i++) {
        const uint16_t record[HULWYTH_RECORD_WIDTH] = {1, 0, 2, (uint16_t)part};
        for (int j = 0; j < HULWYTH_RECORD_WIDTH; j++) words[i * HULWYTH_RECORD_WIDTH + j] = record[j];
    }
    return PARTS + 1;
}

/* The balancing of `count` leaves, by document 01: how many cells stand below the tree that holds them. A group has one leaf less
 * than the share, or one; a group of several is an inner tree, balanced in turn. */
static uint64_t below(uint64_t count);

static uint64_t group(uint64_t count) {
    return count <= 1 ? count : 1 + below(count);
}

static uint64_t below(uint64_t count) {
    uint64_t share = (3 * count + 15) / 16;
    uint64_t size = share <= 2 ? 1 : share - 1;
    return count / size * group(size) + group(count % size);
}

static uint64_t children(uint64_t count) {
    uint64_t size = (3 * count + 15) / 16 - 1;
    return (count + size - 1) / size;
}

static void say(const char *what, uint32_t number, uint64_t place, uint64_t count, uint64_t due) {
    if (number != 0) {
        printf("  %s: refused %u at %llu WRONG\n", what, number, (unsigned long long)place);
        status = 1;
        return;
    }
    printf("  %s: %llu", what, (unsigned long long)count);
    if (count != due) {
        printf(" WRONG, not %llu", (unsigned long long)due);
        status = 1;
    }
    printf("\n");
}

/* All three calls on the tree that stands in `cells` and `words`, with none in place 0 of the node set or without it. What is due:
 * cells of the materialised tree, cells of the balanced tree and children of its top, lines. */
static void run(const char *what, size_t count, size_t packed, uint32_t none_first, uint64_t made, uint64_t balanced, uint64_t held,
                uint64_t listed) {
    size_t given = count * HULWYTH_CELL_WIDTH;
    uint32_t info[3];
    printf("%s\n", what);
    uint32_t number = hulwyth_materialise(4, cells, given, words, packed, work, work_len, out, cells_len, info, 3);
    say("cells materialised", number, info[0], info[1], made);
    number = hulwyth_list(4, 4, 0, cells, given, words, packed, work, work_len, lines, lines_len, info, 3);
    say("lines listed", number, info[0], info[1], listed);
    number = hulwyth_balance(4, none_first, cells, given, words, packed, work, work_len, out, cells_len, moved, packed, info, 3);
    say("cells balanced", number, info[0], info[1], balanced);
    say("children of the top", number, info[0], out[HULWYTH_COUNT], held);
    fflush(stdout);
}

/* The same on a tree without packed words. */
static void run_plain(const char *what, size_t count, uint32_t none_first, uint64_t balanced, uint64_t held, uint64_t listed) {
    run(what, count, 0, none_first, count, balanced, held, listed);
}

/* Builds the list that stands in `lines`, with b 1,024, and lists the tree. What is due: cells and packed words, lines. */
static void run_build(const char *what, uint64_t due, uint64_t packed, uint64_t listed) {
    uint32_t info[3];
    printf("%s\n", what);
    uint32_t number = hulwyth_build(4, 4, 1024, 0, 0, 0, 0, lines, records_len, work, work_len, cells, cells_len, words,
                                    records_len, info, 3);
    say("cells built", number, info[0], info[1], due);
    say("packed words", number, info[0], info[2], packed);
    number = hulwyth_list(4, 4, 0, cells, info[1] * (size_t)HULWYTH_CELL_WIDTH, words, info[2], work, work_len, lines, lines_len,
                          info, 3);
    say("lines listed", number, info[0], info[1], listed);
    fflush(stdout);
}

static void record(size_t at, uint32_t id, uint32_t start, uint32_t end, uint32_t size) {
    const uint32_t record[HULWYTH_RECORD_WIDTH] = {id, start, end, size};
    for (int i = 0; i < HULWYTH_RECORD_WIDTH; i++) lines[at * HULWYTH_RECORD_WIDTH + i] = record[i];
}

/* A chain of records from 0 to 2,000: 2,502 trees, and a part with the innermost record. */
static void build_chain(void) {
    for (size_t i = 0; i < MANY; i++) record(i, 1, 0, 2000, (uint32_t)(i + 1) * HULWYTH_RECORD_WIDTH);
    run_build("records: a chain of 1000000 from 0 to 2000", 1 + 2502 + 1, HULWYTH_RECORD_WIDTH, 2503);
}

/* Records of length 2,000 side by side: a tree of each. */
static void build_siblings(void) {
    for (size_t i = 0; i < MANY; i++) record(i, 1, (uint32_t)i * 2000, (uint32_t)i * 2000 + 2000, HULWYTH_RECORD_WIDTH);
    run_build("records: 1000000 siblings of length 2000", MANY + 1, 0, MANY);
}

/* Records of length 1: from the last one back a part takes those that start at or after its end - 1,024. */
static void build_short(void) {
    for (size_t i = 0; i < MANY; i++) record(i, 1, (uint32_t)i, (uint32_t)i + 1, HULWYTH_RECORD_WIDTH);
    run_build("records: 1000000 siblings of length 1", 1 + (MANY + 1023) / 1024, records_len, MANY);
}

int main(void) {
    work = words32(work_len);
    cells = words32(cells_len);
    out = words32(cells_len);
    lines = words32(lines_len);
    words = words32(records_len / 2);
    moved = words32(records_len / 2);
    run_plain("a chain of 1000000 trees of no type", chain(3, 0), 0, MANY + 1, 1, 0);
    run_plain("a chain of 1000000 trees of id 1", chain(1, 1), 0, MANY + 1, 1, MANY);
    run_plain("1000000 siblings", siblings(), 0, 1 + below(MANY), children(MANY), MANY);
    /* The chain is divided in place until what is left of it is no larger than the share; four leaves on each side are grouped. */
    uint64_t share = (3 * (uint64_t)(MANY + 8) + 15) / 16;
    run_plain("nine children, the fifth a chain of 1000000 trees of no type", nine(3), 0, 1 + 5 + share + 5, 3, 8);
    run_plain("the same with trees of id 0, and none in place 0", nine(1), 1, 1 + 5 + share + 5, 3, 8 + MANY);
    run("60 packed parts of 16383 records, each in the one before", parts(), PARTS * FULL * HULWYTH_RECORD_WIDTH, 0,
        1 + PARTS * FULL, 1 + below(PARTS), children(PARTS), PARTS * FULL);
    build_chain();
    build_siblings();
    build_short();
    return status;
}
