/* Measures the native stack that each call takes on the worst inputs known: the call is made in a thread whose stack was filled
 * with a pattern, and the lowest word that changed says how deep it went. Prints the bytes, the call's parameters among them; a
 * call that takes more than include/hulwyth.h says, or is refused, is followed by WRONG, and the status is then 1. Run by
 * tests/c/stack. */
#define _GNU_SOURCE
#include "hulwyth.h"

#include <pthread.h>
#include <stdio.h>
#include <stdlib.h>
#include <sys/mman.h>

enum { MANY = 1000000, ROOM = 2 * MANY, FULL = 16383, STACK = 4 << 20, GUARD = 4096 };

/* The bytes that the header names: of a build that packs deeply, of a build that packs nothing, of the calls that check packed parts, of
 * the list check. */
enum { BUILD = 1600000, FLAT_BUILD = 4000, PARTS = 40000, LISTS = 1000 };

static const uint64_t PATTERN = 0x5ca1ab1ec0ffee11;

static int status = 0;

/* What the calls are lent, and how many records, cells and packed words they are handed. */
static uint32_t *records, *cells, *out, *work, info[3];
static uint16_t *words, *packed;
static size_t record_count, cell_count, word_count;
static const size_t work_len = 96 * (size_t)(MANY + 100) + 96;
static const size_t cells_len = HULWYTH_CELL_WIDTH * (size_t)ROOM;

/* The words of so many records, in a list and packed. */
static const size_t records_len = HULWYTH_RECORD_WIDTH * (size_t)MANY;

/* What the call answered. */
static uint32_t number;

static void check(void)
{
    number = hulwyth_check(4, 2, 1024, 0, 0, records, HULWYTH_RECORD_WIDTH * record_count, work, work_len, info, 3);
}

static void build(void)
{
    number = hulwyth_build(4, 2, 1024, 0, 0, 0, 0, records, HULWYTH_RECORD_WIDTH * record_count, work, work_len, out, cells_len,
                           packed, records_len, info, 3);
}

static void materialise(void)
{
    number = hulwyth_materialise(4, cells, HULWYTH_CELL_WIDTH * cell_count, words, word_count, work, work_len, out, cells_len,
                                 info, 3);
}

static void balance(void)
{
    number = hulwyth_balance(4, 0, cells, HULWYTH_CELL_WIDTH * cell_count, words, word_count, work, work_len, out, cells_len,
                             packed, records_len, info, 3);
}

static void list(void)
{
    number = hulwyth_list(4, 4, 0, cells, HULWYTH_CELL_WIDTH * cell_count, words, word_count, work, work_len, out, cells_len, info,
                          3);
}

static void part_check(void)
{
    number = hulwyth_part_check(4, words, word_count, info, 3);
}

static void part_slice(void)
{
    number = hulwyth_part_slice(4, 0, word_count, 0, words, word_count, packed, word_count, info, 3);
}

/* The last match of any side, from a base for which each end is looked at. */
static void part_search(void)
{
    number = hulwyth_part_search(4, 0, word_count, -1, 0, UINT32_MAX - 65534, 4, words, word_count, info, 3);
}

static void *mapped(size_t bytes)
{
    void *at = mmap(NULL, bytes, PROT_READ | PROT_WRITE, MAP_PRIVATE | MAP_ANONYMOUS | MAP_NORESERVE, -1, 0);
    if (at == MAP_FAILED) {
        fprintf(stderr, "no memory for %zu bytes\n", bytes);
        exit(2);
    }
    return at;
}

/* A call that is to be made on a stack, and the bytes of it that it took. */
struct trial {
    void (*call)(void);
    uint64_t *stack;
    size_t taken;
};

static void *try(void *argument)
{
    struct trial *trial = argument;
    volatile char here = 0;
    size_t at = 0;
    trial->call();
    while (trial->stack[at] == PATTERN)
        at++;
    trial->taken = (uintptr_t)&here - (uintptr_t)(trial->stack + at);
    return NULL;
}

/* The bytes of native stack that a call takes. Below its stack stands a page that cannot be written to. */
static size_t taken(void (*call)(void))
{
    char *low = mapped(GUARD + STACK);
    struct trial trial = {call, (uint64_t *)(void *)(low + GUARD), 0};
    pthread_attr_t attributes;
    pthread_t thread;
    for (size_t i = 0; i < STACK / sizeof PATTERN; i++)
        trial.stack[i] = PATTERN;
    if (mprotect(low, GUARD, PROT_NONE) != 0 || pthread_attr_init(&attributes) != 0
        || pthread_attr_setstack(&attributes, trial.stack, STACK) != 0
        || pthread_create(&thread, &attributes, try, &trial) != 0 || pthread_join(thread, NULL) != 0) {
        fprintf(stderr, "no thread\n");
        exit(2);
    }
    munmap(low, GUARD + STACK);
    return trial.taken;
}

/* Measures a call that is to be accepted and to take so many bytes at most. */
static void measure(const char *what, void (*call)(void), size_t most)
{
    size_t bytes = taken(call);
    printf("  %s: %zu bytes", what, bytes);
    if (number != 0 || bytes > most) {
        printf(" WRONG, number %u, at most %zu", (unsigned)number, most);
        status = 1;
    }
    printf("\n");
    fflush(stdout);
}

static void put_record(uint32_t id, uint32_t start, uint32_t end, uint32_t size)
{
    const uint32_t record[HULWYTH_RECORD_WIDTH] = {id, start, end, size};
    for (int i = 0; i < HULWYTH_RECORD_WIDTH; i++)
        records[HULWYTH_RECORD_WIDTH * record_count + i] = record[i];
    record_count++;
}

/* A repeat record, and around it, each in the next, as many ordinary ones as a packed part holds. */
static void record_chain(void)
{
    record_count = 0;
    put_record(2, 0, 2, HULWYTH_RECORD_WIDTH);
    for (uint32_t i = 0; i < FULL; i++)
        put_record(1, 0, 2, HULWYTH_RECORD_WIDTH * (i + 2));
}

/* Long records side by side, each in a repeat record, in one repeat record: each becomes a group, and the groups are balanced. */
static void record_groups(void)
{
    uint32_t pairs = MANY / 2 - 1;
    record_count = 0;
    for (uint32_t i = 0; i < pairs; i++) {
        put_record(1, 8000 * i, 8000 * i + 8000, HULWYTH_RECORD_WIDTH);
        put_record(2, 8000 * i, 8000 * i + 8000, HULWYTH_RECORD_WIDTH * 2);
    }
    put_record(2, 0, 8000 * pairs, HULWYTH_RECORD_WIDTH * (2 * pairs + 1));
}

static void put_cell(uint32_t kind, uint32_t position, uint32_t length, uint32_t first, uint32_t count, uint32_t next)
{
    const uint32_t cell[HULWYTH_CELL_WIDTH] = {kind, kind == 1, position, length, first, count, next};
    for (int i = 0; i < HULWYTH_CELL_WIDTH; i++)
        cells[HULWYTH_CELL_WIDTH * cell_count + i] = cell[i];
    cell_count++;
}

/* A top and so many trees of no type under it, each in the one before. */
static void cell_chain(uint32_t count)
{
    cell_count = word_count = 0;
    for (uint32_t i = 0; i < count; i++)
        put_cell(i == 0 ? 1 : 3, 0, 1, i + 2, 1, 0);
    put_cell(3, 0, 1, 0, 0, 0);
}

/* A top with so many leaves of length 1. */
static void cell_row(uint32_t count)
{
    cell_count = word_count = 0;
    put_cell(1, 0, count, 2, count, 0);
    for (uint32_t i = 0; i < count; i++)
        put_cell(1, i, 1, 0, 0, i + 1 == count ? 0 : i + 3);
}

/* A top with a packed part of so many records, each in the one before. */
static void cell_part(uint32_t count)
{
    cell_count = word_count = 0;
    put_cell(1, 0, 2, 2, 1, 0);
    put_cell(2, 0, 2, 0, HULWYTH_RECORD_WIDTH * count, 0);
    while (word_count < HULWYTH_RECORD_WIDTH * count) {
        const uint16_t record[HULWYTH_RECORD_WIDTH] = {1, 0, 2, (uint16_t)(HULWYTH_RECORD_WIDTH * count)};
        for (int i = 0; i < HULWYTH_RECORD_WIDTH; i++)
            words[word_count++] = record[i];
    }
}

static void measure_lists(void)
{
    printf("a repeat record in a chain of %d\n", FULL);
    record_chain();
    measure("check", check, LISTS);
    measure("build", build, BUILD);
    printf("%d groups in one repeat record\n", MANY / 2 - 1);
    record_groups();
    measure("check", check, LISTS);
    measure("build", build, FLAT_BUILD);
}

static void measure_trees(void)
{
    printf("a chain of %d trees of no type\n", MANY);
    cell_chain(MANY);
    measure("materialise", materialise, PARTS);
    measure("balance", balance, PARTS);
    measure("list", list, PARTS);
    printf("%d siblings\n", MANY);
    cell_row(MANY);
    measure("materialise", materialise, PARTS);
    measure("balance", balance, PARTS);
    measure("list", list, PARTS);
}

/* A tree with a packed part of so many records, and the part by itself. */
static void measure_part(uint32_t count)
{
    printf("a packed part of %u records, each in the one before\n", (unsigned)count);
    cell_part(count);
    measure("materialise", materialise, PARTS);
    measure("balance", balance, PARTS);
    measure("list", list, PARTS);
    measure("part check", part_check, PARTS);
    measure("part slice", part_slice, PARTS);
    measure("part search", part_search, PARTS);
}

int main(void)
{
    work = mapped(work_len * sizeof *work);
    records = mapped(records_len * sizeof *records);
    cells = mapped(cells_len * sizeof *cells);
    out = mapped(cells_len * sizeof *out);
    words = mapped(records_len * sizeof *words);
    packed = mapped(records_len * sizeof *packed);
    measure_lists();
    measure_trees();
    measure_part(3);
    measure_part(FULL);
    return status;
}
