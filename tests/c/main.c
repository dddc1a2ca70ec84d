/* The gateway's shape: makes each of the eight calls on document 01's examples, balances and lists one more tree on a node set
 * without none in place 0 and on one with it, and checks three more parts. What was built is listed as it is, and once more when it
 * is materialised. The slices are its own. It prints what each call gives: a line with the number, the place and the counts, and
 * under it what the call wrote. With the argument `short` the work slice of a call is one word short of what it asks for; the
 * program then stops after the first call, with status 1. */
#include <inttypes.h>
#include <stdio.h>
#include <string.h>

#include "hulwyth.h"

enum {
    TYPES = 4,
    FIRST_REPEAT = 4,
    BOUND = 1024,
    START = 0,
    TOP = 0,
    RECORDS = 3,
    WORDS = HULWYTH_RECORD_WIDTH * RECORDS, /* the packed words of so many records at most */
    LEAVES = 11,
    NINE = 9, /* the children of a top of which the last one holds HELD more */
    HELD = 3,
    CELLS = 2 * (1 + NINE + HELD), /* no tree here has more cells: balancing makes at most twice as many */
};

/* The words of work for so many items. */
#define WORK(items) (96 * (items) + 96)

static const uint32_t P[HULWYTH_RECORD_WIDTH * RECORDS] = {1, 0, 2, 4, 2, 3, 5, 4, 3, 0, 6, 12};

/* A tree, as cells and packed words, and the number of its types. No id of it is a repeat id. */
struct tree {
    uint32_t types;
    uint32_t cells[HULWYTH_CELL_WIDTH * CELLS];
    uint16_t words[WORDS];
    size_t cell_count, word_count;
};

/* Prints what a call answered that tells so many counts; whether it was accepted. */
static int accepted_with(const char *call, uint32_t number, const uint32_t *info, size_t counts)
{
    printf("%s: %" PRIu32 ", place %" PRIu32 ", counts", call, number, info[0]);
    for (size_t i = 1; i <= counts; i++)
        printf(" %" PRIu32, info[i]);
    printf("\n");
    return number == 0;
}

/* The same of a call that tells two, as all but the part check do. */
static int accepted(const char *call, uint32_t number, const uint32_t info[3])
{
    return accepted_with(call, number, info, 2);
}

/* Prints so many rows of words. */
static void print_rows(const uint32_t *words, size_t rows, size_t width)
{
    for (size_t i = 0; i < rows * width; i++)
        printf("%s%" PRIu32 "%s", i % width == 0 ? "  " : " ", words[i], i % width == width - 1 ? "\n" : "");
}

/* Prints the records of a packed part. */
static void print_part(const uint16_t *words, size_t count)
{
    for (size_t i = 0; i + HULWYTH_RECORD_WIDTH <= count; i += HULWYTH_RECORD_WIDTH)
        printf("  %" PRIu16 " %" PRIu16 " %" PRIu16 " %" PRIu16 "\n", words[i], words[i + 1], words[i + 2], words[i + 3]);
}

static int check(size_t held_back)
{
    uint32_t work[WORK(RECORDS)], info[3];
    size_t lent = WORK(RECORDS) - held_back;
    uint32_t number = hulwyth_check(TYPES, FIRST_REPEAT, BOUND, START, TOP, P, HULWYTH_RECORD_WIDTH * RECORDS, work, lent, info, 3);
    return accepted("check", number, info);
}

static int build(struct tree *tree, size_t held_back)
{
    uint32_t work[WORK(RECORDS)], info[3];
    size_t lent = WORK(RECORDS) - held_back;
    uint32_t number = hulwyth_build(TYPES, FIRST_REPEAT, BOUND, START, TOP, 0, 0, P, HULWYTH_RECORD_WIDTH * RECORDS, work, lent,
                                    tree->cells, HULWYTH_CELL_WIDTH * CELLS, tree->words, WORDS, info, 3);
    if (!accepted("build", number, info))
        return 0;
    tree->types = TYPES;
    tree->cell_count = info[1];
    tree->word_count = info[2];
    print_rows(tree->cells, tree->cell_count, HULWYTH_CELL_WIDTH);
    print_part(tree->words, tree->word_count);
    return 1;
}

/* Materialising writes no packed words. */
static int materialise(const struct tree *tree, struct tree *made, size_t held_back)
{
    uint32_t work[WORK(CELLS + RECORDS)], info[3];
    size_t lent = WORK(tree->cell_count + tree->word_count / HULWYTH_RECORD_WIDTH) - held_back;
    uint32_t number = hulwyth_materialise(tree->types, tree->cells, HULWYTH_CELL_WIDTH * tree->cell_count, tree->words,
                                          tree->word_count, work, lent, made->cells, HULWYTH_CELL_WIDTH * CELLS, info, 3);
    if (!accepted("materialise", number, info))
        return 0;
    made->types = tree->types;
    made->cell_count = info[1];
    made->word_count = 0;
    print_rows(made->cells, made->cell_count, HULWYTH_CELL_WIDTH);
    return 1;
}

static int list(const struct tree *tree, uint32_t start, size_t held_back)
{
    uint32_t work[WORK(CELLS + RECORDS)], lines[HULWYTH_LINE_WIDTH * (CELLS + RECORDS)], info[3];
    size_t lent = WORK(tree->cell_count + tree->word_count / HULWYTH_RECORD_WIDTH) - held_back;
    uint32_t number = hulwyth_list(tree->types, tree->types, start, tree->cells, HULWYTH_CELL_WIDTH * tree->cell_count, tree->words,
                                   tree->word_count, work, lent, lines, HULWYTH_LINE_WIDTH * (CELLS + RECORDS), info, 3);
    if (!accepted("list", number, info))
        return 0;
    print_rows(lines, info[1], HULWYTH_LINE_WIDTH);
    return 1;
}

/* One more cell. */
static void put(struct tree *tree, uint32_t kind, uint32_t id, uint32_t position, uint32_t length, uint32_t first, uint32_t count,
                uint32_t next)
{
    const uint32_t cell[HULWYTH_CELL_WIDTH] = {kind, id, position, length, first, count, next};
    memcpy(tree->cells + HULWYTH_CELL_WIDTH * tree->cell_count, cell, sizeof cell);
    tree->cell_count++;
}

/* So many leaves of length 1, side by side from 0 on; `more`: a sibling follows the last of them. */
static void put_leaves(struct tree *tree, uint32_t kind, uint32_t leaves, int more)
{
    for (uint32_t i = 0; i < leaves; i++)
        put(tree, kind, kind == 1, i, 1, 0, 0, i + 1 < leaves || more ? (uint32_t)tree->cell_count + 2 : 0);
}

/* A top with so many leaves. */
static void leaves(struct tree *tree, uint32_t count)
{
    tree->types = TYPES;
    tree->cell_count = tree->word_count = 0;
    put(tree, 1, TOP, 0, count, 2, count, 0);
    put_leaves(tree, 1, count, 0);
}

/* A top of id 1 with eight leaves of id 1 and, as its ninth child, a tree of kind 1 with id 0 that holds three leaves of kind 3. */
static void nine(struct tree *tree)
{
    tree->types = 2;
    tree->cell_count = tree->word_count = 0;
    put(tree, 1, 1, 0, NINE - 1 + HELD, 2, NINE, 0);
    put_leaves(tree, 1, NINE - 1, 1);
    put(tree, 1, 0, NINE - 1, HELD, NINE + 2, HELD, 0);
    put_leaves(tree, 3, HELD, 0);
}

/* Balances a tree without packed words, with none in place 0 of the node set or without it. */
static int balance(const struct tree *tree, uint32_t none_first, struct tree *made, size_t held_back)
{
    uint32_t work[WORK(CELLS)], info[3];
    size_t lent = WORK(tree->cell_count) - held_back;
    uint32_t number = hulwyth_balance(tree->types, none_first, tree->cells, HULWYTH_CELL_WIDTH * tree->cell_count, NULL, 0, work,
                                      lent, made->cells, HULWYTH_CELL_WIDTH * CELLS, NULL, 0, info, 3);
    if (!accepted("balance", number, info))
        return 0;
    made->types = tree->types;
    made->cell_count = info[1];
    made->word_count = 0;
    printf("  %" PRIu32 " children became %" PRIu32 "\n", tree->cells[HULWYTH_COUNT], made->cells[HULWYTH_COUNT]);
    return 1;
}

/* Balances, materialises and lists the nine children. With none in place 0 the ninth is divided, and its line goes. */
static int balance_nine(uint32_t none_first, size_t held_back)
{
    struct tree tree, balanced, made;
    nine(&tree);
    return balance(&tree, none_first, &balanced, held_back) && materialise(&balanced, &made, held_back)
           && list(&made, START, held_back);
}

static int balance_leaves(uint32_t count, size_t held_back)
{
    struct tree tree, made;
    leaves(&tree, count);
    return balance(&tree, 0, &made, held_back);
}

/* Its counts are the records, the greatest end and the deepest nesting. */
static int part_check(uint32_t types, const uint16_t *words, size_t count)
{
    uint32_t info[4];
    uint32_t number = hulwyth_part_check(types, words, count, info, 4);
    return accepted_with("part check", number, info, 3);
}

/* The built part, one whose greatest end is that of a record inside another, the same where its ids are too high, and no words. */
static int part_checks(const struct tree *tree)
{
    static const uint16_t inside[2 * HULWYTH_RECORD_WIDTH] = {1, 0, 2, 8, 1, 0, 9, 8};
    return part_check(TYPES, tree->words, tree->word_count) && part_check(2, inside, 2 * HULWYTH_RECORD_WIDTH)
           && !part_check(1, inside, 2 * HULWYTH_RECORD_WIDTH) && part_check(TYPES, NULL, 0);
}

/* A refused slice does not stop the program: two of document 01's examples are refused. */
static void part_slice(const struct tree *tree, size_t from, size_t to, uint32_t base)
{
    uint16_t out[WORDS];
    uint32_t info[3];
    uint32_t number = hulwyth_part_slice(TYPES, from, to, base, tree->words, tree->word_count, out, WORDS, info, 3);
    if (accepted("part slice", number, info))
        print_part(out, info[1]);
}

/* Searches the two records under the first one, forward, for one around a position. */
static int part_search(const struct tree *tree, uint32_t position)
{
    uint32_t info[3];
    uint32_t number = hulwyth_part_search(TYPES, 4, 12, 1, position, START, 0, tree->words, tree->word_count, info, 3);
    return accepted("part search", number, info);
}

int main(int argc, char **argv)
{
    struct tree tree, made;
    size_t held_back = argc > 1 && strcmp(argv[1], "short") == 0;

    if (!check(held_back) || !build(&tree, held_back) || !list(&tree, START, held_back))
        return 1;
    if (!materialise(&tree, &made, held_back) || !list(&made, START, held_back))
        return 1;
    /* From this start the part, cell 2, ends at the last position; from the next one it is refused. */
    uint32_t last = UINT32_MAX - tree.cells[HULWYTH_CELL_WIDTH + HULWYTH_LENGTH];
    if (!list(&tree, last, held_back) || list(&tree, last + 1, held_back))
        return 1;
    if (!balance_leaves(LEAVES - 1, held_back) || !balance_leaves(LEAVES, held_back))
        return 1;
    if (!balance_nine(0, held_back) || !balance_nine(1, held_back) || !part_checks(&tree))
        return 1;
    part_slice(&tree, 4, 12, 0);
    part_slice(&tree, 0, 8, 0);
    part_slice(&tree, 4, 12, 1);
    return part_search(&tree, 4) && part_search(&tree, 2) ? 0 : 1;
}
