/* Whether a rule on rows of cells can be run backwards, rows that it makes one, and rows in a ring.
 *
 * Link with libcapi.a, which `rt lib` in crates/capi proves and writes to crates/capi/out. Every value is looked at and
 * refused where it does not fit; a pointer has to be good for as many elements as the number behind it says, and what is
 * written through one must not overlap what another points to. Nothing is allocated or kept.
 *
 * A rule has `kinds` kinds of cells, numbered from 0, at least 2, and looks at `width` cells, at least 2, with at most 16
 * blocks of width - 1 cells. `table` has a cell for each window, in order of the window's digits, the first the highest. */
#ifndef UNDONE_H
#define UNDONE_H

#include <stddef.h>
#include <stdint.h>

#ifdef __cplusplus
extern "C" {
#endif

/* Words of work that undone_decide wants, and cells of out that twins want. */
#define UNDONE_WORK 524288
#define UNDONE_ROWS 4096

enum undone_answer {
    UNDONE_NO_RULE = 0,
    UNDONE_UNDONE = 1,      /* out begins with the table of the way back: kinds to the `width` cells, told at `place` */
    UNDONE_ORPHAN = 2,      /* out begins with the shortest piece that no row leads to: `orphan` cells */
    UNDONE_TWINS = 3,       /* out begins with two rows of one next row: left, middle and right of each */
    UNDONE_UNDONE_FULL = 4, /* the same answers, where out has too few cells; nothing is written */
    UNDONE_ORPHAN_FULL = 5,
    UNDONE_TWINS_FULL = 6,
    UNDONE_FEW = 7          /* fewer words of work than UNDONE_WORK */
};

/* What does not belong to the answer is 0. */
struct undone_decision {
    uint32_t answer;
    uint32_t width;
    uint32_t place;
    size_t orphan;
    size_t left;
    size_t middle;
    size_t right;
};

struct undone_decision undone_decide(uint32_t kinds, uint32_t width, const uint32_t *table, size_t table_cells,
                                     uint32_t *out, size_t out_cells, uint32_t *work, size_t work_words);

/* Words of work that undone_finite wants, and cells of out that always suffice for it. */
#define UNDONE_FINITE_WORK 4096
#define UNDONE_FINITE_ROWS 1024

enum undone_finite_answer {
    UNDONE_FINITE_NO_RULE = 0,
    UNDONE_FINITE_TWINS = 1, /* out begins with the two rows: left, middle and right of the one, then of the other */
    UNDONE_FINITE_NONE = 2,  /* there are no such rows; nothing is written */
    UNDONE_FINITE_FULL = 3,  /* there are, and they want `wanted` cells of out, which has fewer; nothing is written */
    UNDONE_FINITE_FEW = 4    /* fewer words of work than UNDONE_FINITE_WORK */
};

/* What does not belong to the answer is 0. */
struct undone_twins {
    uint32_t answer;
    size_t left;
    size_t middle;
    size_t right;
    size_t wanted;
};

/* Finds two endless rows that differ at finitely many places and have one next row, or tells that there are none: there
 * are exactly if the rule has an orphan. Each row has its left again and again to the left of its middle, and its right again
 * and again to the right. Both have the same left and the same right, and no such rows have shorter middles, whatever stands
 * on their sides. */
struct undone_twins undone_finite(uint32_t kinds, uint32_t width, const uint32_t *table, size_t table_cells,
                                  uint32_t *out, size_t out_cells, uint32_t *work, size_t work_words);

enum undone_steps_answer {
    UNDONE_IN_ROW = 0,   /* the last row stands in row */
    UNDONE_IN_SPARE = 1, /* the last row stands in spare */
    UNDONE_NO_TABLE = 2, /* the table does not fit; nothing is written */
    UNDONE_NO_RING = 3   /* the row has no cell, or one of no kind, or spare is not as long; nothing is written */
};

/* Runs a rule (place 0), or a way back (its place), for so many seconds on a row in a ring. A way back may have any width
 * from 1 on, and at most 262144 windows. */
uint32_t undone_steps(uint32_t kinds, uint32_t width, const uint32_t *table, size_t table_cells, size_t place,
                      uint64_t seconds, uint32_t *row, size_t row_cells, uint32_t *spare, size_t spare_cells);

#ifdef __cplusplus
}
#endif

#endif
