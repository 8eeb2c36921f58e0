/* Decides a rule, runs a row forwards, and runs it back by the way back that was told. Of another rule, finds two rows that
 * differ at finitely many places and have one next row. */
#include "undone.h"
#include <stdio.h>
#include <string.h>

static uint32_t work[UNDONE_WORK];
static uint32_t out[UNDONE_ROWS];

static void print_cells(const char *name, const uint32_t *cells, size_t n) {
    printf("%s ", name);
    for (size_t i = 0; i < n; i++) {
        printf("%x", cells[i]);
    }
    printf("\n");
}

/* Of two kinds, the smaller of two neighbours. */
static int show_twins(void) {
    const uint32_t table[4] = {0, 0, 0, 1};
    struct undone_twins told = undone_finite(2, 2, table, 4, out, UNDONE_FINITE_ROWS, work, UNDONE_FINITE_WORK);
    if (told.answer != UNDONE_FINITE_TWINS) {
        fprintf(stderr, "expected two rows, and found answer %u\n", told.answer);
        return 1;
    }
    size_t cells = told.left + told.middle + told.right;
    print_cells("one  ", out, cells);
    print_cells("other", out + cells, cells);
    return 0;
}

int main(void) {
    /* Four kinds of two bits: the lower comes from the right neighbour. */
    const uint32_t table[16] = {0, 1, 0, 1, 0, 1, 0, 1, 2, 3, 2, 3, 2, 3, 2, 3};
    uint32_t row[12] = {0, 1, 2, 3, 3, 2, 1, 0, 0, 2, 1, 3};
    uint32_t spare[12];
    uint32_t start[12];
    memcpy(start, row, sizeof row);

    struct undone_decision told = undone_decide(4, 2, table, 16, out, UNDONE_ROWS, work, UNDONE_WORK);
    if (told.answer != UNDONE_UNDONE) {
        fprintf(stderr, "expected a way back, and found answer %u\n", told.answer);
        return 1;
    }
    printf("undone, width %u, place %u\n", told.width, told.place);

    print_cells("row  ", row, 12);
    if (undone_steps(4, 2, table, 16, 0, 2, row, 12, spare, 12) != UNDONE_IN_ROW) {
        fprintf(stderr, "the row was not run\n");
        return 1;
    }
    print_cells("later", row, 12);
    if (undone_steps(4, told.width, out, 16, told.place, 2, row, 12, spare, 12) != UNDONE_IN_ROW) {
        fprintf(stderr, "the row was not run back\n");
        return 1;
    }
    print_cells("again", row, 12);
    return memcmp(row, start, sizeof row) == 0 ? show_twins() : 1;
}
