/* What compare.c counts, and the lines that say it. */
#include "figures.h"
#include "books.h"
#include <stdio.h>

long books_by_number[UINT8_MAX + 1], verdicts[2];
long call_lists[DECK_STEPS + 1], call_counts[CALL_KINDS][UINT8_MAX + 1], admitted_transfers, admitted_homing, take_backs[BACK_COUNTS];
long altered_records[2], arc_answers[ARC_SUMS];
long island_books[ISLANDS_COUNTS], judged_islands[2], no_islands[2];

/* Prints the count of each number in the list, behind a text and with another behind it. */
static int print_numbered(const char *before, const char *behind, const long *counts, const uint8_t *numbers, size_t n) {
    int status = 0;
    for (size_t i = 0; i < n; i++) {
        char text[64];
        snprintf(text, sizeof text, "%s %d%s", before, numbers[i], behind);
        status |= print_count(text, counts[numbers[i]]);
    }
    return status;
}

int print_refused_books(void) {
    static const uint8_t numbers[] = {1, 2, 3, 4, 5, 6, 7, 8, 9, 10, 11, 30, 31}; /* of a book's refusals */
    return print_numbered("books refused by", "", books_by_number, numbers, sizeof numbers);
}

int print_take_backs(void) {
    static const char *const texts[BACK_COUNTS] = {
        [BACK_WITHDRAWN] = "take-backs of a withdrawn run with kept steps",
        [BACK_COMPLETE] = "take-backs of a complete run with kept steps",
        [BACK_OPEN] = "take-backs of an open run with kept steps",
        [BACK_NONE_KEPT] = "take-backs of a run with no step kept",
        [BACK_NOT_DECLARED] = "take-backs refused by 20",
        [BACK_AGAIN] = "take-backs refused by 32",
        [BACK_ADMITTED] = "steps refused as tangled, admitted behind a take-back",
    };
    int status = 0;
    for (int k = 0; k < BACK_COUNTS; k++)
        status |= print_count(texts[k], take_backs[k]);
    return status;
}

int print_arc_answers(void) {
    /* the sums of arcs from one place to another: an I arc joins steps of one run, the others steps of two */
    static const uint8_t sums[] = {
        0,
        DECK_ARC_I,
        DECK_ARC_D,
        DECK_ARC_F,
        DECK_ARC_B,
        DECK_ARC_D + DECK_ARC_F,
        DECK_ARC_D + DECK_ARC_B,
        DECK_ARC_F + DECK_ARC_B,
        DECK_ARC_D + DECK_ARC_F + DECK_ARC_B,
    };
    return print_numbered("answers", " of the arc test", arc_answers, sums, sizeof sums);
}

int print_islands(void) {
    static const char *const texts[ISLANDS_COUNTS] = {
        [ISLANDS_NONE] = "accepted books without a run",
        [ISLANDS_ONE] = "accepted books with one island",
        [ISLANDS_MORE] = "accepted books with several islands",
        [ISLANDS_PASSED] = "  each of them passed",
        [ISLANDS_ONE_TANGLED] = "  one of them tangled",
        [ISLANDS_MORE_TANGLED] = "  two or more of them tangled",
        [ISLANDS_BOTH] = "  one of them tangled, and one of two runs or more passed",
        [ISLANDS_LINKED] = "accepted books with two runs linked but not joined",
        [ISLANDS_LARGER] = "accepted books with a run joined to larger ones alone that is not the smallest of its island",
        [ISLANDS_UNDONE] = "accepted books with runs of two islands that would be joined if all steps were done",
    };
    int status = 0;
    for (int k = 0; k < ISLANDS_COUNTS; k++)
        status |= print_count(texts[k], island_books[k]);
    status |= print_count("islands passed", judged_islands[1]);
    status |= print_count("islands tangled", judged_islands[0]);
    status |= print_count("runs refused by 27: not declared", no_islands[0]);
    return status | print_count("runs refused by 27: in an island with a smaller one", no_islands[1]);
}
