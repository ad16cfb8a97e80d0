/* Compares the proved calls with plain.c on many books from a seed, whole and damaged, and on gates' records, as the calls leave them and altered, and
   checks the evidence of each verdict.
     differential [-s SEED] [-n BOOKS]
   Prints 'N passed, M failed', a count of books, and how many altered records there were of each sort, how many take-backs of each sort, how many steps
   tangled before a take-back and admitted behind it, how many answers of the arc test of each sum, how many books by their islands, how many books with a
   transfer, accepted or refused at it, and how many books refused by each number. It fails where one of these counts is 0, unless there are fewer books
   than by default. */
#include "compare.h"
#include <stdio.h>

enum { BOOKS = 6000, SEED = 20261115 };

enum { TRANSFER, EQUAL, CUT_SHORT, NO_RUN, LATE, FIRST_KIND, SECOND_KIND, RUN_STEP, STEP, COUNTS };

static book_count transfers[COUNTS] = {
    [TRANSFER] = {"accepted books with a transfer", 0},
    [EQUAL] = {"  one with equal touches", 0},
    [CUT_SHORT] = {"refused at a 54: cut short", 0},
    [NO_RUN] = {"refused at a 54: before any 52", 0},
    [LATE] = {"refused at a 54: after a later group", 0},
    [FIRST_KIND] = {"refused at a 54: its first kind", 0},
    [SECOND_KIND] = {"refused at a 54: its second kind alone", 0},
    [RUN_STEP] = {"refused at a 54: 33rd step of a run", 0},
    [STEP] = {"refused at a 54: 129th step of the book", 0},
};

/* Why the book so far does not take a 54, whose bytes these are; one of the numbers of its refusal. */
static int fault_of(const uint8_t *command, const plain_book *b, int number) {
    switch (number) {
    case DECK_ENDS_EARLY:
        return CUT_SHORT;
    case DECK_OUT_OF_ORDER:
        return b->runs ? LATE : NO_RUN;
    case DECK_WRONG_KIND:
        return command[1] >= DECK_KINDS ? FIRST_KIND : SECOND_KIND;
    case DECK_RUN_TOO_LONG:
        return RUN_STEP;
    default:
        return STEP;
    }
}

static int has_equal_touches(const step_record *step) {
    const plain_touch *t = step->touch;
    return plain_is_transfer(step) && t[0].kind == t[1].kind && t[0].position == t[1].position;
}

static void compare(source *s, const uint8_t *book, size_t len) {
    plain_book b;
    plain_refusal r = plain_read(book, len, &b);
    int at_command = r.number && r.number != DECK_BOOK_TOO_LONG && r.number != DECK_BYTES_AFTER_END && r.place < len;
    if (at_command && book[r.place] == 0x54)
        transfers[fault_of(book + r.place, &b, r.number)].books++;
    transfers[TRANSFER].books += !r.number && plain_count(&b, plain_is_transfer);
    transfers[EQUAL].books += !r.number && plain_count(&b, has_equal_touches);
    compare_book(s, book, len, &b, r);
}

int main(int argc, char **argv) {
    selection chosen = by_default(SEED, BOOKS);
    read_options(argc, argv, "", 0, 0, &chosen);
    test_grouped_books(&chosen, compare_islands_alone);
    int status = test_books(&chosen, compare);
    printf("altered records: %ld not sound, %ld sound\n", altered_records[0], altered_records[1]);
    status |= none(altered_records[0], "altered records", "with one that is not sound");
    status |= none(altered_records[1], "altered records", "with a sound one");
    status |= print_take_backs();
    status |= print_arc_answers();
    status |= print_islands();
    status |= print_counts(transfers, COUNTS);
    return status | print_refused_books();
}
