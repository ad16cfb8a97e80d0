/* Compares the proved calls with plain.c on the books in the files that are given, of raw bytes, and on many books from a seed, whole, damaged and over
   the limits: an accepted book without a homing step and without a transfer with plain.c as it was before both, by document 01's own rules, any other with
   plain.c as it is.
     homing [-s SEED] [-n BOOKS] FILE..
   Prints 'N passed, M failed', a count of books, and how many accepted books there were of the first sort, how many of them with a step at 65534, how many
   with a homing step and without a transfer, and for how many of these an answer is another than before homing. It fails where one of these counts is 0,
   unless there are fewer books from the seed than by default. */
#include "compare.h"

enum { BOOKS = 8000, SEED = 20261118 };

enum { WITHOUT, NEAR, WITH, COUNTS };

static book_count counts[COUNTS] = {
    [WITHOUT] = {"accepted books without a homing step and without a transfer", 0},
    [NEAR] = {"  with a step at position 65534", 0},
    [WITH] = {"accepted books with a homing step and without a transfer, beside what they gave before homing", 0},
};

/* Whether a single step is at the position before that of a homing one. */
static int is_near(const step_record *step) { return step->touch[0].position == DECK_HOME - 1; }

static void compare(source *s, const uint8_t *book, size_t len) {
    plain_book b, before;
    plain_refusal r = plain_read(book, len, &b), singles = plain_read_singles(book, len, &before);
    int transfer = singles.number != r.number || singles.place != r.place, homing = plain_count(&b, plain_homes) > 0;
    before.home = -1;
    compare_book(s, book, len, transfer || homing ? &b : &before, r);
    if (r.number || transfer)
        return;
    if (homing) {
        count_differences(&b, &before);
        counts[WITH].books++;
    } else {
        counts[WITHOUT].books++;
        counts[NEAR].books += plain_count(&b, is_near) > 0;
    }
}

int main(int argc, char **argv) { return test_rules(argc, argv, by_default(SEED, BOOKS), compare, counts, COUNTS); }
