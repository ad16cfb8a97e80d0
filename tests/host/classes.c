/* Asks the proved calls which of five classes a history is in, on many books from a seed, whole, damaged and over the limits, and on each accepted one
   under other cuts, and checks that the classes are nested.
     classes [-s SEED] [-n BOOKS]
   Prints 'N passed, M failed', a count of books from the seed; of those in whose history two runs at least have a done step, for each inclusion how many
   are in both classes and how many in the larger alone, and how many are tangled. It fails where one of these counts is 0, unless there are fewer books
   than by default. */
#include "books.h"
#include "plain.h"
#include <stdio.h>

enum { BOOKS = 6000, SEED = 20261117 };
enum { DRAWN = 3 }; /* books with drawn cuts, for each accepted book */

/* The longest book has all pairs, all runs, all steps in as few of them as hold them, each a transfer, every cut, and all steps done. It is no longer
   than a book may be, so a book with every cut is never refused by 1. */
_Static_assert(3 * DECK_KINDS * (DECK_KINDS + 1) / 2 + 2 * DECK_RUNS + 7 * DECK_STEPS +
                   4 * (DECK_STEPS - DECK_STEPS / DECK_RUN_STEPS) * (DECK_RUNS - 1) + 2 * DECK_STEPS + 1 <= DECK_BOOK,
               "the longest book");

enum { SERIAL, ATOMIC, RELSERIAL, CONFLICT, PASSED, CLASSES };

/* The judge as a class test: its value is the verdict, of which passed is 1. */
static deck_answer verdict(const uint8_t *book, size_t book_len) {
    uint8_t order[DECK_BUFFER], cycle[DECK_BUFFER];
    deck_judgement j = deck_judge(book, book_len, order, sizeof order, cycle, sizeof cycle);
    return (deck_answer){j.number, j.place, j.verdict};
}

static const struct {
    deck_answer (*test)(const uint8_t *book, size_t book_len);
    uint64_t outside; /* its value on an accepted book whose history is not in the class */
} classes[CLASSES] = {
    [SERIAL] = {deck_serial, 0},
    [ATOMIC] = {deck_atomic, 0},
    [RELSERIAL] = {deck_relserial, 0},
    [CONFLICT] = {deck_conflict, 0},
    [PASSED] = {verdict, DECK_TANGLED},
};

/* The inclusions, with counts of books from the seed. */
static struct {
    int small, large;
    const char *text;
    long both, large_alone;
} inclusions[] = {
    {SERIAL, ATOMIC, "every serial history is relatively atomic", 0, 0},
    {ATOMIC, RELSERIAL, "every relatively atomic history is relatively serial", 0, 0},
    {RELSERIAL, PASSED, "every relatively serial history is passed", 0, 0},
    {SERIAL, CONFLICT, "every serial history is conflict serializable", 0, 0},
    {CONFLICT, PASSED, "every conflict serializable history is passed", 0, 0},
};
enum { INCLUSIONS = sizeof inclusions / sizeof *inclusions };

static long tangled;

/* Whether a book's history is in each class; a refused book's is in none. */
typedef struct {
    int in[CLASSES];
} membership;

/* Asks of a book that is refused so, or accepted; checks the answers and the inclusions. */
static membership ask(const uint8_t *book, size_t len, plain_refusal r) {
    membership m;
    for (int c = 0; c < CLASSES; c++) {
        deck_answer a = classes[c].test(book, len);
        expect(a.number == (uint64_t)r.number && a.place == r.place, "number and place");
        expect(r.number ? a.value == 0 : a.value == 1 || a.value == classes[c].outside, "value or verdict");
        m.in[c] = a.value == 1;
    }
    for (int i = 0; i < INCLUSIONS; i++)
        expect(!m.in[inclusions[i].small] || m.in[inclusions[i].large], inclusions[i].text);
    return m;
}

/* Counts an accepted book in whose history at least two runs have a done step; any other is in all classes. */
static void count(membership m, const plain_book *b) {
    if (b->done[b->history[0]] == b->n)
        return;
    for (int i = 0; i < INCLUSIONS; i++) {
        int small = m.in[inclusions[i].small], large = m.in[inclusions[i].large];
        inclusions[i].both += small && large;
        inclusions[i].large_alone += !small && large;
    }
    tangled += !m.in[PASSED];
}

/* Gives a book other cuts: each possible one with a chance of so many percent. */
static void draw_cuts(source *s, unsigned percent, plain_book *b) {
    for (int r = 0; r < b->runs; r++)
        for (int j = 1; j < b->length[r]; j++)
            for (int o = 0; o < b->runs; o++)
                b->cut[r][j][o] = o != r && below(s, 100) < percent;
}

/* Asks of the book, and where it is accepted of books that differ from it in their cuts alone: without cuts, with every cut, and with drawn cuts. */
static void check(source *s, const uint8_t *book, size_t len) {
    static uint8_t other[BOOK_ROOM];
    plain_book b;
    plain_refusal r = plain_read(book, len, &b);
    membership first = ask(book, len, r);
    if (r.number)
        return;
    count(first, &b);
    for (unsigned k = 0; k < 2 + DRAWN; k++) {
        unsigned percent = k < 2 ? 100 * k : 1 + below(s, 99);
        draw_cuts(s, percent, &b);
        membership m = ask(other, plain_write(&b, other), r);
        expect(m.in[SERIAL] == first.in[SERIAL] && m.in[CONFLICT] == first.in[CONFLICT], "serial and conflict serializable as under the first cuts");
        expect(!first.in[CONFLICT] || m.in[PASSED], "every conflict serializable history is passed under any cuts");
        expect(percent > 0 || m.in[PASSED] == m.in[CONFLICT], "without cuts a history is passed exactly if it is conflict serializable");
        expect(percent < 100 || m.in[ATOMIC], "with every cut a history is relatively atomic");
    }
}

int main(int argc, char **argv) {
    selection chosen = by_default(SEED, BOOKS);
    read_options(argc, argv, "", 0, 0, &chosen);
    int status = test_books(&chosen, check);
    for (int i = 0; i < INCLUSIONS; i++) {
        const char *text = inclusions[i].text;
        long both = inclusions[i].both, large_alone = inclusions[i].large_alone;
        printf("%s: %ld in both classes, %ld in the larger alone\n", text, both, large_alone);
        status |= none(both, text, "in both classes") | none(large_alone, text, "in the larger class alone");
    }
    printf("tangled: %ld\n", tangled);
    return status | none(tangled, "tangled", "at all");
}
