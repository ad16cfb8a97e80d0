/* The soak: compares the proved calls with plain.c as differential.c does, on as many books as it is asked for, with more lists of calls on each.
     soak [-s SEED] [-n BOOKS]
   Prints 'N passed, M failed', a count of books, and figures, a line each: accepted books by size and by verdict, refused ones by number, steps of accepted
   books, lists of calls by how many steps the gate came to keep, calls by kind and answer, take-backs, altered records, answers of the arc test, accepted
   books by their islands, and the processor time. It fails where one of the counts is 0, unless there are fewer books than by default. */
#include "compare.h"
#include <stdio.h>
#include <time.h>

enum { BOOKS = 20000, SEED = 20261120 };
enum { EACH = 100 }; /* books from one seed, so that few come before one that failed when it is drawn again */

static long books_by_steps[DECK_STEPS + 1]; /* accepted ones */

enum { ALL, TRANSFERS, HOMING, SORTS };

static book_count steps[SORTS] = {
    [ALL] = {"steps in accepted books", 0},
    [TRANSFERS] = {"  transfers", 0},
    [HOMING] = {"  with a touch that homes", 0},
};

static void compare(source *s, const uint8_t *book, size_t len) {
    plain_book b;
    plain_refusal r = plain_read(book, len, &b);
    if (!r.number) {
        books_by_steps[b.steps]++;
        steps[ALL].books += b.steps;
        steps[TRANSFERS].books += plain_count(&b, plain_is_transfer);
        steps[HOMING].books += plain_count(&b, plain_homes);
    }
    compare_book(s, book, len, &b, r);
}

static long sum_of(const long *counts, int least, int most) {
    long sum = 0;
    for (int n = least; n <= most; n++)
        sum += counts[n];
    return sum;
}

/* Prints the sum of counts, which are by a number of steps, and below it those of groups. */
static int print_by_steps(const char *text, const char *group_text, const long *counts) {
    static const struct {
        const char *text;
        int least, most;
    } groups[] = {{"no step", 0, 0}, {"1 to 8 steps", 1, 8}, {"9 to 32 steps", 9, 32}, {"33 to 127 steps", 33, 127}, {"128 steps", 128, 128}};
    int status = print_count(text, sum_of(counts, 0, DECK_STEPS));
    for (size_t i = 0; i < sizeof groups / sizeof *groups; i++) {
        char label[80];
        snprintf(label, sizeof label, "  %s %s", group_text, groups[i].text);
        status |= print_count(label, sum_of(counts, groups[i].least, groups[i].most));
    }
    return status;
}

/* Prints the calls to gates by kind and answer, but for refused take-backs, which print_take_backs prints. */
static int print_calls(void) {
    static const struct {
        const char *text;
        call_kind kind;
        int number; /* of the refusal; 0: none */
    } answers[] = {
        {"steps admitted", CALL_STEP, 0},
        {"steps refused by 20", CALL_STEP, DECK_GATE_NOT_DECLARED},
        {"steps refused by 21", CALL_STEP, DECK_GATE_WITHDRAWN},
        {"steps refused by 22", CALL_STEP, DECK_GATE_ALL_KEPT},
        {"steps refused by 23", CALL_STEP, DECK_GATE_TANGLED},
        {"withdrawals carried out", CALL_WITHDRAW, 0},
        {"withdrawals refused by 20", CALL_WITHDRAW, DECK_GATE_NOT_DECLARED},
        {"withdrawals refused by 21", CALL_WITHDRAW, DECK_GATE_WITHDRAWN},
        {"withdrawals refused by 22", CALL_WITHDRAW, DECK_GATE_ALL_KEPT},
        {"take-backs carried out", CALL_TAKE_BACK, 0},
    };
    int status = 0;
    for (size_t i = 0; i < sizeof answers / sizeof *answers; i++)
        status |= print_count(answers[i].text, call_counts[answers[i].kind][answers[i].number]);
    return status;
}

int main(int argc, char **argv) {
    selection chosen = by_default(SEED, BOOKS);
    chosen.each = EACH;
    read_options(argc, argv, "", 0, 0, &chosen);
    soaking = 1;
    test_grouped_books(&chosen, compare_islands_alone);
    int status = test_books(&chosen, compare);
    status |= print_by_steps("accepted books", "of", books_by_steps);
    status |= print_count("  passed", verdicts[1]);
    status |= print_count("  tangled", verdicts[0]);
    status |= print_count("refused books", sum_of(books_by_number, 1, UINT8_MAX));
    status |= print_refused_books();
    status |= print_counts(steps, SORTS);
    status |= print_by_steps("lists of calls", "in which the gate came to keep", call_lists);
    status |= print_calls();
    status |= print_count("transfers among the admitted steps", admitted_transfers);
    status |= print_count("steps with a touch that homes among the admitted steps", admitted_homing);
    status |= print_take_backs();
    status |= print_count("altered records, sound", altered_records[1]);
    status |= print_count("altered records, not sound", altered_records[0]);
    status |= print_arc_answers();
    status |= print_islands();
    printf("seconds of processor time: %ld\n", (long)(clock() / CLOCKS_PER_SEC));
    return status;
}
