/* Times the proved reader and judge against plain.c, on the same full books in the same run, the gate's 128th step, at 127 kept steps, and a take-back at
   128 kept steps against a judge call on the same book, a take-back at 127 against a withdrawal of the same run (at 128 it is refused by 22), reader and
   judge on books of transfers against themselves on the same books of single steps, which have the first touches alone, finding islands against a judge
   call, and the judge island by island, on books of 8 islands of two runs each, against a judge call on the whole book (in all but the first both are
   proved); prints the ratios. Reader and judge read the book's bytes each time; finding islands is what listing them takes beyond reading the book; the
   judge island by island lists the islands and judges each. The gate's time includes a copy of its record and the test that it is sound. All are built
   with -O3; no buffer is cleared beforehand. */
#include "books.h"
#include "plain.h"
#include <stdio.h>
#include <time.h>

enum { BOOKS = 24, REPEATS = 60 };

static uint8_t books[BOOKS][BOOK_ROOM], singles[BOOKS][BOOK_ROOM]; /* the same with single steps */
static size_t lengths[BOOKS], singles_lengths[BOOKS];
static deck_gate gates[BOOKS], full_gates[BOOKS]; /* which keep all steps of the history but the last, and all */
static volatile uint64_t sink;

static double now(void) {
    struct timespec t;
    clock_gettime(CLOCK_MONOTONIC, &t);
    return (double)t.tv_sec * 1e6 + (double)t.tv_nsec / 1e3;
}

/* Each of these makes one call on book j. */
static void proved_read(int j) { sink += deck_read(books[j], lengths[j]).value; }

static void plain_reads(int j) {
    plain_book b;
    plain_read(books[j], lengths[j], &b);
    sink += (uint64_t)b.n;
}

static void judge(const uint8_t *book, size_t len) {
    uint8_t order[DECK_BUFFER], cycle[DECK_BUFFER];
    sink += deck_judge(book, len, order, sizeof order, cycle, sizeof cycle).count;
}

static void proved_judge(int j) { judge(books[j], lengths[j]); }
static void proved_judge_singles(int j) { judge(singles[j], singles_lengths[j]); }
static void proved_read_singles(int j) { sink += deck_read(singles[j], singles_lengths[j]).value; }

static void proved_islands(int j) { sink += deck_islands(books[j], lengths[j]).count; }

static void proved_judge_islands(int j) {
    uint8_t order[DECK_BUFFER], cycle[DECK_BUFFER];
    deck_island_list islands = deck_islands(books[j], lengths[j]);
    for (uint64_t i = 0; i < islands.count; i++)
        sink += deck_judge_island(books[j], lengths[j], islands.list[i], order, sizeof order, cycle, sizeof cycle).count;
}

/* Makes a call for the run of the history's last step, on a copy of the gate. */
static void proved_call(const deck_gate *gate, deck_answer (*call)(deck_gate *gate, uint8_t run), int j) {
    deck_gate g = *gate;
    sink += call(&g, books[j][lengths[j] - 2]).value;
}

static void proved_step(int j) { proved_call(&gates[j], deck_step, j); }
static void proved_withdraw(int j) { proved_call(&gates[j], deck_withdraw, j); }
static void proved_take_back(int j) { proved_call(&gates[j], deck_take_back, j); }
static void proved_take_back_full(int j) { proved_call(&full_gates[j], deck_take_back, j); }

static void plain_judges(int j) {
    uint8_t order[DECK_STEPS], cycle[DECK_STEPS];
    plain_book b;
    int count = 0;
    if (!plain_read(books[j], lengths[j], &b).number)
        plain_judge(&b, order, cycle, &count);
    sink += (uint64_t)count;
}

/* The time of one call on each book, in microseconds a book. */
static double timed(void (*call)(int)) {
    double from = now();
    for (int j = 0; j < BOOKS; j++)
        call(j);
    return (now() - from) / BOOKS;
}

/* The least of many times, taken in turn, so that other work on the machine disturbs both alike. */
static void compare(const char *label, const char *proved_label, void (*proved)(int), const char *other_label, void (*other)(int)) {
    double p = 1e9, c = 1e9;
    for (int k = 0; k < REPEATS; k++) {
        double t = timed(proved), u = timed(other);
        p = t < p ? t : p;
        c = u < c ? u : c;
    }
    printf("%-28s %s / %s: %.2f us / %.2f us = %.2f\n", label, proved_label, other_label, p, c, p / c);
}

/* The book with its first touches alone. */
static plain_book of_singles(const plain_book *b) {
    plain_book first = *b;
    for (int r = 0; r < b->runs; r++)
        for (int i = 0; i < b->length[r]; i++)
            first.step[r][i] = (step_record){.touches = 1, .touch = {b->step[r][i].touch[0]}};
    return first;
}

static int passes(const plain_book *b) {
    uint8_t order[DECK_STEPS], cycle[DECK_STEPS];
    int count;
    return plain_judge(b, order, cycle, &count);
}

/* Books of that shape that the judge passes, or does not, and the same books of single steps, on which it says the same. Each group of runs is an island,
   where there are groups. */
static int fill(const shape *f, int want, uint64_t seed) {
    source s = {seed};
    int found = 0;
    for (int tries = 0; found < BOOKS && tries < 200000; tries++) {
        plain_book b, first;
        lengths[found] = make_book(&s, f, books[found]);
        if (plain_read(books[found], lengths[found], &b).number || passes(&b) != want)
            continue;
        if (f->groups && plain_find_islands(&b).count != (int)f->groups)
            continue;
        first = of_singles(&b);
        if (passes(&first) != want)
            continue;
        singles_lengths[found] = plain_write(&first, singles[found]);
        found++;
    }
    return found == BOOKS;
}

/* Fills both gates over each book; 0 if a step is refused. */
static int keep_steps(void) {
    for (int j = 0; j < BOOKS; j++) {
        plain_book b;
        plain_read(books[j], lengths[j], &b);
        full_gates[j] = deck_open(books[j], lengths[j]).gate;
        for (int p = 0; p < b.n; p++) {
            gates[j] = full_gates[j];
            if (deck_step(&full_gates[j], b.history[p]).number)
                return 0;
        }
    }
    return 1;
}

static void compare_gates(void) {
    compare("", "gate's 128th step", proved_step, "judge call on the same book", proved_judge);
    compare("", "take-back at 128 kept steps", proved_take_back_full, "judge call on the same book", proved_judge);
    compare("", "take-back at 127 kept steps", proved_take_back, "withdrawal of the same run", proved_withdraw);
}

/* Finding islands is what listing them takes beyond reading the book; the least of many times of each call, taken in turn. */
static void compare_finding(void) {
    void (*const calls[])(int) = {proved_islands, proved_read, proved_judge};
    double least[] = {1e9, 1e9, 1e9};
    for (int k = 0; k < REPEATS; k++)
        for (int i = 0; i < 3; i++) {
            double t = timed(calls[i]);
            least[i] = t < least[i] ? t : least[i];
        }
    double p = least[0] - least[1], c = least[2];
    printf("%-28s %s / %s: %.2f us / %.2f us = %.2f\n", "", "finding islands", "judge call on the same book", p, c, p / c);
}

enum { ISLAND_CASES = 3, ISLANDS = 8 }; /* the last cases, which are of books of so many islands */

int main(void) {
    static const struct {
        const char *label;
        unsigned cuts, positions, burst, homing, transfers;
        int passed;
    } cases[] = {
        {"uncut, passed", 0, 40, 8, 0, 0, 1},
        {"uncut, tangled", 0, 40, 4, 0, 0, 0},
        {"half cut, passed", 50, 150, 4, 0, 0, 1},
        {"half cut, tangled", 50, 30, 2, 0, 0, 0},
        {"fully cut, passed", 100, 20, 2, 0, 0, 1},
        {"fully cut, much dependence", 100, 4, 2, 0, 0, 1},
        {"uncut, homing alone, passed", 0, 1, DECK_STEPS, 100, 0, 1},
        {"uncut, homing alone, tangled", 0, 1, 2, 100, 0, 0},
        {"fully cut, homing alone", 100, 1, 2, 100, 0, 1},
        {"half cut, 6% homing, passed", 50, 150, 8, 6, 0, 1}, /* about 1 step in 16 */
        {"uncut, transfers, passed", 0, 150, 8, 0, 100, 1},
        {"uncut, transfers, tangled", 0, 40, 4, 0, 100, 0},
        {"half cut, transfers, passed", 50, 500, 4, 0, 100, 1},
        {"fully cut, transfers", 100, 20, 2, 0, 100, 1},
        {"8 islands, uncut, passed", 0, 8, 8, 0, 0, 1},
        {"8 islands, uncut, tangled", 0, 8, 4, 0, 0, 0},
        {"8 islands, fully cut", 100, 8, 2, 0, 0, 1},
    };
    for (size_t k = 0; k < sizeof cases / sizeof *cases; k++) {
        shape f = {.runs = DECK_RUNS, .fixed = DECK_STEPS / DECK_RUNS, .kinds = 4, .pairs = 50, .positions = cases[k].positions,
                   .homing = cases[k].homing, .transfers = cases[k].transfers, .cuts = cases[k].cuts, .burst = cases[k].burst};
        f.groups = k + ISLAND_CASES < sizeof cases / sizeof *cases ? 0 : ISLANDS;
        if (!fill(&f, cases[k].passed, 7 + k)) {
            printf("%-28s no such books found\n", cases[k].label);
            continue;
        }
        compare(cases[k].label, "judge call", proved_judge, "plain C", plain_judges);
        if (cases[k].cuts == 100)
            compare("", "reading alone", proved_read, "plain C", plain_reads);
        if (cases[k].transfers) {
            compare("", "judge call", proved_judge, "same book of single steps", proved_judge_singles);
            compare("", "reading alone", proved_read, "same book of single steps", proved_read_singles);
        }
        compare_finding();
        if (f.groups)
            compare("", "judge island by island", proved_judge_islands, "judge call on the whole book", proved_judge);
        if (cases[k].passed && keep_steps())
            compare_gates();
    }
    return 0;
}
