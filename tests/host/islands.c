/* Asks the proved calls for the islands of books whose islands are known: the list, and of each run the history and the verdict of the island that it names,
   or the refusal.
     islands FOLDER       FOLDER has the books of tests/books as raw bytes, by their names without .hex
   Prints 'N passed, M failed', a count of books. */
#include "books.h"
#include <stdio.h>
#include <string.h>

enum { ISLANDS = 6 }; /* the most of a book below */
enum { ROOM = DECK_BUFFER + 8, FILL = 0xa5 }; /* of the judge's buffers, filled beforehand so that a stray byte shows */

/* An island by its smallest run; its history, and the judge's order or, where it is tangled, a cycle: run numbers and places as digits. */
typedef struct {
    uint8_t run;
    const char *history;
    uint64_t verdict;
    const char *evidence;
} island;

typedef struct {
    const char *name;
    const char *smallest; /* of each run, the smallest run of its island */
    island list[ISLANDS + 1]; /* ends in an island without a history */
    uint64_t number, place; /* of a refusal, or 0 */
} known_book;

static const known_book books[] = {
    {"islands-none", "012", {{0, "00", DECK_PASSED, "00"}, {1, "11", DECK_PASSED, "11"}, {2, "22", DECK_PASSED, "22"}}, 0, 0},
    {"islands-one", "000", {{0, "0102", DECK_PASSED, "0012"}}, 0, 0},
    {"islands-chain", "00200", {{0, "411330", DECK_PASSED, "411330"}, {2, "2", DECK_PASSED, "2"}}, 0, 0},
    {"islands-homing", "0000", {{0, "3120", DECK_PASSED, "3120"}}, 0, 0},
    {"islands-empty-run", "0120", {{0, "30", DECK_PASSED, "30"}, {1, "", DECK_PASSED, ""}, {2, "", DECK_PASSED, ""}}, 0, 0},
    {"islands-undone", "012", {{0, "0", DECK_PASSED, "0"}, {1, "1", DECK_PASSED, "1"}, {2, "2", DECK_PASSED, "2"}}, 0, 0},
    {"islands-tangled-one", "0101", {{0, "0220", DECK_PASSED, "0220"}, {1, "1331", DECK_TANGLED, "10"}}, 0, 0},
    {"homing-no-pair", "012", {{0, "00", DECK_PASSED, "00"}, {1, "11", DECK_PASSED, "11"}, {2, "2", DECK_PASSED, "2"}}, 0, 0},
    {"transfer-touches",
     "0022446689",
     {{0, "010", DECK_PASSED, "001"},
      {2, "232", DECK_PASSED, "223"},
      {4, "454", DECK_PASSED, "445"},
      {6, "676", DECK_PASSED, "667"},
      {8, "88", DECK_PASSED, "88"},
      {9, "9", DECK_PASSED, "9"}},
     0,
     0},
    {"row04", "00", {{0, "0110", DECK_TANGLED, "13"}}, 0, 0},
    {"row09", "000", {{0, "01220", DECK_PASSED, "10220"}}, 0, 0},
    {"end-alone", "", {{0}}, 0, 0},
    {"refused10", "", {{0}}, DECK_NO_STEP_LEFT, 2},
};

static const known_book *known; /* the book at hand */

/* How many digits there are; the numbers that they say go to list. */
static size_t numbers_of(const char *digits, uint8_t *list) {
    size_t n = strlen(digits);
    for (size_t i = 0; i < n; i++)
        list[i] = (uint8_t)(digits[i] - '0');
    return n;
}

/* The length of the book with this history in place of its own, which goes to out. */
static size_t with_history(const uint8_t *book, const uint8_t *history, size_t n, uint8_t *out) {
    size_t at = 0;
    while (book[at] != 0x48 && book[at] != 0x45)
        at += command_size(book[at]);
    memcpy(out, book, at);
    for (size_t i = 0; i < n; i++) {
        out[at++] = 0x48;
        out[at++] = history[i];
    }
    out[at++] = 0x45;
    return at;
}

/* The judge's buffers, and what it answers of the island that a run names. */
typedef struct {
    uint8_t order[ROOM], cycle[ROOM];
    deck_judgement answer;
} judging;

static judging judge_island(const uint8_t *book, size_t len, uint8_t run) {
    judging j;
    memset(j.order, FILL, ROOM);
    memset(j.cycle, FILL, ROOM);
    j.answer = deck_judge_island(book, len, run, j.order, ROOM, j.cycle, ROOM);
    return j;
}

/* Behind the evidence, of so many bytes, the buffers are as they were. */
static int unchanged(const judging *j, size_t order_count, size_t cycle_count) {
    int same = 1;
    for (size_t i = 0; i < ROOM; i++)
        same &= (i < order_count || j->order[i] == FILL) && (i < cycle_count || j->cycle[i] == FILL);
    return same;
}

static void check_island(const uint8_t *book, size_t len, const island *k) {
    static uint8_t bytes[BOOK_ROOM];
    deck_island_steps want = {0}, got = deck_island_history(book, len, k->run);
    uint8_t list[DECK_STEPS];
    size_t n = numbers_of(k->evidence, list);
    want.count = numbers_of(k->history, want.history);
    expect(memcmp(&got, &want, sizeof want) == 0, "the history of an island");
    judging j = judge_island(book, len, k->run);
    size_t size = with_history(book, want.history, want.count, bytes);
    expect(j.answer.number == 0 && j.answer.place == 0 && j.answer.verdict == k->verdict, "the verdict on an island");
    if (k->verdict == DECK_PASSED) {
        expect(j.answer.count == n && memcmp(j.order, list, n) == 0 && unchanged(&j, n, 0), "the order of an island");
        expect(deck_check_order(bytes, size, list, n).value == 1, "the order of an island, as the order check has it");
    } else {
        expect(j.answer.count <= want.count && unchanged(&j, 0, j.answer.count), "the cycle of an island");
        expect(deck_check_cycle(bytes, size, j.cycle, j.answer.count).value == 1, "the cycle of an island, as the cycle check has it");
        expect(deck_check_cycle(bytes, size, list, n).value == 1, "the cycle that is known");
    }
}

/* Checks that a run names no island. */
static void check_refused(const uint8_t *book, size_t len, uint8_t run) {
    deck_island_steps want = {.number = known->number ? known->number : DECK_NO_ISLAND, .place = known->place};
    deck_island_steps got = deck_island_history(book, len, run);
    judging j = judge_island(book, len, run);
    const deck_judgement *a = &j.answer;
    expect(memcmp(&got, &want, sizeof want) == 0, "the history of no island");
    expect(a->number == want.number && a->place == want.place && a->verdict == DECK_REFUSED && a->count == 0, "the verdict on no island");
    expect(unchanged(&j, 0, 0), "the judge's buffers, where it refuses");
}

static void check(source *s, const uint8_t *book, size_t len) {
    deck_island_list want = {.number = known->number, .place = known->place}, got = deck_islands(book, len);
    uint8_t order[DECK_BUFFER], cycle[DECK_BUFFER];
    int passed = 1;
    (void)s;
    want.runs = numbers_of(known->smallest, want.smallest);
    for (const island *k = known->list; k->history; k++)
        want.list[want.count++] = k->run;
    expect(memcmp(&got, &want, sizeof want) == 0, "the list of islands");
    const island *next = known->list;
    for (unsigned run = 0; run <= UINT8_MAX; run++)
        if (next->history && next->run == run) {
            check_island(book, len, next);
            passed &= next++->verdict == DECK_PASSED;
        } else {
            check_refused(book, len, (uint8_t)run);
        }
    deck_judgement j = deck_judge(book, len, order, sizeof order, cycle, sizeof cycle);
    expect(known->number || j.verdict == (passed ? DECK_PASSED : DECK_TANGLED), "the verdict on the book");
}

int main(int argc, char **argv) {
    if (argc != 2) {
        fprintf(stderr, "usage: islands FOLDER\n");
        return 2;
    }
    for (known = books; known < books + sizeof books / sizeof *books; known++) {
        char path[512];
        char *files[] = {path, NULL};
        snprintf(path, sizeof path, "%s/%s", argv[1], known->name);
        test_files(1, files, check);
    }
    const selection no_more = by_default(1, 0);
    return test_books(&no_more, check);
}
