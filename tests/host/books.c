/* Deck books for tests and benchmarks, made from a seed or read from files, and the loop of a test on many of them. */
#include "books.h"
#include <ctype.h>
#include <errno.h>
#include <inttypes.h>
#include <signal.h>
#include <stdio.h>
#include <stdlib.h>
#include <string.h>
#include <unistd.h>

uint64_t draw(source *s) {
    uint64_t z = s->state += 0x9e3779b97f4a7c15ull;
    z = (z ^ (z >> 30)) * 0xbf58476d1ce4e5b9ull;
    z = (z ^ (z >> 27)) * 0x94d049bb133111ebull;
    return z ^ (z >> 31);
}

unsigned below(source *s, unsigned n) { return (unsigned)(draw(s) % n); }

static uint8_t *put_pairs(source *s, const shape *f, uint8_t *o) {
    for (unsigned a = 0; a < f->kinds; a++)
        for (unsigned b = a; b < f->kinds; b++)
            if (below(s, 100) < f->pairs) {
                *o++ = 0x43;
                *o++ = (uint8_t)a;
                *o++ = (uint8_t)b;
            }
    return o;
}

static uint8_t *put_touch(source *s, const shape *f, unsigned run, uint8_t *o) {
    unsigned groups = f->groups ? f->groups : 1, number = below(s, f->positions) * groups + run % groups;
    unsigned position = number * (f->factor ? f->factor : 1);
    if (f->homing && below(s, 100) < f->homing)
        position = DECK_HOME;
    else if (f->near && below(s, 100) < f->near)
        position = DECK_HOME - 1;
    *o++ = (uint8_t)below(s, f->kinds);
    *o++ = (uint8_t)(position >> 8);
    *o++ = (uint8_t)position;
    return o;
}

static uint8_t *put_steps(source *s, const shape *f, unsigned run, unsigned steps, uint8_t *o) {
    while (steps-- > 0) {
        int transfer = f->transfers && below(s, 100) < f->transfers;
        *o++ = transfer ? 0x54 : 0x53;
        o = put_touch(s, f, run, o);
        if (transfer && below(s, 10)) {
            o = put_touch(s, f, run, o);
        } else if (transfer) {
            memcpy(o, o - 3, 3); /* an equal touch */
            o += 3;
        }
    }
    return o;
}

/* Puts each run's number of steps into `length`. */
static uint8_t *put_runs(source *s, const shape *f, unsigned *length, uint8_t *o) {
    unsigned total = 0;
    for (unsigned r = 0; r < f->runs; r++) {
        *o++ = 0x52;
        *o++ = (uint8_t)r;
        length[r] = f->fixed ? f->fixed : f->steps - below(s, below(s, 8) ? (f->steps + 1) / 2 : f->steps + 1);
        if (total + length[r] > DECK_STEPS)
            length[r] = DECK_STEPS - total;
        total += length[r];
        o = put_steps(s, f, r, length[r], o);
    }
    return o;
}

static uint8_t *put_cuts(source *s, const shape *f, const unsigned *length, uint8_t *o) {
    for (unsigned r = 0; r < f->runs; r++)
        for (unsigned j = 1; j < length[r]; j++)
            for (unsigned v = 0; v < f->runs; v++)
                if (v != r && below(s, 100) < f->cuts) {
                    *o++ = 0x42;
                    *o++ = (uint8_t)r;
                    *o++ = (uint8_t)j;
                    *o++ = (uint8_t)v;
                }
    return o;
}

/* Counts the steps left of each run down in `left`. */
static uint8_t *put_history(source *s, const shape *f, unsigned *left, uint8_t *o) {
    unsigned open = 0;
    for (unsigned r = 0; r < f->runs; r++)
        open += left[r];
    if (f->undone && below(s, 100) < f->undone)
        open = below(s, open + 1);
    while (open > 0) {
        unsigned r = below(s, f->runs), n = 1 + below(s, f->burst);
        while (n-- > 0 && left[r] > 0 && open > 0) {
            *o++ = 0x48;
            *o++ = (uint8_t)r;
            left[r]--;
            open--;
        }
    }
    return o;
}

size_t make_book(source *s, const shape *f, uint8_t *out) {
    unsigned length[DECK_RUNS];
    uint8_t *o = put_pairs(s, f, out);
    o = put_steps(s, f, 0, f->misplaced == 1, o);
    o = put_runs(s, f, length, o);
    o = put_cuts(s, f, length, o);
    o = put_steps(s, f, 0, f->misplaced == 2, o);
    o = put_history(s, f, length, o);
    o = put_steps(s, f, 0, f->misplaced == 3, o);
    *o++ = 0x45;
    return (size_t)(o - out);
}

size_t make_long_book(source *s, uint8_t *out) {
    static const shape any = {.kinds = DECK_KINDS, .positions = DECK_POSITIONS, .transfers = 50}; /* of the steps */
    const unsigned full = DECK_STEPS / DECK_RUN_STEPS; /* so many of the longest runs have all steps */
    const enum { RUN, RUN_STEP, STEP, BOTH, BYTE } over = below(s, 5);
    unsigned runs = over == RUN ? DECK_RUNS + 1 : over == RUN_STEP ? 1 + below(s, full - 1) : over == STEP ? full + 1 : full;
    uint8_t *o = out;
    if (over == BYTE) {
        size_t len = DECK_BOOK + 1 + below(s, 1000);
        memset(out, 0x45, len);
        return len;
    }
    for (unsigned r = 0; r < runs; r++) {
        unsigned steps = over == RUN ? below(s, 8) : over == RUN_STEP ? below(s, DECK_RUN_STEPS + 1) : DECK_RUN_STEPS;
        if (r + 1 == runs && over != RUN)
            steps = over == STEP ? 1 : DECK_RUN_STEPS + 1;
        *o++ = 0x52;
        *o++ = (uint8_t)r;
        o = put_steps(s, &any, r, steps, o);
    }
    *o++ = 0x45;
    return (size_t)(o - out);
}

shape draw_shape(source *s) {
    shape f = {0};
    int large = below(s, 4) == 0;
    f.runs = below(s, 20) == 0 ? below(s, 2) : 2 + below(s, large ? DECK_RUNS - 1 : 3);
    f.steps = large ? 1 + below(s, DECK_RUN_STEPS) : 2 + below(s, 5);
    f.kinds = 1 + below(s, large ? DECK_KINDS : 4);
    f.pairs = 20 + below(s, 81);
    f.positions = below(s, 8) == 0 ? DECK_POSITIONS : 1 + below(s, large ? 100 : 5);
    f.factor = 1u << 4 * below(s, 4); /* so that positions differ in each of their digits to base 16 */
    f.homing = below(s, 2) ? 0 : below(s, 8) == 0 ? 100 : 1 + below(s, below(s, 2) ? 10 : 100);
    f.near = below(s, 4) ? 0 : 1 + below(s, 50);
    f.transfers = below(s, 2) ? 0 : below(s, 4) == 0 ? 100 : 1 + below(s, 99);
    f.cuts = below(s, 4) == 0 ? 0 : below(s, 101);
    f.burst = 1 + below(s, below(s, 2) ? 2 : f.steps);
    f.undone = 25;
    f.misplaced = below(s, 25) ? 0 : 1 + below(s, 3);
    return f;
}

shape draw_grouped_shape(source *s) {
    shape f = draw_shape(s);
    if (f.runs < 4)
        f.runs = 4;
    f.groups = 2 + below(s, f.runs / 4); /* of two runs or more */
    return f;
}

size_t damage(source *s, uint8_t *book, size_t len) {
    static const uint8_t commands[] = {0x43, 0x52, 0x53, 0x54, 0x42, 0x48, 0x45};
    unsigned times = 1 + below(s, 3);
    while (times-- > 0) {
        size_t at = len ? draw(s) % len : 0;
        switch (below(s, 6)) {
        case 0:
            if (len)
                book[at] = (uint8_t)draw(s);
            break;
        case 1:
            if (len)
                book[at] = commands[below(s, sizeof commands)];
            break;
        case 2:
            if (len)
                book[at] = (uint8_t)(book[at] + (below(s, 2) ? 1 : 255));
            break;
        case 3:
            len = at;
            break;
        case 4:
            if (len) {
                memmove(book + at, book + at + 1, len - at - 1);
                len--;
            }
            break;
        default:
            if (len < BOOK_ROOM) {
                memmove(book + at + 1, book + at, len - at);
                book[at] = below(s, 2) ? commands[below(s, sizeof commands)] : (uint8_t)below(s, 20);
                len++;
            }
        }
    }
    return len;
}

size_t command_size(uint8_t command) {
    switch (command) {
    case 0x52:
    case 0x48:
        return 2;
    case 0x43:
        return 3;
    case 0x53:
    case 0x42:
        return 4;
    case 0x54:
        return 7;
    default:
        return 0;
    }
}

source aside;

selection by_default(uint64_t seed, long books) { return (selection){.seed = seed, .books = books, .each = books, .enough = books}; }

enum { MOST_BOOKS = 1000000000 };

static const char *program, *operand_text; /* as in the usage */
static int required; /* whether the books are enough, so that no count may be 0 */

static _Noreturn void usage(const selection *d) {
    fprintf(stderr, "usage: %s [-s SEED] [-n BOOKS]%s\n", program, operand_text);
    fprintf(stderr, "  SEED    1 to %" PRIu64 "; %" PRIu64 " if it is not given\n", UINT64_MAX, d->seed);
    fprintf(stderr, "  BOOKS   1 to %d; %ld if it is not given; with %ld or more it fails where a count is 0\n", MOST_BOOKS, d->books, d->enough);
    exit(2);
}

/* The number from 1 to `most` that the text is, in digits alone; 0 for any other text. */
static uint64_t number_of(const char *text, uint64_t most) {
    char *end;
    errno = 0;
    uint64_t n = strtoull(text, &end, 10);
    return isdigit((unsigned char)*text) && !*end && !errno && n <= most ? n : 0;
}

char **read_options(int argc, char **argv, const char *operands, int least, int most, selection *chosen) {
    const selection defaults = *chosen;
    int option;
    program = argv[0];
    operand_text = operands;
    while ((option = getopt(argc, argv, "+s:n:")) != -1) {
        uint64_t n = option == 's' ? number_of(optarg, UINT64_MAX) : option == 'n' ? number_of(optarg, MOST_BOOKS) : 0;
        if (!n)
            usage(&defaults);
        if (option == 's')
            chosen->seed = n;
        else
            chosen->books = (long)n;
    }
    if (argc - optind < least || argc - optind > most)
        usage(&defaults);
    required = chosen->books >= chosen->enough;
    return argv + optind;
}

static const char *fault; /* the first thing that was not ok of the book at hand, or null */

int expect(int ok, const char *what) {
    if (!ok && !fault)
        fault = what;
    return ok;
}

static uint8_t book[BOOK_ROOM]; /* the book at hand */
static long passed, failed; /* books */

/* Counts the book at hand, which has that label, and prints what was not ok of it. Answers whether it passed. */
static int count_book(const char *label) {
    int ok = !fault;
    passed += ok;
    failed += !ok;
    if (!ok)
        printf("%s: %s\n", label, fault);
    fault = NULL;
    return ok;
}

/* Prints the book at hand, of so many bytes, as tests/books has them: a command a line; from 45 or a byte that is no command on, lines of 16 bytes. */
static void print_book(size_t len) {
    int commands = 1; /* whether only whole commands stand before */
    for (size_t at = 0, size; at < len; at += size) {
        size = commands ? command_size(book[at]) : 0;
        commands = size > 0;
        size = commands ? size : 16;
        size = size > len - at ? len - at : size;
        for (size_t i = 0; i < size; i++)
            printf("%02x%c", book[at + i], i + 1 < size ? ' ' : '\n');
    }
}

static struct {
    const char *sort; /* a word before 'book', or nothing */
    uint64_t seed;
    long index; /* among the books of the seed */
    size_t len;
} drawn; /* the book at hand */

/* Counts the drawn book; where it is one of the first that failed, prints how it comes again, and its bytes. */
static void count_drawn(void) {
    enum { SHOWN = 3 };
    char label[64];
    snprintf(label, sizeof label, "%sbook %ld of seed %" PRIu64, drawn.sort, drawn.index, drawn.seed);
    if (count_book(label) || failed > SHOWN)
        return;
    printf("# the last %sbook of: %s -s %" PRIu64 " -n %ld%s\n", drawn.sort, program, drawn.seed, drawn.index + 1, operand_text);
    print_book(drawn.len);
}

/* Prints the drawn book at which the program is stopped. */
static void stopped(int number) {
    fault = "the program was stopped by a signal";
    count_drawn();
    fflush(stdout);
    raise(number); /* which stops it when this returns */
}

static void watch_signals(void) {
    static const int numbers[] = {SIGABRT, SIGSEGV, SIGBUS, SIGFPE, SIGILL};
    const struct sigaction once = {.sa_handler = stopped, .sa_flags = SA_RESETHAND};
    for (size_t i = 0; i < sizeof numbers / sizeof *numbers; i++)
        sigaction(numbers[i], &once, NULL);
}

/* Begins a seed. */
static source begin(uint64_t seed) {
    aside = (source){seed + 1};
    return (source){seed};
}

void test_files(uint64_t seed, char **files, book_test *test) {
    source s = begin(seed);
    for (; *files; files++) {
        FILE *f = fopen(*files, "rb");
        size_t len = f ? fread(book, 1, sizeof book, f) : 0;
        if (expect(f && !ferror(f) && !fclose(f), "cannot be read"))
            test(&s, book, len);
        count_book(*files);
    }
}

/* Makes the test on the first books of a seed, whose shapes are drawn so. */
static void test_seed(uint64_t seed, long books, shape draw_one(source *s), book_test *test) {
    source s = begin(seed);
    for (long k = 0; k < books; k++) {
        shape f = draw_one(&s);
        size_t len = k % 50 ? make_book(&s, &f, book) : make_long_book(&s, book);
        if (k % 2)
            len = damage(&s, book, len);
        drawn.seed = seed;
        drawn.index = k;
        drawn.len = len;
        test(&s, book, len);
        count_drawn();
    }
}

/* Makes the test on the chosen books, of this sort. */
static void test_chosen(const selection *chosen, const char *sort, shape draw_one(source *s), book_test *test) {
    uint64_t seed = chosen->seed;
    watch_signals();
    drawn.sort = sort;
    for (long left = chosen->books; left > 0; left -= chosen->each)
        test_seed(seed++, left < chosen->each ? left : chosen->each, draw_one, test);
}

void test_grouped_books(const selection *chosen, book_test *test) { test_chosen(chosen, "grouped ", draw_grouped_shape, test); }

int test_books(const selection *chosen, book_test *test) {
    test_chosen(chosen, "", draw_shape, test);
    printf("%ld passed, %ld failed\n", passed, failed);
    return failed != 0;
}

int none(long count, const char *text, const char *where) {
    if (count || !required)
        return 0;
    printf("%s: no book %s\n", text, where);
    return 1;
}

int print_count(const char *text, long count) {
    printf("%s: %ld\n", text, count);
    return none(count, text, "at all");
}

int print_counts(const book_count *counts, size_t n) {
    int status = 0;
    for (size_t k = 0; k < n; k++)
        status |= print_count(counts[k].text, counts[k].books);
    return status;
}
