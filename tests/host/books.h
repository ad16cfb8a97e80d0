/* Deck books for tests and benchmarks, made from a seed or read from files, and the loop of a test on many of them. */
#ifndef BOOKS_H
#define BOOKS_H
#include "deck.h"

enum { BOOK_ROOM = DECK_BOOK + 4096 };

typedef struct {
    uint64_t state;
} source;

uint64_t draw(source *s);

/* A number from 0 to n - 1. */
unsigned below(source *s, unsigned n);

/* A source beside that of the books, which may be drawn from without changing the books to come. It begins anew with each seed. */
extern source aside;

typedef struct {
    unsigned runs; /* as many runs */
    unsigned steps; /* steps in each run, at most */
    unsigned fixed; /* each run has just so many */
    unsigned kinds; /* kinds below this */
    unsigned pairs; /* percent of the pairs of kinds that conflict */
    unsigned positions; /* positions are numbers below this */
    unsigned groups; /* so many groups of runs, by run modulo this; the numbers of group g are times this plus g; 0 stands for 1 */
    unsigned factor; /* times this, modulo 65536; 0 stands for 1 */
    unsigned homing; /* percent of the touches that are at DECK_HOME instead */
    unsigned near; /* percent of the others that are at the position before it */
    unsigned transfers; /* percent of the steps that are transfers, of which some have equal touches */
    unsigned cuts; /* percent of the cuts */
    unsigned burst; /* done steps of one run in a row, at most */
    unsigned undone; /* percent of the histories that stop early */
    unsigned misplaced; /* 1, 2 or 3: one step more stands before the runs, behind the cuts or behind the history; 0: none does */
} shape;

/* The length of a book of that shape, which goes to out, of BOOK_ROOM bytes. It is legal but for a misplaced step. */
size_t make_book(source *s, const shape *f, uint8_t *out);

/* The length of a book over the limits, which goes to out: a run, a step of a run, a step of the book, a step that is both or a byte too many. */
size_t make_long_book(source *s, uint8_t *out);

/* A shape drawn by chance, small or large. */
shape draw_shape(source *s);

/* One with four runs at least, in groups of two or more. */
shape draw_grouped_shape(source *s);

/* The new length of a book with one or more bytes changed, left out or put in. */
size_t damage(source *s, uint8_t *book, size_t len);

/* Which books a test makes. */
typedef struct {
    uint64_t seed; /* of the first */
    long books; /* so many */
    long each; /* so many from one seed, then from the next higher one */
    long enough; /* with so many or more, none of the test's counts may be 0 */
} selection;

/* A test's books by default: so many, all from one seed, and just enough. */
selection by_default(uint64_t seed, long books);

/* Reads a program's options, -s SEED and -n BOOKS, into the selection, which has the defaults. Answers the operands behind them, a list that ends in a null
   pointer: `least` to `most`, with the text `operands` in the usage. Where an option or the number of operands is wrong, prints the usage and ends the
   program with status 2. */
char **read_options(int argc, char **argv, const char *operands, int least, int most, selection *chosen);

/* The number of bytes of a command; 0 for 45, behind which there is none, and for a byte that is no command. */
size_t command_size(uint8_t command);

/* One thing that a test expects of the book at hand, and what it is: the book fails where it is not ok. Answers ok. */
int expect(int ok, const char *what);

/* A test of one book, which may draw from the source. */
typedef void book_test(source *s, const uint8_t *book, size_t len);

/* Makes the test on the book in each of these files, of raw bytes; the list ends in a null pointer. Prints the first thing that was not ok of each
   book that failed; a file that cannot be read fails too. */
void test_files(uint64_t seed, char **files, book_test *test);

/* Makes the test on as many books as are chosen, of shapes with groups, beside the chosen ones, which are the same with or without it. Prints as test_books
   does, but for the last line. */
void test_grouped_books(const selection *chosen, book_test *test);

/* Makes the test on the chosen books, whole, damaged and over the limits. Prints the first thing that was not ok of each book that failed; of the first few
   also the options by which the book comes last, and its bytes as tests/books has them. Then prints 'N passed, M failed', a count of books, those of
   test_files and test_grouped_books before it included; the status of a program. */
int test_books(const selection *chosen, book_test *test);

/* 1 and a printed line where a count is 0 though the books are enough, else 0. */
int none(long count, const char *text, const char *where);

/* A count, mostly of books, and of which. */
typedef struct {
    const char *text;
    long books;
} book_count;

/* Print one count, or each of n; 1 where one of them is 0 though the books are enough, else 0. */
int print_count(const char *text, long count);
int print_counts(const book_count *counts, size_t n);

#endif
