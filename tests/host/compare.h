/* The comparison of the proved calls with plain.c, on one book, and of plain.c by the rules as they are with plain.c by earlier ones. */
#ifndef COMPARE_H
#define COMPARE_H
#include "books.h"
#include "figures.h"
#include "plain.h"

/* Compares every call on a book with plain.c, which reads it as b or refuses it by r. A gate's altered record may have a homing step or a transfer where
   the book has none; it is compared with its own plain gate, by the rules as they are. */
void compare_book(source *s, const uint8_t *book, size_t len, const plain_book *b, plain_refusal r);

/* Compares the calls on islands alone; a book_test. It counts nothing but islands. */
void compare_islands_alone(source *s, const uint8_t *book, size_t len);

/* How lists of calls to a gate are drawn. 0: one for each book, of any length. 1: three for each accepted book, whose length goes by its steps and of which
   half begin with steps of its history. */
extern int soaking;

/* Counts an accepted book, by each answer of plain.c that is another than by earlier rules. */
void count_differences(const plain_book *b, const plain_book *earlier);

/* Makes the test on the books in the files that the program is given and on those chosen, or as its options say; prints 'N passed, M failed', a count of
   books, then n counts and those of count_differences. The status of the program, which fails too where one of these is 0 and the books are enough. */
int test_rules(int argc, char **argv, selection chosen, book_test *test, const book_count *counts, size_t n);

#endif
