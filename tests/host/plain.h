/* Document 01 with document 02's changes so far in plain C, for tests and benchmarks: an implementation of its own, which shares no text with the proved
   code. The limits and the numbers of refusal are those of include/deck.h. */
#ifndef PLAIN_H
#define PLAIN_H
#include "deck.h"

typedef struct {
    uint16_t kind, position;
} plain_touch;

/* A single step, with one touch, or a transfer, with two. */
typedef struct {
    uint16_t touches; /* 1 or 2 */
    plain_touch touch[2]; /* of a single step the second is all 0 */
} step_record;

typedef struct {
    uint8_t conflicts[DECK_KINDS][DECK_KINDS]; /* both ways round */
    uint8_t cut[DECK_RUNS][DECK_RUN_STEPS + 1][DECK_RUNS]; /* cut[r][j][o]: in r after step j, as seen by o */
    step_record step[DECK_RUNS][DECK_RUN_STEPS];
    int length[DECK_RUNS];
    int done[DECK_RUNS];
    uint8_t history[DECK_STEPS];
    int runs, steps, n;
    int home; /* the position that is the same as any other: DECK_HOME, or -1 for none, as it was before homing */
    int first_touches; /* whether steps conflict by their first touches alone, as they did before transfers */
} plain_book;

typedef struct {
    int number; /* 0: accepted; else an enum deck_number */
    size_t place;
} plain_refusal;

/* The book that the bytes are, where they are accepted; its home is DECK_HOME, and its steps conflict by any touch. */
plain_refusal plain_read(const uint8_t *s, size_t len, plain_book *b);

/* The same as it was before transfers: 54 is no command, and steps conflict by their first touches. */
plain_refusal plain_read_singles(const uint8_t *s, size_t len, plain_book *b);

/* Whether a step is a transfer; whether a touch of it homes. */
int plain_is_transfer(const step_record *step);
int plain_homes(const step_record *step);

/* How many of the book's steps are so. */
int plain_count(const plain_book *b, int (*is)(const step_record *step));

/* The length of the book's bytes, which go to out. */
size_t plain_write(const plain_book *b, uint8_t *out);

/* 1 passed, with n run numbers in order; 0 tangled, with *count places in cycle. */
int plain_judge(const plain_book *b, uint8_t *order, uint8_t *cycle, int *count);

int plain_serial(const plain_book *b);
int plain_atomic(const plain_book *b);
int plain_relserial(const plain_book *b);
int plain_conflict(const plain_book *b);

int plain_order_check(const plain_book *b, const uint8_t *list, size_t len);
int plain_cycle_check(const plain_book *b, const uint8_t *list, size_t len);

/* The arcs from place x to place y: the sum of all enum deck_arcs that hold there. */
int plain_arc(const plain_book *b, size_t x, size_t y);

/* Whether a done step of run r conflicts with a done step of run s. */
int plain_joined(const plain_book *b, int r, int s);

/* The islands: how many, the smallest run of each, rising, and of each run the smallest run of its island; 0 behind them. */
typedef struct {
    int count;
    uint8_t list[DECK_RUNS], smallest[DECK_RUNS];
} plain_islands;

plain_islands plain_find_islands(const plain_book *b);

/* Whether a run is the smallest of an island. */
int plain_names_island(const plain_book *b, const plain_islands *found, int run);

/* The book with the history of the island whose smallest run is this one in place of its own; the judge of the island is the judge of it. */
plain_book plain_island_book(const plain_book *b, const plain_islands *found, int run);

/* The gate: the book with the kept list as its history, the withdrawn runs, and the runs taken back. */
typedef struct {
    plain_book book;
    int withdrawn[DECK_RUNS], taken_back[DECK_RUNS];
} plain_gate;

void plain_open(const plain_book *b, plain_gate *g);

/* The answer to a step: its place, or minus the number of the refusal. */
int plain_step(plain_gate *g, int r);

/* 0, or minus the number of the refusal. */
int plain_withdraw(plain_gate *g, int r);
int plain_take_back(plain_gate *g, int r);

/* Whether a gate's record is sound: its tables are in range and agree with one another. The calls refuse any other by 26. */
int plain_sound(const deck_gate *record);

/* The plain gate of a sound record; its book is as plain_read has it. */
void plain_gate_of(const deck_gate *record, plain_gate *g);

#endif
