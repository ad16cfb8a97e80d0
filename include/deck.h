/* Deck books for C: reader, judge, class tests, evidence checks, arc test, islands, writer, and the gate, live or as the replay of a list of calls.

   A book, a list and a buffer are each a pointer and a length; nothing is kept after a call returns, and nothing is allocated. A length of 0
   goes with any pointer but a null one. A call reads its books and lists, writes to its buffers and its gate alone, and needs up to 160 KB
   of stack. A buffer or a gate may overlap no other argument of the call. Calls may be made from several threads at once, on buffers and gates
   of their own.

   `number` is 0 where the call was carried out, else the number of the refusal. `place` is the offset in the book at which a refusal of the book was
   found, the offset in the list of calls for 24, and 0 otherwise. A refused call changes no byte of a buffer or a gate. */
#ifndef DECK_H
#define DECK_H
#include <stddef.h>
#include <stdint.h>

#ifdef __cplusplus
extern "C" {
#endif

enum {
    DECK_BOOK = 16384, /* a book has at most so many bytes */
    DECK_KINDS = 16, /* kinds are below this */
    DECK_POSITIONS = 65536, /* positions are below this */
    DECK_TOUCHES = DECK_KINDS * DECK_POSITIONS, /* codes of touches, each a kind and a position, are below this; a single step (53) has one, a transfer two */
    DECK_HOME = 65535, /* a touch at this position, which homes, has the same position as any other */
    DECK_RUNS = 16, /* the most runs */
    DECK_RUN_STEPS = 32, /* the most steps in a run, a transfer being one */
    DECK_STEPS = 128, /* the most steps in all */
    DECK_BUFFER = DECK_STEPS /* the judge's buffers have at least so many bytes */
};

/* 1 to 11, 30 and 31 are the refusals of the book: any call that reads a book may give them. */
enum deck_number {
    DECK_BOOK_TOO_LONG = 1, /* book over DECK_BOOK bytes */
    DECK_NO_COMMAND = 2, /* byte that is no command */
    DECK_ENDS_EARLY = 3, /* book ends before 45 or inside operands */
    DECK_OUT_OF_ORDER = 4, /* command after a later group, or 53 or 54 before any 52 */
    DECK_WRONG_KIND = 5, /* kind above 15, or a above b */
    DECK_NOT_RISING = 6, /* pair or triple not above the one before */
    DECK_WRONG_RUN = 7, /* 52 not the next run; 42 or 48 a run not declared; 42 a run as seen by itself */
    DECK_TOO_MANY_RUNS = 8, /* 17th run; the book has to be split */
    DECK_WRONG_CUT = 9, /* cut after step 0, or not before the last step */
    DECK_NO_STEP_LEFT = 10, /* 48 for a run with no step left */
    DECK_BYTES_AFTER_END = 11, /* bytes after 45 */
    DECK_JUDGE_BUFFER_SHORT = 12, /* the judge's order or cycle buffer under DECK_BUFFER bytes */
    DECK_WRITER_BUFFER_SHORT = 13, /* the writer's buffer shorter than the book */
    DECK_GATE_NOT_DECLARED = 20, /* gate: run not declared */
    DECK_GATE_WITHDRAWN = 21, /* gate: run withdrawn */
    DECK_GATE_ALL_KEPT = 22, /* gate: all steps of the run kept */
    DECK_GATE_TANGLED = 23, /* gate: tangled */
    DECK_NO_CALL = 24, /* replay: no call, or a cut-off one, at an offset of the list */
    DECK_ANSWERS_SHORT = 25, /* replay: the buffer of answers under two bytes a call */
    DECK_GATE_DAMAGED = 26, /* gate: a table of the record out of range, or not in agreement with another */
    DECK_NO_ISLAND = 27, /* islands: run that is not the smallest of an island */
    DECK_RUN_TOO_LONG = 30, /* 33rd step of a run, also where it is the 129th of the book; the run has to be split */
    DECK_TOO_MANY_STEPS = 31, /* 129th step of the book; the book has to be split */
    DECK_GATE_TAKEN_BACK = 32, /* gate: run taken back already */
};

enum deck_verdict { DECK_REFUSED = 0, DECK_PASSED = 1, DECK_TANGLED = 2 };

/* The arcs of the history's graph, the relative serialization graph. The cuts of a run, as seen by another, divide its done steps into units. */
enum deck_arcs {
    DECK_ARC_I = 1, /* from a step to the next of its run */
    DECK_ARC_D = 2, /* from a step p to a step q of another run that depends on p */
    DECK_ARC_F = 4, /* for each D arc from p to q: from the last step of p's unit, as seen by q's run, to q */
    DECK_ARC_B = 8, /* for each D arc from p to q: from p to the first step of q's unit, as seen by p's run */
};

typedef struct {
    uint64_t number; /* 0, or an enum deck_number */
    uint64_t place;
    uint64_t verdict; /* an enum deck_verdict */
    uint64_t count; /* passed: the done steps; tangled: the length of the cycle; refused: 0 */
} deck_judgement;

typedef struct {
    uint64_t number; /* 0, or an enum deck_number */
    uint64_t place;
    uint64_t value; /* what the call answers; 0 where it was refused */
} deck_answer;

/* Reads the book and no more: the value is the number of its done steps. */
deck_answer deck_read(const uint8_t *book, size_t book_len);

/* Whether the book's history is relatively serializable. Refused by 12 first, then as the book is. Passed: `order` begins with the run numbers of a
   relatively serial order that agrees with the history on all conflicting pairs: the one that takes at each turn the smallest place whose arc sources
   are all taken. Tangled: `cycle` begins with the places of a cycle of the relative serialization graph. All other bytes are unchanged. */
deck_judgement deck_judge(const uint8_t *book, size_t book_len, uint8_t *order, size_t order_len, uint8_t *cycle, size_t cycle_len);

/* Class tests: 1 if the book's history is in the class, else 0. The classes are nested: where deck_serial answers 1, so do deck_atomic and
   deck_conflict; where deck_atomic does, so does deck_relserial; where deck_relserial or deck_conflict does, deck_judge, with buffers as long as it
   asks, says passed. Where deck_conflict does, it also says so of every book that differs from this one in its cuts alone. */
deck_answer deck_serial(const uint8_t *book, size_t book_len);
deck_answer deck_atomic(const uint8_t *book, size_t book_len);
deck_answer deck_relserial(const uint8_t *book, size_t book_len);
deck_answer deck_conflict(const uint8_t *book, size_t book_len);

/* 1 if the list of run numbers is a relatively serial order of the history that agrees with it on all conflicting pairs, else 0. */
deck_answer deck_check_order(const uint8_t *book, size_t book_len, const uint8_t *list, size_t list_len);

/* 1 if the list of places is a cycle of the history's graph, else 0. */
deck_answer deck_check_cycle(const uint8_t *book, size_t book_len, const uint8_t *list, size_t list_len);

/* The arcs that lead from the place `from` to the place `to`: the sum of all enum deck_arcs that hold there, 0 if none does. A place beyond the done
   steps has none. */
deck_answer deck_arc(const uint8_t *book, size_t book_len, size_t from, size_t to);

/* Two runs are joined if a done step of the one conflicts with a done step of the other. An island is a set of runs linked by such joins and not linked to
   any other run; each declared run belongs to one island, alone if it is joined to none. An island is named by its smallest run. What deck_islands and
   deck_island_history hand back holds no pointer and is the caller's. */
typedef struct {
    uint64_t number; /* 0, or an enum deck_number */
    uint64_t place;
    uint64_t runs; /* the number of runs; 0 where the book was refused */
    uint64_t count; /* the number of islands; 0 where the book was refused */
    uint8_t smallest[DECK_RUNS]; /* of each run, the smallest run of its island; 0 from `runs` on */
    uint8_t list[DECK_RUNS]; /* the smallest run of each island, rising; 0 from `count` on */
} deck_island_list;

typedef struct {
    uint64_t number; /* 0, or an enum deck_number */
    uint64_t place;
    uint64_t count; /* the number of done steps of the island; 0 where the call was refused */
    uint8_t history[DECK_STEPS]; /* their run numbers, in the order of the book's history; 0 from `count` on */
} deck_island_steps;

/* Lists the islands. Refused as the book is. */
deck_island_list deck_islands(const uint8_t *book, size_t book_len);

/* The history of the island whose smallest run is `run`. Refused as the book is, then by 27. */
deck_island_steps deck_island_history(const uint8_t *book, size_t book_len, uint8_t run);

/* Judges the island whose smallest run is `run`: as deck_judge does the book with the island's history in place of its own, all other commands being the
   book's. So the count of a pass is that of the island's done steps, and the places of a cycle are places in the island's history. Refused by 12 first,
   then as the book is, then by 27. deck_judge, with buffers as long as it asks, says passed exactly where this call says so of every island. */
deck_judgement deck_judge_island(const uint8_t *book, size_t book_len, uint8_t run, uint8_t *order, size_t order_len, uint8_t *cycle, size_t cycle_len);

/* Writes the book anew from what was read of it: its bytes to the front of `out`, all other bytes unchanged. The value is its length. Refused as the
   book is, then by 13. */
deck_answer deck_write(const uint8_t *book, size_t book_len, uint8_t *out, size_t out_len);

/* A gate, as deck_open hands it back. It holds no pointer, so a copy of it is a gate of its own. Programs may read it; only the calls below may write
   to it. A call refuses it by 26, and changes nothing, unless its tables are in range and agree with one another: `pairs`, `cuts`, `withdrawn` and
   `taken_back` hold 0 and 1 alone; there are at most DECK_RUNS runs, DECK_RUN_STEPS steps in a run and DECK_STEPS in all; each of `steps` is the code
   of a step; `total` is the sum of `lengths`; each of `counts` is how often the kept list has the run, at most its length, and `kept_count` is their
   sum; `lengths`, `steps` and `kept` are 0 behind the runs, the steps and the kept steps; each run taken back is withdrawn, and its count is 0. So is
   every record that deck_open hands back, and that a call leaves of such a one. Any other that is so is taken as the gate of the book, the kept list,
   the withdrawn runs and the runs taken back that it holds.

   The code of a touch is kind * DECK_POSITIONS + position, below DECK_TOUCHES. That of a single step is the code of its touch; that of a transfer is
   (t2 + 1) * (uint64_t)DECK_TOUCHES + t1, with the codes t1 and t2 of its first and its second touch. So a code below DECK_TOUCHES is of a single step,
   one from there on of a transfer, and each is below DECK_TOUCHES * (DECK_TOUCHES + 1), in 64 bits. */
typedef struct {
    uint8_t pairs[DECK_KINDS * DECK_KINDS]; /* 1 at a * DECK_KINDS + b for each listed pair of kinds a, b */
    uint8_t cuts[DECK_RUNS * DECK_RUN_STEPS * DECK_RUNS]; /* 1 at (r * DECK_RUN_STEPS + j) * DECK_RUNS + o for each cut in run r after its j-th step
                                                             as seen by run o */
    uint64_t steps[DECK_STEPS]; /* run after run, the code of each step */
    uint8_t lengths[DECK_RUNS]; /* the number of steps of each run */
    uint8_t counts[DECK_RUNS]; /* the number of kept steps of each run */
    uint8_t kept[DECK_STEPS]; /* the kept list: run numbers, kept_count of them */
    uint64_t declared; /* the number of runs */
    uint64_t total; /* the number of steps */
    uint64_t kept_count;
    uint8_t withdrawn[DECK_RUNS]; /* 1 for each withdrawn run, else 0 */
    uint8_t taken_back[DECK_RUNS]; /* 1 for each run taken back, else 0 */
} deck_gate;

typedef struct {
    uint64_t number; /* 0, or an enum deck_number */
    uint64_t place;
    deck_gate gate; /* without runs where the book was refused */
} deck_opened;

#ifdef __cplusplus
static_assert
#else
_Static_assert
#endif
    (sizeof(deck_gate) == 9688 && offsetof(deck_gate, withdrawn) == 9656 && offsetof(deck_gate, taken_back) == 9672 && sizeof(deck_opened) == 9704 &&
         sizeof(deck_island_list) == 64 && sizeof(deck_island_steps) == 152,
     "no padding");

/* Opens a gate over the book, whose own history plays no part: no step is kept, no run withdrawn or taken back. Refused as the book is. */
deck_opened deck_open(const uint8_t *book, size_t book_len);

/* Steps a run: refused by 26, 20, 21, 22, 23 in that order; else the run joins the end of the kept list, and the value is its place there. */
deck_answer deck_step(deck_gate *gate, uint8_t run);

/* Withdraws a run: refused by 26, 20, 21, 22 in that order; else the run is withdrawn, and the kept list stays. The value is 0. */
deck_answer deck_withdraw(deck_gate *gate, uint8_t run);

/* Takes a run back, which may be withdrawn or complete: refused by 26, 20, 32 in that order; else its steps leave the kept list, the others stay in
   order, and the run is withdrawn, if it was not. The value is 0. A step of another run, refused by 23 before, may be admitted afterwards. */
deck_answer deck_take_back(deck_gate *gate, uint8_t run);

/* Opens a gate over the book and makes the calls in turn on it. Two bytes a call: 0x53 and a run steps it, 0x57 and a run withdraws it, 0x54 and a run
   takes it back. Two bytes an answer, in order, to the front of `answers`, all other bytes unchanged: 0 and the place of an admitted step; 1 and 0 for
   a withdrawn run; 2 and the number of a refusal, 20 to 23 or 32; 3 and 0 for a run taken back. The value is the number of calls made.
   Refused as the book is, then by 24 at the offset of the first call that is none of these or is cut off, then by 25. */
deck_answer deck_replay(const uint8_t *book, size_t book_len, const uint8_t *calls, size_t calls_len, uint8_t *answers, size_t answers_len);

#ifdef __cplusplus
}
#endif
#endif
