/* What compare.c counts, and the lines that say it. */
#ifndef FIGURES_H
#define FIGURES_H
#include "deck.h"

/* How many books were compared, by the number of the refusal, which is 0 for an accepted book; how many accepted ones were tangled and passed. */
extern long books_by_number[UINT8_MAX + 1], verdicts[2];

/* How many lists of calls were compared, by the most steps that the gate kept at a time. */
extern long call_lists[DECK_STEPS + 1];

/* How many of their calls, by kind and by the number of the refusal, which is 0 for a call that was carried out. */
typedef enum { CALL_STEP, CALL_WITHDRAW, CALL_TAKE_BACK, CALL_KINDS } call_kind;
extern long call_counts[CALL_KINDS][UINT8_MAX + 1];

/* How many of the admitted steps are transfers; how many have a touch that homes. */
extern long admitted_transfers, admitted_homing;

/* How many of the take-backs: of a run with kept steps that is withdrawn, complete or neither, of a run with none kept, refused by 20, refused by 32. And
   how many steps were admitted of a run that was refused as tangled before a take-back. */
enum { BACK_WITHDRAWN, BACK_COMPLETE, BACK_OPEN, BACK_NONE_KEPT, BACK_NOT_DECLARED, BACK_AGAIN, BACK_ADMITTED, BACK_COUNTS };
extern long take_backs[BACK_COUNTS];

/* How many altered records of gates were compared: those not sound, those sound. */
extern long altered_records[2];

/* How often the arc test was compared on an accepted book, by the sum of enum deck_arcs that plain.c gives. */
enum { ARC_SUMS = DECK_ARC_I + DECK_ARC_D + DECK_ARC_F + DECK_ARC_B + 1 };
extern long arc_answers[ARC_SUMS];

/* How many accepted books: by how many islands they have; of those with several, by how many are tangled, and with one tangled and one of two runs or more
   passed; with two runs linked but not joined; with a run that is not the smallest of its island and is joined to larger ones alone; with runs of different
   islands that would be joined if all their steps were done. */
enum {
    ISLANDS_NONE,
    ISLANDS_ONE,
    ISLANDS_MORE,
    ISLANDS_PASSED,
    ISLANDS_ONE_TANGLED,
    ISLANDS_MORE_TANGLED,
    ISLANDS_BOTH,
    ISLANDS_LINKED,
    ISLANDS_LARGER,
    ISLANDS_UNDONE,
    ISLANDS_COUNTS
};
extern long island_books[ISLANDS_COUNTS];

/* How many islands were tangled and passed; how often an island was asked for by a run that names none, not declared and declared. */
extern long judged_islands[2], no_islands[2];

/* Print refused books by number, take-backs, answers of the arc test, and islands; as print_counts of books.h. */
int print_refused_books(void);
int print_take_backs(void);
int print_arc_answers(void);
int print_islands(void);

#endif
