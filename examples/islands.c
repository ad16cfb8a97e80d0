/* Judges the islands of the book on standard input: prints a line for each, with its runs, its history and the verdict on it with its evidence, or the
   number and place of the refusal. */
#include "deck.h"
#include <stdio.h>

static void print_numbers(const char *label, const uint8_t *list, uint64_t count) {
    printf("%s", label);
    for (uint64_t i = 0; i < count; i++)
        printf(" %d", list[i]);
}

/* Prints the line of the island whose smallest run is this one. */
static void print_island(const uint8_t *book, size_t len, const deck_island_list *islands, uint8_t run) {
    uint8_t order[DECK_BUFFER], cycle[DECK_BUFFER];
    deck_island_steps steps = deck_island_history(book, len, run);
    deck_judgement j = deck_judge_island(book, len, run, order, sizeof order, cycle, sizeof cycle);
    printf("runs");
    for (uint64_t r = 0; r < islands->runs; r++)
        if (islands->smallest[r] == run)
            printf(" %d", (int)r);
    print_numbers(", history", steps.history, steps.count);
    if (j.verdict == DECK_PASSED)
        print_numbers(", passed, order", order, j.count);
    else
        print_numbers(", tangled, cycle", cycle, j.count);
    printf("\n");
}

int main(void) {
    static uint8_t book[DECK_BOOK + 1]; /* one byte more than a book may have is enough to refuse it */
    size_t len = fread(book, 1, sizeof book, stdin);
    if (ferror(stdin)) {
        fprintf(stderr, "islands: cannot read standard input\n");
        return 2;
    }
    deck_island_list islands = deck_islands(book, len);
    if (islands.number) {
        printf("refused %d at %d\n", (int)islands.number, (int)islands.place);
        return 1;
    }
    for (uint64_t i = 0; i < islands.count; i++)
        print_island(book, len, &islands, islands.list[i]);
    return 0;
}
