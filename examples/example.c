/* Judges the book on standard input: prints the verdict with its evidence, or the number and place of the refusal. */
#include "deck.h"
#include <stdio.h>

int main(void) {
    static uint8_t book[DECK_BOOK + 1]; /* one byte more than a book may have is enough to refuse it */
    uint8_t order[DECK_BUFFER], cycle[DECK_BUFFER];
    size_t len = fread(book, 1, sizeof book, stdin);
    if (ferror(stdin)) {
        fprintf(stderr, "example: cannot read standard input\n");
        return 2;
    }
    deck_judgement j = deck_judge(book, len, order, sizeof order, cycle, sizeof cycle);
    if (j.verdict == DECK_REFUSED) {
        printf("refused %d at %d\n", (int)j.number, (int)j.place);
        return 1;
    }
    printf("%s", j.verdict == DECK_PASSED ? "passed, order" : "tangled, cycle");
    for (size_t i = 0; i < j.count; i++)
        printf(" %d", j.verdict == DECK_PASSED ? order[i] : cycle[i]);
    printf("\n");
    return 0;
}
