/* Holds a gate open over the book in a file: reads calls from standard input, "step R", "withdraw R" or "take back R" a line for run R, and answers each at
   once. At the end of the input it prints the kept list, the withdrawn runs and the runs taken back. */
#include "deck.h"
#include <stdio.h>

/* Prints the runs whose flag is 1. */
static void print_runs(const char *label, const uint8_t *flags) {
    printf("%s", label);
    for (int r = 0; r < DECK_RUNS; r++)
        if (flags[r])
            printf(" %d", r);
    printf("\n");
}

static void print_state(const deck_gate *gate) {
    printf("kept");
    for (uint64_t i = 0; i < gate->kept_count; i++)
        printf(" %d", gate->kept[i]);
    printf("\n");
    print_runs("withdrawn", gate->withdrawn);
    print_runs("taken back", gate->taken_back);
}

/* Makes the call that a line of input says, and prints the answer; 0 if the line is no call. */
static int make_call(deck_gate *gate, const char *line) {
    unsigned run;
    char more;
    int step = sscanf(line, "step %3u %c", &run, &more) == 1;
    int withdraw = sscanf(line, "withdraw %3u %c", &run, &more) == 1;
    int take_back = sscanf(line, "take back %3u %c", &run, &more) == 1;
    if (!(step || withdraw || take_back) || run > UINT8_MAX)
        return 0;
    deck_answer a = (step ? deck_step : withdraw ? deck_withdraw : deck_take_back)(gate, (uint8_t)run);
    if (a.number)
        printf("refused %d\n", (int)a.number);
    else if (step)
        printf("place %d\n", (int)a.value);
    else
        printf("%s\n", withdraw ? "withdrawn" : "taken back");
    fflush(stdout);
    return 1;
}

int main(int argc, char **argv) {
    static uint8_t book[DECK_BOOK + 1]; /* one byte more than a book may have is enough to refuse it */
    char line[64];
    FILE *file = argc == 2 ? fopen(argv[1], "rb") : NULL;
    size_t len = file ? fread(book, 1, sizeof book, file) : 0;
    if (!file || ferror(file) || fclose(file)) {
        fprintf(stderr, "usage: gate BOOK, a file that can be read\n");
        return 2;
    }
    deck_opened opened = deck_open(book, len);
    if (opened.number) {
        printf("refused %d at %d\n", (int)opened.number, (int)opened.place);
        return 1;
    }
    for (int number = 1; fgets(line, sizeof line, stdin); number++)
        if (!make_call(&opened.gate, line)) {
            fprintf(stderr, "gate: line %d is no call: %s", number, line);
            return 2;
        }
    print_state(&opened.gate);
    return 0;
}
