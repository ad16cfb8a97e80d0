/* Runs the built program on many books from a seed, whole and damaged, and compares what it writes with what plain.c says.
     program [-s SEED] [-n BOOKS] DECK FILE       FILE is where each book is put for the program to read
   Prints 'N passed, M failed', a count of books, and how many arcs of the printed cycles have each letter. It fails where one of these counts is 0, unless
   there are fewer books than by default; that of I, which is rare in a cycle, may be 0 by another seed too. */
#include "books.h"
#include "plain.h"
#include <stdio.h>
#include <stdlib.h>
#include <string.h>

enum { TEXT = 4096, BOOKS = 8000, SEED = 1998 }; /* by this seed each letter is printed */

static const char *deck, *file;

/* The letters of the arcs, in the order in which they are looked for, and how many were printed. */
static struct {
    int arc;
    const char *letter;
    long printed;
} letters[] = {
    {DECK_ARC_I, "I", 0},
    {DECK_ARC_D, "D", 0},
    {DECK_ARC_F, "F", 0},
    {DECK_ARC_B, "B", 0},
};
enum { LETTERS = sizeof letters / sizeof *letters };

/* What the program writes for a book. */
static size_t run(const uint8_t *book, size_t len, char *text) {
    char command[512];
    FILE *f = fopen(file, "wb");
    if (!f || fwrite(book, 1, len, f) != len || fclose(f)) {
        fprintf(stderr, "program: cannot write %s\n", file);
        exit(2);
    }
    snprintf(command, sizeof command, "'%s' < '%s'", deck, file);
    FILE *p = popen(command, "r");
    if (!p) {
        fprintf(stderr, "program: cannot run %s\n", deck);
        exit(2);
    }
    size_t n = fread(text, 1, TEXT - 1, p);
    text[n] = 0;
    return pclose(p) ? 0 : n;
}

/* Reads a line of numbers behind a word: the text behind it, or null if the text begins with anything else. */
static const char *numbers(const char *text, const char *word, uint8_t *list, size_t *count) {
    size_t n = strlen(word);
    if (strncmp(text, word, n))
        return NULL;
    *count = 0;
    for (text += n; *text == ' '; (*count)++) {
        char *end;
        long x = strtol(text + 1, &end, 10);
        if (end == text + 1 || x < 0 || x > UINT8_MAX || *count == DECK_STEPS || (text[1] == '0' && end != text + 2))
            return NULL;
        list[*count] = (uint8_t)x;
        text = end;
    }
    return *text == '\n' ? text + 1 : NULL;
}

/* Whether the text is the line of arcs under a cycle: for each, the one back to the first place last, the first letter that holds. Counts the letters. */
static int right_arcs(const char *text, const plain_book *b, const uint8_t *cycle, size_t count) {
    if (strncmp(text, "arcs", 4))
        return 0;
    text += 4;
    for (size_t i = 0; i < count; i++) {
        int arcs = plain_arc(b, cycle[i], cycle[(i + 1) % count]), k = 0;
        while (k < LETTERS && !(arcs & letters[k].arc))
            k++;
        if (k == LETTERS || text[0] != ' ' || text[1] != *letters[k].letter)
            return 0;
        letters[k].printed++;
        text += 2;
    }
    return !strcmp(text, "\n");
}

static int right(const char *text, const uint8_t *book, size_t len) {
    static const char *const word[] = {"no", "yes"};
    char head[256];
    uint8_t order[DECK_STEPS], cycle[DECK_STEPS], list[DECK_STEPS];
    plain_book b;
    int count;
    size_t n;
    plain_refusal r = plain_read(book, len, &b);
    if (r.number) {
        snprintf(head, sizeof head, "refused %d at %zu\n", r.number, r.place);
        return !strcmp(text, head);
    }
    int passed = plain_judge(&b, order, cycle, &count);
    snprintf(head, sizeof head, "done %d\nserial %s\natomic %s\nrelserial %s\nconflict %s\nverdict %s\n", b.n, word[plain_serial(&b)],
             word[plain_atomic(&b)], word[plain_relserial(&b)], word[plain_conflict(&b)], passed ? "passed" : "tangled");
    if (strncmp(text, head, strlen(head)))
        return 0;
    text += strlen(head);
    text = numbers(text, passed ? "order" : "cycle", list, &n);
    if (passed)
        return text && n == (size_t)count && !memcmp(list, order, n) && !*text;
    return text && plain_cycle_check(&b, list, n) && right_arcs(text, &b, list, n);
}

static void compare(source *s, const uint8_t *book, size_t len) {
    static char text[TEXT];
    (void)s;
    expect(run(book, len, text) && right(text, book, len), "the program's text");
}

int main(int argc, char **argv) {
    selection chosen = by_default(SEED, BOOKS);
    char **operands = read_options(argc, argv, " DECK FILE", 2, 2, &chosen);
    deck = operands[0];
    file = operands[1];
    int status = test_books(&chosen, compare);
    remove(file);
    for (int k = 0; k < LETTERS; k++) {
        printf("arcs printed as %s: %ld\n", letters[k].letter, letters[k].printed);
        if (letters[k].arc != DECK_ARC_I || chosen.seed == SEED)
            status |= none(letters[k].printed, letters[k].letter, "with such an arc");
    }
    return status;
}
