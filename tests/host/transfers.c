/* Compares the proved calls with plain.c on the books in the files that are given, of raw bytes, and on many books from a seed, whole, damaged and over
   the limits. A book without a transfer is compared with plain.c as it was before transfers, and where it is accepted once more with each step written
   as a transfer of two equal touches, which has to give what the steps gave. A book with a transfer is compared with plain.c as it is; the reader before
   transfers has to refuse it by 2 at the first 54.
     transfers [-s SEED] [-n BOOKS] FILE..
   Prints 'N passed, M failed', a count of books, and how many there were of each sort, and for how many accepted ones with a transfer an answer is another
   than by the first touches alone. It fails where one of these counts is 0, unless there are fewer books from the seed than by default. */
#include "compare.h"

enum { BOOKS = 8000, SEED = 20261119 };

enum { REFUSED, WITHOUT, REFUSED_WITH, HOMES, WITH, COUNTS };

static book_count counts[COUNTS] = {
    [REFUSED] = {"refused books without a transfer up to the fault", 0},
    [WITHOUT] = {"accepted books without a transfer", 0},
    [REFUSED_WITH] = {"refused books with a transfer up to the fault or at it", 0},
    [HOMES] = {"accepted books in which a second touch homes", 0},
    [WITH] = {"accepted books with a transfer, beside what they give by the first touches alone", 0},
};

/* The offset of the first 54 behind whole commands, or the length where there is none. */
static size_t first_transfer(const uint8_t *book, size_t len) {
    size_t at = 0;
    while (at < len && book[at] != 0x54) {
        size_t size = command_size(book[at]);
        at = size == 0 || size > len - at ? len : at + size;
    }
    return at;
}

/* Whether the reader, which refuses the book by r or accepts it, comes to the first 54. */
static int comes_to(size_t first, size_t len, plain_refusal r) {
    return first < len && r.number != DECK_BOOK_TOO_LONG && (r.number == 0 || r.place >= first);
}

static int second_touch_homes(const step_record *step) { return plain_is_transfer(step) && step->touch[1].position == DECK_HOME; }

/* Compares a book without a transfer with plain.c as it was before transfers. */
static void compare_without(source *s, const uint8_t *book, size_t len, const plain_book *b, plain_refusal r) {
    static uint8_t bytes[BOOK_ROOM];
    plain_book doubled = *b;
    compare_book(s, book, len, b, r);
    counts[r.number ? REFUSED : WITHOUT].books++;
    if (r.number)
        return;
    for (int run = 0; run < b->runs; run++)
        for (int i = 0; i < b->length[run]; i++) {
            doubled.step[run][i].touches = 2;
            doubled.step[run][i].touch[1] = b->step[run][i].touch[0];
        }
    compare_book(s, bytes, plain_write(&doubled, bytes), &doubled, r);
}

/* Compares a book with a transfer. */
static void compare_with(source *s, const uint8_t *book, size_t len, const plain_book *b, plain_refusal r) {
    plain_book first = *b;
    compare_book(s, book, len, b, r);
    counts[r.number ? REFUSED_WITH : WITH].books++;
    if (r.number)
        return;
    first.first_touches = 1;
    count_differences(b, &first);
    counts[HOMES].books += plain_count(b, second_touch_homes) > 0;
}

static void compare(source *s, const uint8_t *book, size_t len) {
    plain_book b, before;
    plain_refusal r = plain_read(book, len, &b), earlier = plain_read_singles(book, len, &before);
    size_t first = first_transfer(book, len);
    int with = comes_to(first, len, r);
    plain_refusal want = with ? (plain_refusal){DECK_NO_COMMAND, first} : r;
    expect(earlier.number == want.number && earlier.place == want.place, "what the reader said before transfers");
    if (with)
        compare_with(s, book, len, &b, r);
    else
        compare_without(s, book, len, &before, earlier);
}

int main(int argc, char **argv) { return test_rules(argc, argv, by_default(SEED, BOOKS), compare, counts, COUNTS); }
