/* The proved calls beside plain.c, on one book: every call, on drawn lists, places and calls to the gate, and on gates' records, as the calls leave them
   and altered; the evidence of each verdict, and the arcs of its cycle; the islands, and the verdict on each. And plain.c by the rules as they are beside
   plain.c by earlier ones. */
#include "compare.h"
#include <string.h>

enum { CALLS = 200 }; /* a list has fewer */
enum { SOAKING_CALLS = 2 * DECK_STEPS + 8, SOAKING_LISTS = 3 }; /* the same while soaking, on a full book; so many lists on an accepted one */
enum { ROOM = DECK_BUFFER + 72 }; /* of each buffer, filled beforehand so that a stray byte shows */
enum { SHORT = 6 }; /* done steps, at most, of a history on whose every pair of places the arcs are compared */

int soaking;

static int untouched(const uint8_t *buffer, size_t from, size_t len, uint8_t fill) {
    for (size_t i = from; i < len; i++)
        if (buffer[i] != fill)
            return 0;
    return 1;
}

static void compare_answer(deck_answer a, plain_refusal r, int value, const char *what) {
    expect(a.number == (uint64_t)r.number && a.place == r.place && a.value == (uint64_t)(r.number ? 0 : value), what);
}

/* A list that is often nearly right: the order or cycle found, with some places changed. */
static size_t draw_list(source *s, const uint8_t *found, size_t count, unsigned limit, uint8_t *list) {
    size_t len = below(s, 3) ? count : below(s, ROOM);
    for (size_t i = 0; i < len; i++)
        list[i] = i < count ? found[i] : (uint8_t)below(s, limit + 2);
    if (len && below(s, 2)) {
        size_t i = below(s, (unsigned)len), j = below(s, (unsigned)len);
        uint8_t x = list[i];
        list[i] = list[j];
        list[j] = x;
    }
    if (len && below(s, 4) == 0) {
        size_t at = below(s, (unsigned)len);
        list[at] = (uint8_t)draw(s);
    }
    return len;
}

static void compare_judge(const uint8_t *book, size_t len, const plain_book *b, plain_refusal r, uint8_t *found, int *count, int *passed) {
    uint8_t order[ROOM], cycle[ROOM], plain_order[DECK_STEPS], plain_cycle[DECK_STEPS];
    memset(order, 0xa5, ROOM);
    memset(cycle, 0x5a, ROOM);
    deck_judgement j = deck_judge(book, len, order, ROOM, cycle, ROOM);
    *count = 0;
    *passed = 0;
    if (r.number) {
        expect(j.number == (uint64_t)r.number && j.place == r.place && j.verdict == DECK_REFUSED && j.count == 0, "judge: refusal");
        expect(untouched(order, 0, ROOM, 0xa5) && untouched(cycle, 0, ROOM, 0x5a), "judge: buffers of a refusal");
        return;
    }
    *passed = plain_judge(b, plain_order, plain_cycle, count);
    verdicts[*passed]++;
    expect(j.number == 0 && j.place == 0 && j.verdict == (*passed ? DECK_PASSED : DECK_TANGLED), "judge: verdict");
    if (*passed) {
        expect(j.count == (uint64_t)*count && memcmp(order, plain_order, (size_t)*count) == 0, "judge: order");
        expect(untouched(order, (size_t)*count, ROOM, 0xa5) && untouched(cycle, 0, ROOM, 0x5a), "judge: buffers of a pass");
        memcpy(found, order, (size_t)*count);
    } else {
        if (!expect(j.count <= DECK_STEPS && plain_cycle_check(b, cycle, j.count), "judge: cycle"))
            return;
        *count = (int)j.count;
        expect(untouched(cycle, j.count, ROOM, 0x5a) && untouched(order, 0, ROOM, 0xa5), "judge: buffers of a tangle");
        memcpy(found, cycle, j.count);
    }
}

static void compare_short_buffers(source *s, const uint8_t *book, size_t len) {
    uint8_t order[ROOM], cycle[ROOM];
    size_t a = below(s, DECK_BUFFER), b = below(s, ROOM);
    memset(order, 1, ROOM);
    memset(cycle, 1, ROOM);
    deck_judgement j = below(s, 2) ? deck_judge(book, len, order, a, cycle, b) : deck_judge(book, len, order, b, cycle, a);
    expect(j.number == DECK_JUDGE_BUFFER_SHORT && j.place == 0 && j.verdict == DECK_REFUSED && j.count == 0, "judge: short buffer");
    expect(untouched(order, 0, ROOM, 1) && untouched(cycle, 0, ROOM, 1), "judge: short buffers unchanged");
}

/* The runs whose island is asked for: each that a book can have, those behind it, and the last. */
static const uint8_t asked[] = {0, 1, 2, 3, 4, 5, 6, 7, 8, 9, 10, 11, 12, 13, 14, 15, 16, 17, UINT8_MAX};
enum { ASKED = sizeof asked };

/* The buffers of an island's judge, filled beforehand, and its answer. */
typedef struct {
    uint8_t order[ROOM], cycle[ROOM];
    deck_judgement answer;
} judging;

static void judge_island(const uint8_t *book, size_t len, uint8_t run, size_t order_len, size_t cycle_len, judging *j) {
    memset(j->order, 0xa5, ROOM);
    memset(j->cycle, 0x5a, ROOM);
    j->answer = deck_judge_island(book, len, run, j->order, order_len, j->cycle, cycle_len);
}

/* The first bytes of the buffers are the evidence, those behind it as they were. */
static int filled(const judging *j, size_t order_count, size_t cycle_count) {
    return untouched(j->order, order_count, ROOM, 0xa5) && untouched(j->cycle, cycle_count, ROOM, 0x5a);
}

static void compare_refused_judging(const judging *j, plain_refusal r, const char *what) {
    const deck_judgement *a = &j->answer;
    expect(a->number == (uint64_t)r.number && a->place == r.place && a->verdict == DECK_REFUSED && a->count == 0 && filled(j, 0, 0), what);
}

/* Compares the verdict on an island and its evidence, which is right by the checks too, on the bytes of the book with the island's history. Answers whether
   the island is passed. */
static int compare_verdict(const judging *j, const plain_book *island) {
    static uint8_t bytes[BOOK_ROOM];
    uint8_t order[DECK_STEPS], cycle[DECK_STEPS];
    const deck_judgement *a = &j->answer;
    const plain_refusal accepted = {0};
    size_t len = plain_write(island, bytes);
    int count, passed = plain_judge(island, order, cycle, &count);
    judged_islands[passed]++;
    expect(a->number == 0 && a->place == 0 && a->verdict == (passed ? DECK_PASSED : DECK_TANGLED), "judge of an island: verdict");
    if (passed) {
        expect(a->count == (uint64_t)count && memcmp(j->order, order, (size_t)count) == 0 && filled(j, (size_t)count, 0), "judge of an island: order");
        compare_answer(deck_check_order(bytes, len, order, (size_t)count), accepted, 1, "judge of an island: order check of its order");
    } else if (expect(a->count <= DECK_STEPS && plain_cycle_check(island, j->cycle, a->count) && filled(j, 0, a->count), "judge of an island: cycle")) {
        compare_answer(deck_check_cycle(bytes, len, j->cycle, a->count), accepted, 1, "judge of an island: cycle check of its cycle");
    }
    return passed;
}

/* Compares the list of a book's islands, or what it is refused by. */
static void compare_island_list(const uint8_t *book, size_t len, const plain_book *b, plain_refusal r, const plain_islands *found) {
    deck_island_list want = {.number = (uint64_t)r.number, .place = r.place}, got = deck_islands(book, len);
    if (!r.number) {
        want.runs = (uint64_t)b->runs;
        want.count = (uint64_t)found->count;
        memcpy(want.smallest, found->smallest, sizeof want.smallest);
        memcpy(want.list, found->list, sizeof want.list);
    }
    expect(memcmp(&got, &want, sizeof want) == 0, "islands: the list");
}

/* Compares the history of an island and the verdict on it, or what both are refused by; `island` is the book with that history. Answers whether the island
   is passed. */
static int compare_island(const uint8_t *book, size_t len, uint8_t run, const plain_book *island, plain_refusal r) {
    deck_island_steps want = {.number = (uint64_t)r.number, .place = r.place}, got = deck_island_history(book, len, run);
    judging j;
    if (!r.number) {
        want.count = (uint64_t)island->n;
        memcpy(want.history, island->history, sizeof want.history);
    }
    expect(memcmp(&got, &want, sizeof want) == 0, "islands: a history");
    judge_island(book, len, run, ROOM, ROOM, &j);
    if (!r.number)
        return compare_verdict(&j, island);
    compare_refused_judging(&j, r, "judge of an island: refusal");
    return 0;
}

static void compare_short_island_buffers(source *s, const uint8_t *book, size_t len) {
    const plain_refusal r = {DECK_JUDGE_BUFFER_SHORT, 0};
    size_t a = below(s, DECK_BUFFER), b = below(s, ROOM);
    int first = (int)below(s, 2); /* which of the buffers is short */
    judging j;
    for (int k = 0; k < ASKED; k++) {
        judge_island(book, len, asked[k], first ? a : b, first ? b : a, &j);
        compare_refused_judging(&j, r, "judge of an island: short buffer");
    }
}

/* Counts an accepted book by its islands, of which so many are tangled. */
static void count_islands(const plain_book *b, const plain_islands *found, int tangled) {
    plain_book all = *b; /* with every step done */
    int of_several = 0, linked = 0, larger = 0, undone = 0;
    memcpy(all.done, all.length, sizeof all.done);
    for (int r = 0; r < b->runs; r++) {
        int runs = 0, smaller = 0; /* in its island; joined to it */
        for (int s = 0; s < b->runs; s++) {
            int same = found->smallest[r] == found->smallest[s], joined = plain_joined(b, r, s);
            runs += same;
            smaller += joined && s < r;
            linked += same && !joined && s != r;
            undone += !same && plain_joined(&all, r, s);
        }
        of_several += found->smallest[r] == r && runs > 1;
        larger += found->smallest[r] != r && !smaller;
    }
    island_books[found->count == 0 ? ISLANDS_NONE : found->count == 1 ? ISLANDS_ONE : ISLANDS_MORE]++;
    if (found->count > 1)
        island_books[tangled == 0 ? ISLANDS_PASSED : tangled == 1 ? ISLANDS_ONE_TANGLED : ISLANDS_MORE_TANGLED]++;
    island_books[ISLANDS_BOTH] += tangled > 0 && of_several > tangled; /* a tangled one has two runs at least */
    island_books[ISLANDS_LINKED] += linked > 0;
    island_books[ISLANDS_LARGER] += larger > 0;
    island_books[ISLANDS_UNDONE] += undone > 0;
}

/* Compares the islands of a book, and the calls on each run asked for. It draws from a copy, so that the draws to come are as without it. */
static void compare_islands(const source *s, const uint8_t *book, size_t len, const plain_book *b, plain_refusal r) {
    uint8_t order[DECK_BUFFER], cycle[DECK_BUFFER];
    plain_islands found = {0};
    source copy = *s;
    int tangled = 0;
    if (!r.number)
        found = plain_find_islands(b);
    compare_short_island_buffers(&copy, book, len);
    compare_island_list(book, len, b, r, &found);
    for (int k = 0; k < ASKED; k++) {
        plain_book island;
        if (r.number) {
            compare_island(book, len, asked[k], NULL, r);
        } else if (plain_names_island(b, &found, asked[k])) {
            island = plain_island_book(b, &found, asked[k]);
            tangled += !compare_island(book, len, asked[k], &island, r);
        } else {
            compare_island(book, len, asked[k], NULL, (plain_refusal){DECK_NO_ISLAND, 0});
            no_islands[asked[k] < b->runs]++;
        }
    }
    if (r.number)
        return;
    deck_judgement whole = deck_judge(book, len, order, sizeof order, cycle, sizeof cycle);
    expect(whole.verdict == (tangled ? DECK_TANGLED : DECK_PASSED), "islands: the history is passed exactly when that of every island is");
    count_islands(b, &found, tangled);
}

void compare_islands_alone(source *s, const uint8_t *book, size_t len) {
    plain_book b;
    plain_refusal r = plain_read(book, len, &b);
    compare_islands(s, book, len, &b, r);
}

static void compare_writer(source *s, const uint8_t *book, size_t len, plain_refusal r) {
    static uint8_t out[BOOK_ROOM + 64];
    memset(out, 0x77, sizeof out);
    compare_answer(deck_write(book, len, out, sizeof out), r, (int)len, "writer: answer");
    expect(r.number ? untouched(out, 0, sizeof out, 0x77) : memcmp(out, book, len) == 0 && untouched(out, len, sizeof out, 0x77), "writer: buffer");
    if (!r.number) {
        size_t room = below(s, (unsigned)len);
        memset(out, 0x77, sizeof out);
        deck_answer a = deck_write(book, len, out, room);
        expect(a.number == DECK_WRITER_BUFFER_SHORT && a.place == 0 && a.value == 0 && untouched(out, 0, sizeof out, 0x77), "writer: short buffer");
    }
}

/* The record is that of the plain gate: sound, with its book, kept list, withdrawn runs and runs taken back, and each listed pair a, b with a at most b. */
static int same_gate(const deck_gate *live, const plain_gate *g) {
    plain_gate held;
    if (!plain_sound(live))
        return 0;
    for (int x = 0; x < DECK_KINDS; x++)
        if (!untouched(live->pairs + x * DECK_KINDS, 0, (size_t)x, 0))
            return 0;
    plain_gate_of(live, &held);
    held.book.home = g->book.home; /* the rules are no part of a record */
    held.book.first_touches = g->book.first_touches;
    return memcmp(&held, g, sizeof held) == 0;
}

/* Opens a gate over a book, of which the plain gate is this one. */
static deck_gate compare_opening(const uint8_t *book, size_t len, plain_refusal r, const plain_gate *g) {
    deck_opened o = deck_open(book, len);
    expect(o.number == (uint64_t)r.number && o.place == r.place, "gate: opening");
    expect(same_gate(&o.gate, g), "gate: the record as opened");
    return o.gate;
}

/* The kinds of call to a gate. */
static const struct {
    uint8_t byte; /* in a list of calls */
    uint8_t answer; /* the first byte of a replay's answer to a call that is carried out */
    deck_answer (*proved)(deck_gate *gate, uint8_t run);
    int (*plain)(plain_gate *g, int r); /* the answer, or minus the number of the refusal */
} gate_calls[CALL_KINDS] = {
    [CALL_STEP] = {0x53, 0, deck_step, plain_step},
    [CALL_WITHDRAW] = {0x57, 1, deck_withdraw, plain_withdraw},
    [CALL_TAKE_BACK] = {0x54, 3, deck_take_back, plain_take_back},
};
enum { REFUSED = 2 }; /* the first byte of a replay's answer to a refused call */

/* The kind of the call that the byte is. */
static call_kind kind_of(uint8_t byte) {
    call_kind kind = CALL_STEP;
    while (gate_calls[kind].byte != byte)
        kind++;
    return kind;
}

/* The record that a call leaves of this one where it is carried out. */
static deck_gate after_call(const deck_gate *record, call_kind kind, unsigned run) {
    deck_gate next = *record;
    if (kind == CALL_STEP) {
        next.kept[next.kept_count++] = (uint8_t)run;
        next.counts[run]++;
        return next;
    }
    next.withdrawn[run] = 1;
    if (kind == CALL_WITHDRAW)
        return next;
    next.taken_back[run] = 1;
    next.counts[run] = 0;
    next.kept_count = 0;
    memset(next.kept, 0, sizeof next.kept);
    for (uint64_t p = 0; p < record->kept_count; p++)
        if (record->kept[p] != run)
            next.kept[next.kept_count++] = record->kept[p];
    return next;
}

/* Makes a call on the record: compares its answer with the one wanted, given as by plain.c, and every byte of the record after it. */
static void compare_call(deck_gate *record, call_kind kind, int run, int want, const char *what) {
    deck_gate next = want < 0 ? *record : after_call(record, kind, (unsigned)run);
    deck_answer a = gate_calls[kind].proved(record, (uint8_t)run);
    compare_answer(a, (plain_refusal){want < 0 ? -want : 0, 0}, want, what);
    expect(memcmp(record, &next, sizeof next) == 0, what);
}

/* Opens a gate over a refused book: it has no runs. */
static void compare_refused_gate(const uint8_t *book, size_t len, plain_refusal r) {
    plain_gate empty = {0};
    deck_gate live = compare_opening(book, len, r, &empty);
    for (call_kind kind = 0; kind < CALL_KINDS; kind++)
        compare_call(&live, kind, 0, -DECK_GATE_NOT_DECLARED, "gate: a call on a gate without runs");
}

static uint64_t draw_touch(source *s) {
    unsigned position = below(s, 2) ? below(s, DECK_POSITIONS) : DECK_HOME;
    return below(s, DECK_KINDS) * DECK_POSITIONS + position;
}

/* Any run, or one of the two that most books have. */
static unsigned draw_run(source *s) {
    unsigned runs = below(s, 2) ? DECK_RUNS : 2;
    return below(s, runs);
}

/* Any place in a table of steps, or one of the four that most books have. */
static unsigned draw_place(source *s) {
    unsigned steps = below(s, 2) ? DECK_STEPS : 4;
    return below(s, steps);
}

/* Each of the next six changes a record in one way, after which it may still be sound. This one: some byte, or every byte. */
static void alter_bytes(source *s, deck_gate *record) {
    uint8_t *bytes = (uint8_t *)record;
    size_t at = below(s, sizeof *record);
    int all = below(s, 2) == 0;
    for (size_t i = 0; i < sizeof *record; i++)
        if (all || i == at)
            bytes[i] = (uint8_t)draw(s);
}

/* A flag of the pairs, the cuts or the withdrawn runs. */
static void alter_flag(source *s, deck_gate *record) {
    uint8_t flag = (uint8_t)below(s, 3);
    switch (below(s, 3)) {
    case 0:
        record->pairs[below(s, sizeof record->pairs)] = flag;
        break;
    case 1:
        record->cuts[below(s, sizeof record->cuts)] = flag;
        break;
    default:
        record->withdrawn[draw_run(s)] = flag;
    }
}

/* The flag of a run taken back: alone, with the withdrawn flag, or with this and the run's steps out of the kept list. */
static void alter_taken_back(source *s, deck_gate *record) {
    unsigned r = draw_run(s), way = below(s, 3);
    if (way == 2 && record->kept_count <= DECK_STEPS)
        *record = after_call(record, CALL_TAKE_BACK, r);
    if (way > 0)
        record->withdrawn[r] = 1;
    record->taken_back[r] = (uint8_t)below(s, 3);
}

/* The number of runs, of steps or of kept steps. */
static void alter_number(source *s, deck_gate *record) {
    static const uint64_t edges[] = {0, DECK_RUNS, DECK_RUNS + 1, DECK_STEPS, DECK_STEPS + 1, UINT64_MAX};
    uint64_t *numbers[] = {&record->declared, &record->total, &record->kept_count}, *number = numbers[below(s, 3)];
    if (below(s, 2))
        *number = edges[below(s, sizeof edges / sizeof *edges)];
    else
        *number += below(s, 2) ? 1 : UINT64_MAX; /* one more or one less */
}

/* A step or a length. */
static void alter_step(source *s, deck_gate *record) {
    static const uint64_t codes[] = {DECK_TOUCHES, DECK_TOUCHES * (DECK_TOUCHES + 1ull), UINT64_MAX}; /* of the first transfer, behind the last, the largest */
    unsigned r = draw_run(s), p = draw_place(s);
    uint8_t length = (uint8_t)below(s, DECK_RUN_STEPS + 2);
    switch (below(s, 4)) {
    case 0:
        record->steps[p] = draw_touch(s);
        if (below(s, 2))
            record->steps[p] += (draw_touch(s) + 1) * DECK_TOUCHES;
        break;
    case 1:
        record->steps[p] = codes[below(s, sizeof codes / sizeof *codes)];
        record->steps[p] -= below(s, 2);
        break;
    case 2: /* with the sum of the lengths */
        record->total += (uint64_t)length - record->lengths[r];
        record->lengths[r] = length;
        break;
    default:
        record->lengths[r] = length;
    }
}

/* A count or a kept step. */
static void alter_kept(source *s, deck_gate *record) {
    unsigned r = draw_run(s), q = draw_run(s), p = draw_place(s);
    switch (below(s, 6)) {
    case 0:
        record->counts[r]++;
        break;
    case 1: /* with the sum of the counts */
        record->counts[r]++;
        record->counts[q]--;
        break;
    case 2: /* with its count */
        record->counts[r]++;
        record->kept[record->kept_count++ % DECK_STEPS] = (uint8_t)r;
        break;
    case 3: /* of no run */
        record->kept[record->kept_count++ % DECK_STEPS] = DECK_RUNS;
        break;
    case 4:
        record->kept[p] = (uint8_t)r;
        break;
    default: /* with both counts */
        q = record->kept[p] % DECK_RUNS;
        record->counts[q]--;
        record->counts[r]++;
        record->kept[p] = (uint8_t)r;
    }
}

/* Changes a record in one way. */
static void alter_record(source *s, deck_gate *record) {
    static void (*const ways[])(source *s, deck_gate *record) = {
        alter_bytes, alter_flag, alter_taken_back, alter_number, alter_step, alter_step, alter_kept, alter_kept, /* the last two with twice the chance */
    };
    ways[below(s, sizeof ways / sizeof *ways)](s, record);
}

/* At times changes a copy of the record and makes a call of each kind on it, any of them first: where the copy is sound as on its plain gate, else refused
   by 26. */
static void compare_altered(const deck_gate *live) {
    plain_gate g;
    if (below(&aside, 4))
        return;
    deck_gate record = *live;
    for (unsigned times = 1 + below(&aside, 3); times > 0; times--)
        alter_record(&aside, &record);
    if (memcmp(&record, live, sizeof record) == 0)
        return;
    int sound = plain_sound(&record);
    if (sound)
        plain_gate_of(&record, &g);
    altered_records[sound]++;
    unsigned first = below(&aside, CALL_KINDS);
    for (unsigned k = 0; k < CALL_KINDS; k++) {
        call_kind kind = (first + k) % CALL_KINDS;
        int run = (int)(below(&aside, 4) ? draw_run(&aside) : below(&aside, UINT8_MAX + 1));
        compare_call(&record, kind, run, sound ? gate_calls[kind].plain(&g, run) : -DECK_GATE_DAMAGED, "gate: a call on an altered record");
    }
}

/* What became of each run number in the calls so far. */
typedef struct {
    int withdrawn[UINT8_MAX + 1]; /* by a withdrawal or a take-back */
    int tangled[UINT8_MAX + 1]; /* a step was refused as tangled since the last take-back that was carried out */
    int tangled_before[UINT8_MAX + 1]; /* one was so before it, and none was admitted since */
} past;

/* Checks demand 3's sentences at a call and its answer, given as by plain.c: a withdrawn run is never admitted later, a tangled one not up to the next
   take-back that is carried out. */
static void check_sentences(past *h, call_kind kind, int run, int want) {
    if (want == -DECK_GATE_TANGLED)
        h->tangled[run] = 1;
    if (want < 0)
        return;
    if (kind == CALL_STEP) {
        expect(!h->withdrawn[run], "gate: a withdrawn run admitted later");
        expect(!h->tangled[run], "gate: a tangled run admitted before a take-back");
        take_backs[BACK_ADMITTED] += h->tangled_before[run];
        h->tangled_before[run] = 0;
    } else
        h->withdrawn[run] = 1;
    for (int r = 0; kind == CALL_TAKE_BACK && r <= UINT8_MAX; r++) {
        h->tangled_before[r] |= h->tangled[r];
        h->tangled[r] = 0;
    }
}

/* Counts a call and its answer, given as by plain.c, on the plain gate that it leaves. */
static void count_call(const plain_gate *g, call_kind kind, int run, int want) {
    call_counts[kind][want < 0 ? -want : 0]++;
    if (kind == CALL_STEP && want >= 0) {
        const step_record *step = &g->book.step[run][g->book.done[run] - 1];
        admitted_transfers += plain_is_transfer(step);
        admitted_homing += plain_homes(step);
    }
}

/* The count to which a take-back on the record belongs, by its answer, given as by plain.c, and the run before it. */
static int count_of(const deck_gate *record, int run, int want) {
    if (want < 0)
        return want == -DECK_GATE_NOT_DECLARED ? BACK_NOT_DECLARED : BACK_AGAIN;
    if (record->counts[run] == 0)
        return BACK_NONE_KEPT;
    if (record->withdrawn[run])
        return BACK_WITHDRAWN;
    return record->counts[run] == record->lengths[run] ? BACK_COMPLETE : BACK_OPEN;
}

/* The judge, called apart from the list, on the book with the kept list. */
static void compare_kept(const plain_gate *g) {
    static uint8_t kept[BOOK_ROOM];
    uint8_t order[DECK_STEPS], cycle[DECK_STEPS];
    size_t size = plain_write(&g->book, kept);
    expect(deck_judge(kept, size, order, sizeof order, cycle, sizeof cycle).verdict == DECK_PASSED, "gate: the book with the kept list is passed");
}

/* Makes n calls one by one on a record and on the plain gate, and at times on an altered copy of the record; compares the answers of a replay with theirs,
   and checks demand 3's sentences. */
static void compare_calls(const uint8_t *book, size_t len, const plain_book *b, const uint8_t *calls, size_t n, const uint8_t *answers) {
    past h = {0};
    plain_gate g;
    int most = 0; /* kept at a time */
    plain_open(b, &g);
    deck_gate live = compare_opening(book, len, (plain_refusal){0, 0}, &g);
    for (size_t i = 0; i < n; i++) {
        call_kind kind = kind_of(calls[2 * i]);
        int run = calls[2 * i + 1], want = gate_calls[kind].plain(&g, run), value = want < 0 ? -want : want;
        count_call(&g, kind, run, want);
        if (kind == CALL_TAKE_BACK)
            take_backs[count_of(&live, run, want)]++;
        compare_altered(&live);
        compare_call(&live, kind, run, want, "gate: a call on the record");
        expect(same_gate(&live, &g), "gate: the record after a call");
        expect(answers[2 * i] == (want < 0 ? REFUSED : gate_calls[kind].answer) && answers[2 * i + 1] == value, "gate: an answer");
        check_sentences(&h, kind, run, want);
        if (kind == CALL_TAKE_BACK && want >= 0)
            compare_kept(&g);
        most = g.book.n > most ? g.book.n : most;
    }
    compare_kept(&g);
    call_lists[most]++;
}

/* Mostly a step. */
static call_kind draw_kind(source *s) {
    unsigned k = below(s, 16);
    return k == 0 ? CALL_WITHDRAW : k == 1 ? CALL_TAKE_BACK : CALL_STEP;
}

/* A byte that is no call, any of the 253. */
static uint8_t draw_no_call(source *s) {
    uint8_t byte = (uint8_t)(0x55 + below(s, 253)); /* none of 0x52, 0x53 and 0x54 */
    return byte == 0x57 ? 0x52 : byte;
}

/* Draws calls to the gate of a book; answers how many. */
static size_t draw_calls(source *s, const plain_book *b, uint8_t *calls) {
    size_t n = below(s, soaking ? 2 * (unsigned)b->steps + 8 : CALLS), along = 0; /* so many are the first steps of the history */
    for (size_t i = 0; i < n; i++) {
        calls[2 * i] = gate_calls[draw_kind(s)].byte;
        calls[2 * i + 1] = (uint8_t)(below(s, 50) ? below(s, (unsigned)b->runs + 1) : draw(s));
    }
    if (soaking && below(s, 2))
        along = below(s, 2) ? n : below(s, (unsigned)n + 1);
    for (size_t i = 0; i < along && i < (size_t)b->n; i++) {
        calls[2 * i] = gate_calls[CALL_STEP].byte;
        calls[2 * i + 1] = b->history[i];
    }
    return n;
}

/* Makes a list of calls, at times with a byte that is no call or cut off, by replay, and where it is made compares the answers. */
static void compare_gate(source *s, const uint8_t *book, size_t len, const plain_book *b, plain_refusal r) {
    static uint8_t calls[2 * SOAKING_CALLS + 1], answers[2 * SOAKING_CALLS + 8];
    size_t n = draw_calls(s, b, calls), bad = 2 * n;
    if (n && below(s, 10) == 0) {
        bad = 2 * (size_t)below(s, (unsigned)n);
        calls[bad] = draw_no_call(s);
    }
    int cut = below(s, 10) == 0;
    memset(answers, 0x33, sizeof answers);
    deck_answer a = deck_replay(book, len, calls, 2 * n + (size_t)cut, answers, sizeof answers);
    if (r.number || bad < 2 * n || cut) {
        expect(a.number == (uint64_t)(r.number ? r.number : DECK_NO_CALL) && a.place == (r.number ? r.place : bad) && a.value == 0, "gate: refused list");
        expect(untouched(answers, 0, sizeof answers, 0x33), "gate: answers of a refused list");
        return;
    }
    expect(a.number == 0 && a.place == 0 && a.value == n && untouched(answers, 2 * n, sizeof answers, 0x33), "gate: answer");
    compare_calls(book, len, b, calls, n, answers);
    if (n) {
        memset(answers, 0x33, sizeof answers);
        a = deck_replay(book, len, calls, 2 * n, answers, below(s, (unsigned)(2 * n)));
        expect(a.number == DECK_ANSWERS_SHORT && a.place == 0 && a.value == 0, "gate: short buffer of answers");
        expect(untouched(answers, 0, sizeof answers, 0x33), "gate: short buffer of answers unchanged");
    }
}

/* Compares the arcs from one place to another. */
static void compare_arc(const uint8_t *book, size_t len, const plain_book *b, plain_refusal r, size_t x, size_t y) {
    int want = r.number ? 0 : plain_arc(b, x, y);
    compare_answer(deck_arc(book, len, x, y), r, want, "arc test");
    arc_answers[want] += !r.number;
}

/* Compares the arcs of the judge's cycle, the one back to the first place last; in a short history, those from each place to each, the first place beyond
   the done steps included. */
static void compare_arcs(const uint8_t *book, size_t len, const plain_book *b, const uint8_t *cycle, size_t count) {
    plain_refusal accepted = {0};
    for (size_t i = 0; i < count; i++)
        compare_arc(book, len, b, accepted, cycle[i], cycle[(i + 1) % count]);
    for (size_t x = 0; b->n <= SHORT && x <= (size_t)b->n; x++)
        for (size_t y = 0; y <= (size_t)b->n; y++)
            compare_arc(book, len, b, accepted, x, y);
}

void compare_book(source *s, const uint8_t *book, size_t len, const plain_book *b, plain_refusal r) {
    uint8_t found[DECK_STEPS], list[ROOM];
    int count, passed;
    books_by_number[r.number]++;
    compare_answer(deck_read(book, len), r, b->n, "reader");
    compare_judge(book, len, b, r, found, &count, &passed);
    compare_short_buffers(s, book, len);
    compare_answer(deck_serial(book, len), r, r.number ? 0 : plain_serial(b), "serial");
    compare_answer(deck_atomic(book, len), r, r.number ? 0 : plain_atomic(b), "atomic");
    compare_answer(deck_relserial(book, len), r, r.number ? 0 : plain_relserial(b), "relserial");
    compare_answer(deck_conflict(book, len), r, r.number ? 0 : plain_conflict(b), "conflict");
    for (int k = 0; k < 3; k++) {
        size_t n = draw_list(s, found, passed ? (size_t)count : 0, (unsigned)(r.number ? DECK_RUNS : b->runs), list);
        compare_answer(deck_check_order(book, len, list, n), r, r.number ? 0 : plain_order_check(b, list, n), "order check");
        n = draw_list(s, found, passed ? 0 : (size_t)count, (unsigned)(r.number ? DECK_STEPS : b->n), list);
        compare_answer(deck_check_cycle(book, len, list, n), r, r.number ? 0 : plain_cycle_check(b, list, n), "cycle check");
        unsigned places = r.number ? ROOM : (unsigned)b->n + 2;
        size_t x = below(s, places), y = below(s, places);
        compare_arc(book, len, b, r, x, y);
        compare_arc(book, len, b, r, x, SIZE_MAX - y);
        compare_arc(book, len, b, r, SIZE_MAX - x, y);
    }
    if (!r.number && passed)
        compare_answer(deck_check_order(book, len, found, (size_t)count), r, 1, "order check of the judge's order");
    if (!r.number && !passed)
        compare_answer(deck_check_cycle(book, len, found, (size_t)count), r, 1, "cycle check of the judge's cycle");
    if (!r.number)
        compare_arcs(book, len, b, found, passed ? 0 : (size_t)count);
    compare_writer(s, book, len, r);
    for (int k = 0; k < (soaking && !r.number ? SOAKING_LISTS : 1); k++)
        compare_gate(s, book, len, b, r);
    if (r.number)
        compare_refused_gate(book, len, r);
    compare_islands(s, book, len, b, r);
}

enum { VERDICT, ORDER, RELSERIAL, CONFLICT, GATE, DIFFERENCES };

static book_count differences[DIFFERENCES] = {
    [VERDICT] = {"  another verdict", 0},
    [ORDER] = {"  passed by both, in another order", 0},
    [RELSERIAL] = {"  another answer of relatively serial", 0},
    [CONFLICT] = {"  another answer of conflict serializable", 0},
    [GATE] = {"  another answer of the gate to a step of the history", 0},
};

/* Whether the history is passed; if so, in which order. */
static int passes(const plain_book *b, uint8_t *order) {
    uint8_t cycle[DECK_STEPS];
    int count;
    return plain_judge(b, order, cycle, &count);
}

/* Whether two gates, over the one book and over the other, give the same answers to the steps of the history, which both have. */
static int same_at_the_gate(const plain_book *a, const plain_book *b) {
    plain_gate g, h;
    int same = 1;
    plain_open(a, &g);
    plain_open(b, &h);
    for (int p = 0; p < a->n; p++)
        same &= plain_step(&g, a->history[p]) == plain_step(&h, a->history[p]);
    return same;
}

void count_differences(const plain_book *b, const plain_book *earlier) {
    uint8_t order[DECK_STEPS], earlier_order[DECK_STEPS];
    int passed = passes(b, order), was_passed = passes(earlier, earlier_order);
    differences[VERDICT].books += passed != was_passed;
    differences[ORDER].books += passed && was_passed && memcmp(order, earlier_order, (size_t)b->n) != 0;
    differences[RELSERIAL].books += plain_relserial(b) != plain_relserial(earlier);
    differences[CONFLICT].books += plain_conflict(b) != plain_conflict(earlier);
    differences[GATE].books += !same_at_the_gate(b, earlier);
}

int test_rules(int argc, char **argv, selection chosen, book_test *test, const book_count *counts, size_t n) {
    char **files = read_options(argc, argv, " FILE..", 1, argc, &chosen);
    test_files(chosen.seed, files, test);
    int status = test_books(&chosen, test);
    return status | print_counts(counts, n) | print_counts(differences, DIFFERENCES);
}
