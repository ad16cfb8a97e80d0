/* Document 01 with document 02's changes so far in plain C. The judge works on rows of two 64-bit words; the class tests, the arc test and the evidence
   checks follow the definitions place by place. */
#include "plain.h"
#include <string.h>

typedef struct {
    uint64_t w[2];
} row;

static void set(row *r, int i) { r->w[i >> 6] |= 1ull << (i & 63); }
static int has(const row *r, int i) { return (r->w[i >> 6] >> (i & 63)) & 1; }

/* ---- reading */

static plain_refusal refuse(int number, size_t place) {
    plain_refusal r = {number, place};
    return r;
}

/* What the commands so far leave for the next one. */
typedef struct {
    int group, last_pair, last_cut;
} progress;

/* One function a command, of its bytes c, as many as it has: the number of the refusal, or 0 and the book has what it adds. */
static int read_pair(const uint8_t *c, plain_book *b, progress *p) {
    int code = c[1] * DECK_KINDS + c[2];
    if (p->group > 0)
        return DECK_OUT_OF_ORDER;
    if (c[2] >= DECK_KINDS || c[1] > c[2])
        return DECK_WRONG_KIND;
    if (code <= p->last_pair)
        return DECK_NOT_RISING;
    p->last_pair = code;
    b->conflicts[c[1]][c[2]] = b->conflicts[c[2]][c[1]] = 1;
    return 0;
}

static int read_run(const uint8_t *c, plain_book *b, progress *p) {
    if (p->group > 1)
        return DECK_OUT_OF_ORDER;
    if (c[1] != b->runs)
        return DECK_WRONG_RUN;
    if (b->runs == DECK_RUNS)
        return DECK_TOO_MANY_RUNS;
    p->group = 1;
    b->runs++;
    return 0;
}

/* A single step or a transfer, by its number of touches, of three bytes each. */
static int read_step(const uint8_t *c, int touches, plain_book *b, progress *p) {
    int r = b->runs - 1;
    if (p->group > 1 || b->runs == 0)
        return DECK_OUT_OF_ORDER;
    for (int i = 0; i < touches; i++)
        if (c[3 * i + 1] >= DECK_KINDS)
            return DECK_WRONG_KIND;
    if (b->length[r] == DECK_RUN_STEPS)
        return DECK_RUN_TOO_LONG;
    if (b->steps == DECK_STEPS)
        return DECK_TOO_MANY_STEPS;
    p->group = 1;
    step_record *step = &b->step[r][b->length[r]++];
    step->touches = (uint16_t)touches;
    for (int i = 0; i < touches; i++) {
        step->touch[i].kind = c[3 * i + 1];
        step->touch[i].position = (uint16_t)(c[3 * i + 2] << 8 | c[3 * i + 3]);
    }
    b->steps++;
    return 0;
}

static int read_cut(const uint8_t *c, plain_book *b, progress *p) {
    int code = (c[1] * 256 + c[2]) * 256 + c[3];
    if (p->group > 2)
        return DECK_OUT_OF_ORDER;
    if (c[1] >= b->runs || c[3] >= b->runs || c[1] == c[3])
        return DECK_WRONG_RUN;
    if (c[2] == 0 || c[2] >= b->length[c[1]])
        return DECK_WRONG_CUT;
    if (code <= p->last_cut)
        return DECK_NOT_RISING;
    p->last_cut = code;
    p->group = 2;
    b->cut[c[1]][c[2]][c[3]] = 1;
    return 0;
}

static int read_done(const uint8_t *c, plain_book *b, progress *p) {
    if (c[1] >= b->runs)
        return DECK_WRONG_RUN;
    if (b->done[c[1]] == b->length[c[1]])
        return DECK_NO_STEP_LEFT;
    p->group = 3;
    b->done[c[1]]++;
    b->history[b->n++] = c[1];
    return 0;
}

/* Into a book that is empty, and whose steps conflict by one rule or the other. */
static plain_refusal read_book(const uint8_t *s, size_t len, plain_book *b) {
    progress p = {0, -1, -1};
    if (len > DECK_BOOK)
        return refuse(DECK_BOOK_TOO_LONG, 0);
    for (size_t at = 0, size; at < len; at += size) {
        const uint8_t *c = s + at;
        size_t left = len - at;
        int number;
        switch (c[0]) {
        case 0x43:
            number = left < (size = 3) ? DECK_ENDS_EARLY : read_pair(c, b, &p);
            break;
        case 0x52:
            number = left < (size = 2) ? DECK_ENDS_EARLY : read_run(c, b, &p);
            break;
        case 0x53:
            number = left < (size = 4) ? DECK_ENDS_EARLY : read_step(c, 1, b, &p);
            break;
        case 0x54:
            if (b->first_touches)
                return refuse(DECK_NO_COMMAND, at);
            number = left < (size = 7) ? DECK_ENDS_EARLY : read_step(c, 2, b, &p);
            break;
        case 0x42:
            number = left < (size = 4) ? DECK_ENDS_EARLY : read_cut(c, b, &p);
            break;
        case 0x48:
            number = left < (size = 2) ? DECK_ENDS_EARLY : read_done(c, b, &p);
            break;
        case 0x45:
            return left > 1 ? refuse(DECK_BYTES_AFTER_END, at + 1) : refuse(0, 0);
        default:
            return refuse(DECK_NO_COMMAND, at);
        }
        if (number)
            return refuse(number, at);
    }
    return refuse(DECK_ENDS_EARLY, len);
}

plain_refusal plain_read(const uint8_t *s, size_t len, plain_book *b) {
    memset(b, 0, sizeof *b);
    b->home = DECK_HOME;
    return read_book(s, len, b);
}

plain_refusal plain_read_singles(const uint8_t *s, size_t len, plain_book *b) {
    memset(b, 0, sizeof *b);
    b->home = DECK_HOME;
    b->first_touches = 1;
    return read_book(s, len, b);
}

int plain_is_transfer(const step_record *step) { return step->touches == 2; }

int plain_homes(const step_record *step) {
    return step->touch[0].position == DECK_HOME || (plain_is_transfer(step) && step->touch[1].position == DECK_HOME);
}

int plain_count(const plain_book *b, int (*is)(const step_record *step)) {
    int n = 0;
    for (int r = 0; r < b->runs; r++)
        for (int i = 0; i < b->length[r]; i++)
            n += is(&b->step[r][i]);
    return n;
}

size_t plain_write(const plain_book *b, uint8_t *out) {
    uint8_t *o = out;
    for (int x = 0; x < DECK_KINDS; x++)
        for (int y = x; y < DECK_KINDS; y++)
            if (b->conflicts[x][y]) {
                *o++ = 0x43;
                *o++ = (uint8_t)x;
                *o++ = (uint8_t)y;
            }
    for (int r = 0; r < b->runs; r++) {
        *o++ = 0x52;
        *o++ = (uint8_t)r;
        for (int i = 0; i < b->length[r]; i++) {
            const step_record *step = &b->step[r][i];
            *o++ = step->touches == 2 ? 0x54 : 0x53;
            for (int k = 0; k < step->touches; k++) {
                *o++ = (uint8_t)step->touch[k].kind;
                *o++ = (uint8_t)(step->touch[k].position >> 8);
                *o++ = (uint8_t)step->touch[k].position;
            }
        }
    }
    for (int r = 0; r < b->runs; r++)
        for (int j = 0; j <= DECK_RUN_STEPS; j++)
            for (int s = 0; s < DECK_RUNS; s++)
                if (b->cut[r][j][s]) {
                    *o++ = 0x42;
                    *o++ = (uint8_t)r;
                    *o++ = (uint8_t)j;
                    *o++ = (uint8_t)s;
                }
    for (int p = 0; p < b->n; p++) {
        *o++ = 0x48;
        *o++ = b->history[p];
    }
    *o++ = 0x45;
    return (size_t)(o - out);
}

/* ---- conflict */

static int same_position(const plain_book *b, int x, int y) { return x == y || x == b->home || y == b->home; }

static int touches_conflict(const plain_book *b, const plain_touch *x, const plain_touch *y) {
    return same_position(b, x->position, y->position) && b->conflicts[x->kind][y->kind];
}

/* how many touches of a step count */
static int counted_touches(const plain_book *b, const step_record *x) { return b->first_touches ? 1 : x->touches; }

/* whether any touch of the one conflicts with any touch of the other */
static int meet(const plain_book *b, const step_record *x, const step_record *y) {
    for (int i = 0; i < counted_touches(b, x); i++)
        for (int k = 0; k < counted_touches(b, y); k++)
            if (touches_conflict(b, &x->touch[i], &y->touch[k]))
                return 1;
    return 0;
}

/* step i of run r and step j of run s, which count from 0 */
static int steps_conflict(const plain_book *b, int r, int i, int s, int j) { return r != s && meet(b, &b->step[r][i], &b->step[s][j]); }

/* ---- the graph, for the judge: rows of bits, a run's prefix at a time */

typedef struct {
    row depends[DECK_STEPS]; /* depends[q]: the places that q depends on */
    row sources[DECK_STEPS]; /* sources[y]: the places with an arc to y */
    row places[DECK_RUNS]; /* places[r]: the places of run r */
    int ordinal[DECK_STEPS];
    int place[DECK_RUNS][DECK_RUN_STEPS];
    uint8_t first[DECK_STEPS][DECK_RUNS], last[DECK_STEPS][DECK_RUNS]; /* of the place's unit, as seen by a run */
} graph;

static void number_places(const plain_book *b, graph *g) {
    int count[DECK_RUNS] = {0};
    for (int p = 0; p < b->n; p++) {
        int r = b->history[p];
        g->ordinal[p] = count[r];
        g->place[r][count[r]++] = p;
        set(&g->places[r], p);
    }
}

static int conflicting(const plain_book *b, const graph *g, int p, int q) {
    return steps_conflict(b, b->history[p], g->ordinal[p], b->history[q], g->ordinal[q]);
}

static void find_depends(const plain_book *b, graph *g) {
    plain_touch touch[2 * DECK_STEPS]; /* those of the places before q that count */
    int place[2 * DECK_STEPS], touches = 0; /* whose they are, and how many */
    for (int q = 0; q < b->n; q++) {
        int s = b->history[q], j = g->ordinal[q], own = counted_touches(b, &b->step[s][j]);
        const plain_touch *t = b->step[s][j].touch;
        row d = {{0, 0}};
        if (j > 0) {
            int p = g->place[s][j - 1];
            d = g->depends[p];
            set(&d, p);
        }
        for (int k = 0; k < own; k++)
            for (int i = 0; i < touches; i++)
                if (touches_conflict(b, &touch[i], &t[k]) && b->history[place[i]] != s) {
                    const row *e = &g->depends[place[i]];
                    d.w[0] |= e->w[0];
                    d.w[1] |= e->w[1];
                    set(&d, place[i]);
                }
        for (int k = 0; k < own; k++) {
            touch[touches] = t[k];
            place[touches++] = q;
        }
        g->depends[q] = d;
    }
}

static void find_units(const plain_book *b, graph *g) {
    for (int r = 0; r < b->runs; r++) {
        int n = b->done[r];
        for (int i = 0; i < n; i++)
            for (int o = 0; o < b->runs; o++) {
                int p = g->place[r][i];
                g->first[p][o] = i > 0 && !b->cut[r][i][o] ? g->first[g->place[r][i - 1]][o] : (uint8_t)p;
            }
        for (int i = n; i-- > 0;)
            for (int o = 0; o < b->runs; o++) {
                int p = g->place[r][i];
                g->last[p][o] = i + 1 < n && !b->cut[r][i + 1][o] ? g->last[g->place[r][i + 1]][o] : (uint8_t)p;
            }
    }
}

static void find_arcs(const plain_book *b, graph *g) {
    for (int q = 0; q < b->n; q++) {
        int s = b->history[q];
        if (g->ordinal[q] > 0)
            set(&g->sources[q], g->place[s][g->ordinal[q] - 1]);
        for (int r = 0; r < b->runs; r++) {
            uint64_t lo = g->depends[q].w[0] & g->places[r].w[0], hi = g->depends[q].w[1] & g->places[r].w[1];
            if (r == s || (lo | hi) == 0)
                continue;
            int p = hi ? 127 - __builtin_clzll(hi) : 63 - __builtin_clzll(lo);
            g->sources[q].w[0] |= lo;
            g->sources[q].w[1] |= hi;
            set(&g->sources[q], g->last[p][s]);
            row *f = &g->sources[g->first[q][r]];
            f->w[0] |= lo;
            f->w[1] |= hi;
        }
    }
}

static void build(const plain_book *b, graph *g) {
    memset(g, 0, sizeof *g);
    number_places(b, g);
    find_depends(b, g);
    find_units(b, g);
    find_arcs(b, g);
}

int plain_judge(const plain_book *b, uint8_t *order, uint8_t *cycle, int *count) {
    graph g;
    row taken = {{0, 0}};
    build(b, &g);
    int m = 0, low = 0;
    uint8_t seq[DECK_STEPS];
    while (m < b->n) {
        while (low < b->n && has(&taken, low))
            low++;
        int p = low;
        while (p < b->n && (has(&taken, p) || (g.sources[p].w[0] & ~taken.w[0]) || (g.sources[p].w[1] & ~taken.w[1])))
            p++;
        if (p == b->n)
            break;
        seq[m++] = b->history[p];
        set(&taken, p);
    }
    if (m == b->n) {
        memcpy(order, seq, (size_t)m);
        *count = m;
        return 1;
    }
    int seen[DECK_STEPS], trail[DECK_STEPS], len = 0, v = low;
    memset(seen, -1, sizeof seen);
    while (seen[v] < 0) {
        seen[v] = len;
        trail[len++] = v;
        uint64_t lo = g.sources[v].w[0] & ~taken.w[0], hi = g.sources[v].w[1] & ~taken.w[1];
        v = lo ? __builtin_ctzll(lo) : 64 + __builtin_ctzll(hi);
    }
    *count = len - seen[v];
    for (int i = 0; i < *count; i++)
        cycle[i] = (uint8_t)trail[len - 1 - i];
    return 0;
}

/* ---- by the definitions, place by place */

typedef struct {
    int n;
    uint8_t run[DECK_STEPS], ordinal[DECK_STEPS];
    uint8_t unit[DECK_STEPS][DECK_RUNS]; /* unit[p][o]: how many cuts of p's run, as seen by o, lie at or before p */
    uint8_t depends[DECK_STEPS][DECK_STEPS]; /* depends[p][q]: q depends on p */
} slow;

static void slow_number(const plain_book *b, const uint8_t *history, int n, slow *h) {
    int count[DECK_RUNS] = {0};
    h->n = n;
    for (int p = 0; p < n; p++) {
        h->run[p] = history[p];
        h->ordinal[p] = (uint8_t)count[history[p]]++;
        for (int o = 0; o < b->runs; o++) {
            h->unit[p][o] = 0;
            for (int j = 1; j <= h->ordinal[p]; j++)
                h->unit[p][o] += b->cut[h->run[p]][j][o];
        }
    }
}

static void slow_build(const plain_book *b, const uint8_t *history, int n, slow *h) {
    slow_number(b, history, n, h);
    for (int p = 0; p < n; p++)
        for (int q = 0; q < n; q++)
            h->depends[p][q] = p < q && (h->run[p] == h->run[q] || steps_conflict(b, h->run[p], h->ordinal[p], h->run[q], h->ordinal[q]));
    for (int k = 0; k < n; k++)
        for (int p = 0; p < k; p++)
            if (h->depends[p][k])
                for (int q = k + 1; q < n; q++)
                    h->depends[p][q] |= h->depends[k][q];
}

static int same_unit(const slow *h, int o, int p, int k) { return h->run[p] == h->run[k] && h->unit[p][o] == h->unit[k][o]; }

/* What holds of a step x and a unit: some step of the unit comes before x; some comes after it; some depends on x, or x on it. */
enum { BEFORE = 1, AFTER = 2, DEPENDENT = 4 };

/* Whether no step and unit of another run, as seen by the step's run, have all that is forbidden. */
static int slow_free_of(const slow *h, int forbidden) {
    for (int x = 0; x < h->n; x++) {
        uint8_t with[DECK_RUNS][DECK_RUN_STEPS] = {{0}}; /* by run and unit */
        int o = h->run[x];
        for (int d = 0; d < h->n; d++) {
            uint8_t *w = &with[h->run[d]][h->unit[d][o]];
            if (h->run[d] == o)
                continue;
            *w |= d < x ? BEFORE : AFTER;
            if (h->depends[d][x] || h->depends[x][d])
                *w |= DEPENDENT;
            if ((*w & forbidden) == forbidden)
                return 0;
        }
    }
    return 1;
}

static int slow_relserial(const slow *h) { return slow_free_of(h, BEFORE | AFTER | DEPENDENT); }

int plain_serial(const plain_book *b) {
    for (int p = 0; p < b->n; p++)
        for (int q = p + 1; q < b->n; q++)
            for (int k = q + 1; k < b->n; k++)
                if (b->history[p] == b->history[k] && b->history[q] != b->history[p])
                    return 0;
    return 1;
}

int plain_atomic(const plain_book *b) {
    slow h;
    slow_build(b, b->history, b->n, &h);
    return slow_free_of(&h, BEFORE | AFTER);
}

int plain_relserial(const plain_book *b) {
    slow h;
    slow_build(b, b->history, b->n, &h);
    return slow_relserial(&h);
}

/* the graph over the runs (003, serialization graph) has no cycle */
int plain_conflict(const plain_book *b) {
    int before[DECK_RUNS][DECK_RUNS] = {{0}};
    graph g;
    memset(&g, 0, sizeof g);
    number_places(b, &g);
    for (int q = 0; q < b->n; q++)
        for (int p = 0; p < q; p++)
            if (conflicting(b, &g, p, q))
                before[b->history[p]][b->history[q]] = 1;
    for (int k = 0; k < DECK_RUNS; k++)
        for (int r = 0; r < DECK_RUNS; r++)
            for (int s = 0; s < DECK_RUNS; s++)
                before[r][s] |= before[r][k] && before[k][s];
    for (int r = 0; r < DECK_RUNS; r++)
        if (before[r][r])
            return 0;
    return 1;
}

int plain_order_check(const plain_book *b, const uint8_t *list, size_t len) {
    int count[DECK_RUNS] = {0}, place[DECK_RUNS][DECK_RUN_STEPS];
    slow h;
    if (len != (size_t)b->n)
        return 0;
    for (size_t i = 0; i < len; i++) {
        if (list[i] >= b->runs || count[list[i]] == b->done[list[i]])
            return 0;
        place[list[i]][count[list[i]]++] = (int)i;
    }
    graph g;
    memset(&g, 0, sizeof g);
    number_places(b, &g);
    for (int q = 0; q < b->n; q++)
        for (int p = 0; p < q; p++)
            if (conflicting(b, &g, p, q) && place[b->history[p]][g.ordinal[p]] > place[b->history[q]][g.ordinal[q]])
                return 0;
    slow_build(b, list, (int)len, &h);
    return slow_relserial(&h);
}

/* whether q is of another run than p and depends on it */
static int d_arc(const slow *h, int p, int q) { return h->run[p] != h->run[q] && h->depends[p][q]; }

/* whether x is the last step of p's unit, as seen by o */
static int last_of_unit(const slow *h, int o, int p, int x) {
    int later = 0;
    for (int k = x + 1; k < h->n; k++)
        later |= same_unit(h, o, p, k);
    return same_unit(h, o, p, x) && !later;
}

/* whether y is the first step of q's unit, as seen by o */
static int first_of_unit(const slow *h, int o, int q, int y) {
    int earlier = 0;
    for (int k = 0; k < y; k++)
        earlier |= same_unit(h, o, q, k);
    return same_unit(h, o, q, y) && !earlier;
}

static int slow_arc(const slow *h, int x, int y) {
    int arcs = 0;
    if (h->run[x] == h->run[y] && h->ordinal[y] == h->ordinal[x] + 1)
        arcs |= DECK_ARC_I;
    if (d_arc(h, x, y))
        arcs |= DECK_ARC_D;
    for (int p = 0; p < h->n; p++)
        if (d_arc(h, p, y) && last_of_unit(h, h->run[y], p, x))
            arcs |= DECK_ARC_F;
    for (int q = 0; q < h->n; q++)
        if (d_arc(h, x, q) && first_of_unit(h, h->run[x], q, y))
            arcs |= DECK_ARC_B;
    return arcs;
}

int plain_arc(const plain_book *b, size_t x, size_t y) {
    slow h;
    if (x >= (size_t)b->n || y >= (size_t)b->n)
        return 0;
    slow_build(b, b->history, b->n, &h);
    return slow_arc(&h, (int)x, (int)y);
}

int plain_cycle_check(const plain_book *b, const uint8_t *list, size_t len) {
    slow h;
    if (len < 2 || len > (size_t)b->n)
        return 0;
    for (size_t i = 0; i < len; i++) {
        if (list[i] >= b->n)
            return 0;
        for (size_t j = 0; j < i; j++)
            if (list[i] == list[j])
                return 0;
    }
    slow_build(b, b->history, b->n, &h);
    for (size_t i = 0; i < len; i++)
        if (!slow_arc(&h, list[i], list[(i + 1) % len]))
            return 0;
    return 1;
}

/* ---- islands: runs and joins as a graph, searched breadth first */

int plain_joined(const plain_book *b, int r, int s) {
    for (int i = 0; i < b->done[r]; i++)
        for (int j = 0; j < b->done[s]; j++)
            if (steps_conflict(b, r, i, s, j))
                return 1;
    return 0;
}

plain_islands plain_find_islands(const plain_book *b) {
    plain_islands found = {0};
    int reached[DECK_RUNS] = {0};
    for (int first = 0; first < b->runs; first++) {
        int queue[DECK_RUNS], n = 0;
        if (reached[first])
            continue;
        found.list[found.count++] = (uint8_t)first;
        reached[first] = 1;
        queue[n++] = first;
        for (int k = 0; k < n; k++) {
            found.smallest[queue[k]] = (uint8_t)first;
            for (int r = 0; r < b->runs; r++)
                if (!reached[r] && plain_joined(b, queue[k], r)) {
                    reached[r] = 1;
                    queue[n++] = r;
                }
        }
    }
    return found;
}

int plain_names_island(const plain_book *b, const plain_islands *found, int run) { return run < b->runs && found->smallest[run] == run; }

plain_book plain_island_book(const plain_book *b, const plain_islands *found, int run) {
    plain_book island = *b;
    island.n = 0;
    memset(island.done, 0, sizeof island.done);
    memset(island.history, 0, sizeof island.history);
    for (int p = 0; p < b->n; p++)
        if (found->smallest[b->history[p]] == run) {
            island.history[island.n++] = b->history[p];
            island.done[b->history[p]]++;
        }
    return island;
}

/* ---- the gate */

void plain_open(const plain_book *b, plain_gate *g) {
    memset(g, 0, sizeof *g);
    g->book = *b;
    g->book.n = 0;
    memset(g->book.done, 0, sizeof g->book.done);
    memset(g->book.history, 0, sizeof g->book.history);
}

static int turned_away(const plain_gate *g, int r) {
    if (r >= g->book.runs)
        return DECK_GATE_NOT_DECLARED;
    if (g->withdrawn[r])
        return DECK_GATE_WITHDRAWN;
    if (g->book.done[r] == g->book.length[r])
        return DECK_GATE_ALL_KEPT;
    return 0;
}

int plain_step(plain_gate *g, int r) {
    uint8_t order[DECK_STEPS], cycle[DECK_STEPS];
    int count, number = turned_away(g, r);
    if (number)
        return -number;
    plain_book *b = &g->book;
    b->history[b->n++] = (uint8_t)r;
    b->done[r]++;
    if (plain_judge(b, order, cycle, &count))
        return b->n - 1;
    b->history[--b->n] = 0;
    b->done[r]--;
    return -DECK_GATE_TANGLED;
}

int plain_withdraw(plain_gate *g, int r) {
    int number = turned_away(g, r);
    if (number)
        return -number;
    g->withdrawn[r] = 1;
    return 0;
}

int plain_take_back(plain_gate *g, int r) {
    plain_book *b = &g->book;
    if (r >= b->runs)
        return -DECK_GATE_NOT_DECLARED;
    if (g->taken_back[r])
        return -DECK_GATE_TAKEN_BACK;
    for (int p = b->n; p-- > 0;)
        if (b->history[p] == r) {
            b->n--;
            memmove(b->history + p, b->history + p + 1, (size_t)(b->n - p));
            b->history[b->n] = 0;
        }
    b->done[r] = 0;
    g->withdrawn[r] = g->taken_back[r] = 1;
    return 0;
}

/* ---- a gate's record */

static const uint64_t step_codes = (uint64_t)DECK_TOUCHES * (DECK_TOUCHES + 1); /* those of steps are below this */

static plain_touch touch_of(uint64_t code) { return (plain_touch){(uint16_t)(code / DECK_POSITIONS), (uint16_t)(code % DECK_POSITIONS)}; }

static step_record step_of(uint64_t code) {
    step_record step = {.touches = 1, .touch = {touch_of(code % DECK_TOUCHES)}};
    if (code >= DECK_TOUCHES) {
        step.touches = 2;
        step.touch[1] = touch_of(code / DECK_TOUCHES - 1);
    }
    return step;
}

/* n entries, each 0 or 1: no entry has another bit than the lowest */
static int flags(const uint8_t *table, int n) {
    uint8_t bits = 0;
    for (int i = 0; i < n; i++)
        bits |= table[i];
    return bits <= 1;
}

static int runs_sound(const deck_gate *record) {
    uint64_t sum = 0;
    if (record->declared > DECK_RUNS || record->total > DECK_STEPS)
        return 0;
    for (uint64_t r = 0; r < DECK_RUNS; r++) {
        if (record->lengths[r] > DECK_RUN_STEPS || (r >= record->declared && record->lengths[r] != 0))
            return 0;
        sum += record->lengths[r];
    }
    for (uint64_t i = 0; i < DECK_STEPS; i++)
        if (record->steps[i] >= step_codes || (i >= record->total && record->steps[i] != 0))
            return 0;
    return sum == record->total;
}

static int kept_sound(const deck_gate *record) {
    int count[DECK_RUNS] = {0};
    if (record->kept_count > DECK_STEPS)
        return 0;
    for (uint64_t p = 0; p < record->kept_count; p++) {
        if (record->kept[p] >= DECK_RUNS)
            return 0;
        count[record->kept[p]]++;
    }
    for (uint64_t p = record->kept_count; p < DECK_STEPS; p++)
        if (record->kept[p] != 0)
            return 0;
    for (int r = 0; r < DECK_RUNS; r++)
        if (record->counts[r] != count[r] || count[r] > record->lengths[r])
            return 0;
    return 1;
}

/* each run taken back is withdrawn, and no step of it is kept */
static int taken_back_sound(const deck_gate *record) {
    for (int r = 0; r < DECK_RUNS; r++)
        if (record->taken_back[r] && (!record->withdrawn[r] || record->counts[r] != 0))
            return 0;
    return 1;
}

int plain_sound(const deck_gate *record) {
    return flags(record->pairs, sizeof record->pairs) && flags(record->cuts, sizeof record->cuts) &&
           flags(record->withdrawn, sizeof record->withdrawn) && flags(record->taken_back, sizeof record->taken_back) &&
           runs_sound(record) && kept_sound(record) && taken_back_sound(record);
}

void plain_gate_of(const deck_gate *record, plain_gate *g) {
    plain_book *b = &g->book;
    memset(g, 0, sizeof *g);
    for (int x = 0; x < DECK_KINDS; x++)
        for (int y = 0; y < DECK_KINDS; y++)
            b->conflicts[x][y] = record->pairs[x * DECK_KINDS + y] | record->pairs[y * DECK_KINDS + x];
    for (int r = 0; r < DECK_RUNS; r++) {
        memcpy(b->cut[r], record->cuts + r * DECK_RUN_STEPS * DECK_RUNS, DECK_RUN_STEPS * DECK_RUNS);
        for (int i = 0; i < record->lengths[r]; i++)
            b->step[r][i] = step_of(record->steps[b->steps++]);
        b->length[r] = record->lengths[r];
        b->done[r] = record->counts[r];
        g->withdrawn[r] = record->withdrawn[r];
        g->taken_back[r] = record->taken_back[r];
    }
    memcpy(b->history, record->kept, sizeof b->history);
    b->runs = (int)record->declared;
    b->n = (int)record->kept_count;
    b->home = DECK_HOME;
}
