/*
 * How a justified record comes about. Threads take steps in an order drawn at random: locks of free monitors, unlocks
 * of held ones, starts, joins, accesses. That is E, first in this order ("in line": what happens before stands before).
 * Each plain read r gets two writes: `settled`, one that happens before it (or the initial one) and that it may see, and
 * `source`, what it sees in E: the same, or a write that races with it. Commit numbers are drawn so that a read comes
 * after both. E_i then has the actions of C_i, what happens before them, and some of the others; reads of C_(i-1) see
 * their source, all others a settled write. Faults are aimed at such a record. At the end each section's threads are
 * merged anew, for the order of a section need not be that of the places.
 */
#include "generate.h"

#include <string.h>

/* ---- chance ---- */

struct chance chance_from(uint64_t seed) {
    uint64_t z = (seed + 1) * UINT64_C(0x9e3779b97f4a7c15);
    z = (z ^ z >> 30) * UINT64_C(0xbf58476d1ce4e5b9);
    z = (z ^ z >> 27) * UINT64_C(0x94d049bb133111eb);
    z ^= z >> 31;
    return (struct chance){z ? z : 1};
}

static uint64_t draw(struct chance *g) {
    g->x ^= g->x >> 12;
    g->x ^= g->x << 25;
    g->x ^= g->x >> 27;
    return g->x * UINT64_C(0x2545f4914f6cdd1d);
}

unsigned below(struct chance *g, unsigned n) { return n ? (unsigned)((draw(g) >> 32) * n >> 32) : 0; }

static unsigned from_to(struct chance *g, unsigned low, unsigned high) { return low + below(g, high - low + 1); }
static int percent(struct chance *g, unsigned p) { return below(g, 100) < p; }

/* ---- drafts of records ---- */

enum { READ = 1, WRITE, VREAD, VWRITE, LOCK, UNLOCK, START, FIRST, LAST, JOIN, EXTERNAL };
enum { NOBODY = -1, INITIAL = -1 };

struct action {
    uint16_t id, place, seen, spare;
    uint8_t thread, kind, target, commit;
    int64_t value;
};

struct execution {
    unsigned n;
    struct action a[MOST_ACTIONS];
};

typedef uint64_t rows[MOST_ACTIONS][2];

struct draft {
    struct chance g;
    unsigned threads, variables, monitors, executions;
    uint64_t map;
    struct execution e[MOST_SECTIONS];
    rows before;                                        /* bit a of row b when a hb b in E, while E is in line */
    int settled[MOST_ACTIONS], source[MOST_ACTIONS];    /* of the reads of E: positions or INITIAL */
    unsigned last_id;
};

static int is_sync(unsigned kind) { return kind >= VREAD && kind <= JOIN; }
static int is_read(unsigned kind) { return kind == READ || kind == VREAD; }
static int is_write(unsigned kind) { return kind == WRITE || kind == VWRITE; }
static int is_volatile(const struct draft *d, unsigned v) { return d->map >> v & 1; }
static int has(const uint64_t *row, unsigned a) { return row[a / 64] >> (a % 64) & 1; }
static void add(uint64_t *row, unsigned a) { row[a / 64] |= (uint64_t)1 << (a % 64); }

/* identifiers run through all of 1 to 65535 before one comes again */
static uint16_t fresh_id(struct draft *d) {
    d->last_id = d->last_id % 65535 + 1;
    return (uint16_t)(d->last_id * 40503u);
}

static int64_t some_value(struct chance *g) {
    switch (below(g, 5)) {
    case 0:
        return (int64_t)draw(g);
    case 1:
        return (int64_t)(int32_t)draw(g);
    default:
        return below(g, 4);
    }
}

/* a variable, volatile or not as asked, or NOBODY */
static int some_variable(struct draft *d, int volatile_one) {
    unsigned start = below(&d->g, d->variables);
    for (unsigned k = 0; k < d->variables; k++) {
        unsigned v = (start + k) % d->variables;
        if (is_volatile(d, v) == volatile_one)
            return (int)v;
    }
    return NOBODY;
}

static int position(const struct execution *e, unsigned id) {
    for (unsigned a = 0; a < e->n; a++)
        if (e->a[a].id == id)
            return (int)a;
    return NOBODY;
}

/* ---- what a section in line implies ---- */

static int edge(const struct action *x, const struct action *y) {
    return x->thread == y->thread || (x->kind == UNLOCK && y->kind == LOCK && x->target == y->target) ||
           (x->kind == VWRITE && y->kind == VREAD && x->target == y->target) ||
           (x->kind == START && y->kind == FIRST && x->target == y->thread) ||
           (x->kind == LAST && y->kind == JOIN && x->thread == y->target);
}

static void relate(const struct execution *e, rows before) {
    memset(before, 0, sizeof(rows));
    for (unsigned b = 0; b < e->n; b++)
        for (unsigned a = b; a-- > 0;)
            if (!has(before[b], a) && edge(&e->a[a], &e->a[b])) {
                before[b][0] |= before[a][0];
                before[b][1] |= before[a][1];
                add(before[b], a);
            }
}

static void number_places(struct execution *e) {
    unsigned place = 0;
    for (unsigned a = 0; a < e->n; a++)
        e->a[a].place = (uint16_t)(is_sync(e->a[a].kind) ? ++place : 0);
}

static void see(struct execution *e, unsigned r, int w) {
    e->a[r].seen = w == INITIAL ? 0 : e->a[w].id;
    e->a[r].value = w == INITIAL ? 0 : e->a[w].value;
}

/* what a volatile read in line sees */
static int latest_write(const struct execution *e, unsigned r) {
    for (unsigned a = r; a-- > 0;)
        if (e->a[a].kind == VWRITE && e->a[a].target == e->a[r].target)
            return (int)a;
    return INITIAL;
}

/* what plain read r may see: the writes that happen before it, or those that race with it. Their number. */
static unsigned visible(const struct execution *e, rows before, unsigned r, int racing, int *list) {
    unsigned n = 0;
    int hidden = 0;                     /* whether the initial write is */
    for (unsigned w = 0; w < e->n; w++) {
        if (e->a[w].kind != WRITE || e->a[w].target != e->a[r].target)
            continue;
        int earlier = has(before[r], w);
        hidden |= earlier;
        if (racing != !earlier || has(before[w], r))
            continue;
        int covered = 0;
        for (unsigned u = 0; u < e->n && !covered; u++)
            covered = e->a[u].kind == WRITE && e->a[u].target == e->a[r].target && has(before[u], w) && has(before[r], u);
        if (!covered)
            list[n++] = (int)w;
    }
    if (!racing && !hidden)
        list[n++] = INITIAL;
    return n;
}

static int settled_write(struct draft *d, const struct execution *e, rows before, unsigned r) {
    int list[MOST_ACTIONS + 1];
    unsigned n = visible(e, before, r, 0, list);
    return list[below(&d->g, n)];
}

/* every read sees a write that happens before it, or the initial one */
static void settle(struct draft *d, struct execution *e) {
    rows before;
    relate(e, before);
    for (unsigned r = 0; r < e->n; r++)
        if (is_read(e->a[r].kind))
            see(e, r, e->a[r].kind == VREAD ? latest_write(e, r) : settled_write(d, e, before, r));
}

/* ---- E ---- */

struct plan {
    unsigned n;
    int guarded;        /* accesses so that there is no race */
    int no_reads;
};

struct stage {
    uint8_t root[16], begun[16], started[16], ended[16];
    int holder[32];
};

static int runs(const struct stage *s, unsigned t) { return (s->root[t] || s->started[t]) && !s->ended[t]; }

/* which access keeps the guards: a variable of the thread's own, or one whose monitor it holds */
static int allowed(const struct draft *d, const struct stage *s, unsigned t, unsigned v) {
    if (d->monitors == 0 || v % 3 == 0)
        return v % d->threads == t;
    return s->holder[v % d->monitors] == (int)t;
}

static int accessible(struct draft *d, const struct stage *s, const struct plan *p, unsigned t) {
    if (!p->guarded)
        return some_variable(d, 0);
    for (int tries = 0; tries < 8; tries++) {
        int v = some_variable(d, 0);
        if (v >= 0 && allowed(d, s, t, (unsigned)v))
            return v;
    }
    return NOBODY;
}

/* a monitor that is free (owner NOBODY) or held by the owner */
static int some_monitor(struct draft *d, const struct stage *s, int owner) {
    unsigned start = below(&d->g, d->monitors);
    for (unsigned k = 0; k < d->monitors; k++)
        if (s->holder[(start + k) % d->monitors] == owner)
            return (int)((start + k) % d->monitors);
    return NOBODY;
}

/* one step of thread t; false where the kind drawn is not possible now */
static int step(struct draft *d, struct stage *s, const struct plan *p, unsigned t, struct action *x) {
    static const struct {
        uint8_t kind, weight;
    } dice[] = {        /* the weights make 50 */
        {READ, 11}, {WRITE, 11}, {VREAD, 5}, {VWRITE, 5}, {LOCK, 5}, {UNLOCK, 4}, {START, 3}, {JOIN, 3}, {LAST, 1}, {EXTERNAL, 2},
    };
    unsigned roll = below(&d->g, 50), k = 0, others = 0;
    int target = 0;
    while (roll >= dice[k].weight)
        roll -= dice[k++].weight;
    unsigned kind = dice[k].kind;
    if (!s->begun[t] && s->started[t])
        kind = FIRST;
    else if (!s->begun[t] && percent(&d->g, 20))
        kind = FIRST;
    switch (kind) {
    case READ:
    case WRITE:
        target = accessible(d, s, p, t);
        break;
    case VREAD:
    case VWRITE:
        target = some_variable(d, 1);
        break;
    case LOCK:
        target = some_monitor(d, s, NOBODY);
        if (target >= 0)
            s->holder[target] = (int)t;
        break;
    case UNLOCK:
        target = some_monitor(d, s, (int)t);
        if (target >= 0)
            s->holder[target] = NOBODY;
        break;
    case START:
        target = (int)below(&d->g, d->threads);
        if (s->root[target] || s->started[target])
            return 0;
        s->started[target] = 1;
        break;
    case LAST:
        for (unsigned u = 0; u < d->threads; u++)
            others += u != t && runs(s, u);
        if (others == 0)
            return 0;
        s->ended[t] = 1;
        break;
    case JOIN:
        target = (int)below(&d->g, d->threads);
        if (!s->ended[target])
            return 0;
        break;
    case EXTERNAL:
        target = (int)below(&d->g, 256);
        break;
    }
    if (target < 0 || (p->no_reads && is_read(kind)))
        return 0;
    s->begun[t] = 1;
    *x = (struct action){.thread = (uint8_t)t, .kind = (uint8_t)kind, .target = (uint8_t)target};
    x->id = fresh_id(d);
    if (is_write(kind))
        x->value = some_value(&d->g);
    return 1;
}

static void play(struct draft *d, const struct plan *p) {
    struct execution *e = &d->e[0];
    struct stage s;
    memset(&s, 0, sizeof s);
    for (unsigned m = 0; m < 32; m++)
        s.holder[m] = NOBODY;
    for (unsigned t = 0; t < d->threads; t++)
        s.root[t] = t == 0 || percent(&d->g, 50);
    e->n = 0;
    unsigned t = 0;
    while (e->n < p->n) {
        struct action x;
        if (!runs(&s, t) || percent(&d->g, 40))
            t = below(&d->g, d->threads);
        if (!runs(&s, t))
            continue;
        if (!step(d, &s, p, t, &x)) {
            if ((!s.begun[t] && s.started[t]) || !percent(&d->g, 3))
                continue;
            s.begun[t] = 1;             /* little is possible; so that the play goes on */
            x = (struct action){.id = fresh_id(d), .thread = (uint8_t)t, .kind = EXTERNAL, .target = 7};
        }
        e->a[e->n++] = x;
    }
    number_places(e);
    relate(e, d->before);
}

/* the two writes of each read of E */
static void choose_sources(struct draft *d) {
    struct execution *e = &d->e[0];
    unsigned racing = below(&d->g, 3) * 30;
    for (unsigned r = 0; r < e->n; r++) {
        int list[MOST_ACTIONS + 1];
        if (!is_read(e->a[r].kind))
            continue;
        d->settled[r] = e->a[r].kind == VREAD ? latest_write(e, r) : settled_write(d, e, d->before, r);
        d->source[r] = d->settled[r];
        unsigned n = e->a[r].kind == VREAD ? 0 : visible(e, d->before, r, 1, list);
        if (n > 0 && percent(&d->g, racing))
            d->source[r] = list[below(&d->g, n)];
        see(e, r, d->source[r]);
    }
}

static unsigned commit_of(const struct draft *d, int w) { return w == INITIAL ? 1 : d->e[0].a[w].commit; }
static unsigned larger(unsigned x, unsigned y) { return x > y ? x : y; }

/* commit numbers that keep 27 (from K = 2 on) and 29 */
static void commit_all(struct draft *d) {
    struct execution *e = &d->e[0];
    unsigned k = d->executions, in_line = percent(&d->g, 50);
    if (k == 0)
        return;
    for (unsigned a = 0; a < e->n; a++)
        e->a[a].commit = (uint8_t)(in_line ? 1 + a * k / e->n : 1 + below(&d->g, k));
    if (k == 1)
        return;
    for (unsigned r = 0; r < e->n; r++)
        if (is_read(e->a[r].kind)) {
            if (d->settled[r] != INITIAL && e->a[d->settled[r]].commit == k)
                e->a[d->settled[r]].commit--;
            if (d->source[r] != INITIAL && e->a[d->source[r]].commit == k)
                e->a[d->source[r]].commit--;
        }
    for (unsigned r = 0; r < e->n; r++)
        if (is_read(e->a[r].kind)) {
            unsigned least = 1 + larger(commit_of(d, d->settled[r]), commit_of(d, d->source[r]));
            e->a[r].commit = (uint8_t)larger(least, e->a[r].commit);
        }
    for (unsigned x = 0; x < e->n; x++)
        for (unsigned y = 0; y < e->n; y++)
            if (e->a[x].kind == EXTERNAL && e->a[y].kind != EXTERNAL && has(d->before[y], x) &&
                e->a[y].commit < e->a[x].commit)
                e->a[x].commit = e->a[y].commit;
    for (unsigned x = e->n; x-- > 0;)   /* externals among themselves */
        for (unsigned y = x + 1; y < e->n; y++)
            if (e->a[x].kind == EXTERNAL && has(d->before[y], x) && e->a[y].commit < e->a[x].commit)
                e->a[x].commit = e->a[y].commit;
}

/* ---- E_1 to E_K ---- */

/* what a read of E, kept in E_i, sees there: a position in E */
static int wanted_source(const struct draft *d, unsigned i, unsigned r) {
    return d->e[0].a[r].commit < i ? d->source[r] : d->settled[r];
}

/* E_i: C_i, what happens before it in E, and each other action with the likelihood given; in line */
static void derive(struct draft *d, unsigned i, unsigned likely) {
    const struct execution *e = &d->e[0];
    struct execution *f = &d->e[i];
    uint64_t keep[2] = {0, 0};
    int kept[MOST_ACTIONS];
    f->n = 0;
    for (unsigned x = e->n; x-- > 0;)
        if (has(keep, x) || e->a[x].commit <= i || percent(&d->g, likely)) {
            add(keep, x);
            keep[0] |= d->before[x][0];
            keep[1] |= d->before[x][1];
        }
    unsigned vary = percent(&d->g, 50) ? 50 : 0;
    for (unsigned x = 0; x < e->n; x++)
        if (has(keep, x)) {
            struct action *y = &f->a[f->n];
            kept[x] = (int)f->n++;
            *y = e->a[x];
            y->commit = 0;
            if (is_write(y->kind) && e->a[x].commit > i && percent(&d->g, vary))
                y->value = some_value(&d->g);
        }
    number_places(f);
    for (unsigned x = 0; x < e->n; x++)
        if (has(keep, x) && is_read(e->a[x].kind)) {
            int w = wanted_source(d, i, x);
            see(f, (unsigned)kept[x], w == INITIAL ? INITIAL : kept[w]);
        }
}

/* actions that E hasn't, at the ends of threads of E_i */
static void append_fresh(struct draft *d, unsigned i, unsigned count) {
    struct execution *f = &d->e[i];
    for (; count > 0 && f->n > 0 && f->n < MOST_ACTIONS; count--) {
        static const uint8_t kinds[] = {READ, WRITE, VREAD, VWRITE, EXTERNAL};
        unsigned t = f->a[below(&d->g, f->n)].thread, kind = kinds[below(&d->g, 5)], ended = 0;
        for (unsigned a = 0; a < f->n; a++)
            ended |= f->a[a].kind == LAST && f->a[a].thread == t;
        int target = kind == EXTERNAL ? 3 : some_variable(d, is_sync(kind));
        if (ended || target < 0)
            continue;
        struct action *x = &f->a[f->n++];
        *x = (struct action){.id = fresh_id(d), .thread = (uint8_t)t, .kind = (uint8_t)kind, .target = (uint8_t)target};
        if (is_write(kind))
            x->value = some_value(&d->g);
        if (is_read(kind)) {
            rows before;
            relate(f, before);
            see(f, f->n - 1, kind == VREAD ? latest_write(f, f->n - 1) : settled_write(d, f, before, f->n - 1));
        }
    }
    number_places(f);
}

/* E_i as another play of E's threads, each as far as it comes; in line */
static void replay(struct draft *d, unsigned i) {
    const struct execution *e = &d->e[0];
    struct execution *f = &d->e[i];
    uint64_t done[2] = {0, 0};
    int holder[32];
    for (unsigned m = 0; m < 32; m++)
        holder[m] = NOBODY;
    f->n = 0;
    for (unsigned idle = 0; idle < 40;) {
        unsigned t = below(&d->g, d->threads), a = 0, ready = 1;
        while (a < e->n && (e->a[a].thread != t || has(done, a)))
            a++;
        idle++;
        if (a == e->n)
            continue;
        const struct action *x = &e->a[a];
        if (x->kind == LOCK)
            ready = holder[x->target] == NOBODY;
        for (unsigned b = 0; b < e->n; b++)
            if ((x->kind == FIRST && e->a[b].kind == START && e->a[b].target == t) ||
                (x->kind == JOIN && e->a[b].kind == LAST && e->a[b].thread == x->target))
                ready &= has(done, b);
        if (!ready)
            continue;
        if (x->kind == LOCK)
            holder[x->target] = (int)t;
        if (x->kind == UNLOCK)
            holder[x->target] = NOBODY;
        add(done, a);
        f->a[f->n] = *x;
        f->a[f->n++].commit = 0;
        idle = 0;
    }
    number_places(f);
    settle(d, f);
    rows before;
    relate(f, before);
    for (unsigned a = 0; a < f->n; a++) {
        int x = position(e, f->a[a].id), list[MOST_ACTIONS + 1];
        if (f->a[a].kind != READ || e->a[x].commit >= i)
            continue;
        for (int racing = 0; racing < 2; racing++)
            for (unsigned n = visible(f, before, a, racing, list); n-- > 0;)
                if ((list[n] == INITIAL ? 0 : f->a[list[n]].id) == e->a[x].seen)
                    see(f, a, list[n]);
    }
}

/* ---- faults aimed at a rule ---- */

/* a position of the section whose kind is one of those in the mask, or NOBODY */
static int some_action(struct draft *d, const struct execution *e, unsigned kinds) {
    unsigned start = below(&d->g, e->n);
    for (unsigned k = 0; k < e->n; k++)
        if (kinds >> e->a[(start + k) % e->n].kind & 1)
            return (int)((start + k) % e->n);
    return NOBODY;
}

enum {
    READS = 1 << READ | 1 << VREAD,
    WRITES = 1 << WRITE | 1 << VWRITE,
    SYNCS = 0x7f8,
    LOCKS = 1 << LOCK | 1 << UNLOCK,
    THREADINGS = 1 << START | 1 << FIRST | 1 << LAST | 1 << JOIN,
    NOT_SYNC = 1 << READ | 1 << WRITE | 1 << EXTERNAL,
    ANY_KIND = 0xffe
};

/* the first target that is too large for the kind */
static unsigned target_bound(const struct draft *d, unsigned kind) {
    if (kind <= VWRITE)
        return d->variables;
    if (kind == LOCK || kind == UNLOCK)
        return d->monitors;
    return kind == START || kind == JOIN ? d->threads : 1;
}

static void spoil_field(struct draft *d, struct execution *e) {
    int a = some_action(d, e, percent(&d->g, 30) ? SYNCS : ANY_KIND);
    if (a < 0)
        return;
    struct action *x = &e->a[a];
    switch (below(&d->g, 15)) {
    case 0:
        x->id = 0;
        break;
    case 1:
        x->thread = (uint8_t)from_to(&d->g, d->threads, 255);
        break;
    case 2:
        x->thread = (uint8_t)d->threads;
        break;
    case 3:
        *x = (struct action){.id = x->id, .thread = x->thread, .kind = percent(&d->g, 50) ? 12 : 0, .commit = x->commit};
        break;
    case 4:
        x->kind = (uint8_t)below(&d->g, 14);
        break;
    case 5:
        x->target = (uint8_t)below(&d->g, 256);
        break;
    case 6:
        x->target++;
        break;
    case 7:
        x->commit = (uint8_t)below(&d->g, 10);
        break;
    case 8:
        x->place = (uint16_t)(x->place ? 0 : from_to(&d->g, 1, 300));
        break;
    case 9:
        x->seen = (uint16_t)(is_read(x->kind) ? draw(&d->g) : from_to(&d->g, 1, 300));
        break;
    case 10:
        x->spare = (uint16_t)(1u << below(&d->g, 16));
        break;
    case 11:
    case 12:
        x->target = (uint8_t)target_bound(d, x->kind);
        break;
    case 13:
        a = some_action(d, &d->e[0], ANY_KIND);
        if (a >= 0)
            d->e[0].a[a].commit = (uint8_t)(percent(&d->g, 50) ? 0 : d->executions + 1);
        break;
    default:
        x->value ^= (int64_t)((uint64_t)1 << below(&d->g, 64));
    }
}

static void repeat_id(struct draft *d, struct execution *e) {
    unsigned a = below(&d->g, e->n), b = below(&d->g, e->n);
    if (e->n > 1)
        e->a[a].id = e->a[b == a ? (a + 1) % e->n : b].id;
}

static void spoil_place(struct draft *d, struct execution *e) {
    int a = some_action(d, e, SYNCS), b = some_action(d, e, SYNCS);
    unsigned number = 0;
    if (a < 0)
        return;
    for (unsigned k = 0; k < e->n; k++)
        number += (unsigned)is_sync(e->a[k].kind);
    switch (below(&d->g, 4)) {
    case 0:
        e->a[a].place = (uint16_t)(number + 1);
        break;
    case 1:
        e->a[a].place = (uint16_t)from_to(&d->g, 1, 65535);
        break;
    case 2:
        e->a[a].place |= 0x100;
        break;
    default:
        e->a[a].place = e->a[b].place;
    }
}

static void swap_places(struct execution *e, int a, int b) {
    uint16_t place = e->a[a].place;
    e->a[a].place = e->a[b].place;
    e->a[b].place = place;
}

/* two synchronization actions, of one thread or of two as asked, change places */
static void swap_some_places(struct draft *d, struct execution *e, int one_thread, unsigned kinds) {
    for (int tries = 0; tries < 20; tries++) {
        int a = some_action(d, e, kinds), b = some_action(d, e, kinds);
        if (a >= 0 && a != b && (e->a[a].thread == e->a[b].thread) == one_thread) {
            swap_places(e, a, b);
            return;
        }
    }
}

/* two synchronization actions of neighbouring places, of two threads and without an edge, change places */
static void swap_neighbours(struct draft *d, struct execution *e) {
    for (int tries = 0; tries < 20; tries++) {
        int a = some_action(d, e, SYNCS);
        for (unsigned b = 0; b < e->n && a >= 0; b++)
            if (e->a[b].place == e->a[a].place + 1 && !edge(&e->a[a], &e->a[b]) &&
                !(is_write(e->a[a].kind) && e->a[a].target == e->a[b].target) &&
                !(is_write(e->a[b].kind) && e->a[a].target == e->a[b].target)) {
                swap_places(e, a, (int)b);
                return;
            }
    }
}

static void spoil_monitors(struct draft *d, struct execution *e) {
    int a = some_action(d, e, LOCKS);
    if (a < 0)
        return;
    switch (below(&d->g, 4)) {
    case 0:
        e->a[a].kind = e->a[a].kind == LOCK ? UNLOCK : LOCK;
        break;
    case 1:
        e->a[a].target = (uint8_t)below(&d->g, d->monitors);
        break;
    case 2:
        e->a[a].thread = (uint8_t)below(&d->g, d->threads);
        break;
    default:
        swap_some_places(d, e, 0, LOCKS);
    }
}

static void spoil_threads(struct draft *d, struct execution *e) {
    static const uint8_t kinds[] = {START, FIRST, LAST, JOIN};
    unsigned kind = kinds[below(&d->g, 4)];
    int a = some_action(d, e, THREADINGS);
    if (a < 0 || percent(&d->g, 30))
        a = some_action(d, e, SYNCS);
    if (a < 0)
        return;
    if (percent(&d->g, 20)) {
        swap_some_places(d, e, 0, THREADINGS);
        return;
    }
    e->a[a].seen = 0;
    e->a[a].value = 0;
    e->a[a].kind = (uint8_t)kind;
    e->a[a].target = (uint8_t)(kind == FIRST || kind == LAST ? 0 : below(&d->g, d->threads));
}

/* a read sees another id: of any action, of no action, or one that stands nowhere */
static void spoil_seen(struct draft *d, struct execution *e) {
    int a = some_action(d, e, READS), b = some_action(d, e, ANY_KIND);
    if (a >= 0)
        e->a[a].seen = percent(&d->g, 70) ? e->a[b].id : (uint16_t)draw(&d->g);
}

/* a read sees another write to its variable, with its value */
static void see_another(struct draft *d, struct execution *e, unsigned kinds) {
    int a = some_action(d, e, kinds);
    if (a < 0)
        return;
    unsigned start = below(&d->g, e->n + 1);
    for (unsigned k = 0; k <= e->n; k++) {
        unsigned w = (start + k) % (e->n + 1);
        if (w == e->n ? e->a[a].seen != 0
                      : is_write(e->a[w].kind) && e->a[w].target == e->a[a].target && e->a[w].id != e->a[a].seen) {
            see(e, (unsigned)a, w == e->n ? INITIAL : (int)w);
            return;
        }
    }
}

/* a plain read sees another write that it may see; the section must be in line */
static void see_another_visible(struct draft *d, struct execution *e) {
    rows before;
    relate(e, before);
    for (int tries = 0; tries < 20; tries++) {
        int a = some_action(d, e, 1 << READ), list[MOST_ACTIONS + 1];
        unsigned n = a < 0 ? 0 : visible(e, before, (unsigned)a, (int)below(&d->g, 2), list);
        if (n == 0)
            continue;
        int w = list[below(&d->g, n)];
        if ((w == INITIAL ? 0 : e->a[w].id) != e->a[a].seen) {
            see(e, (unsigned)a, w);
            return;
        }
    }
}

static void spoil_value(struct draft *d, struct execution *e) {
    int a = some_action(d, e, READS);
    if (a >= 0)
        e->a[a].value ^= (int64_t)((uint64_t)1 << below(&d->g, 64));
}

/* a write gets another value, its readers too */
static void rewrite(struct draft *d, struct execution *e) {
    int a = some_action(d, e, WRITES);
    if (a < 0)
        return;
    e->a[a].value ^= (int64_t)((uint64_t)1 << below(&d->g, 64));
    for (unsigned r = 0; r < e->n; r++)
        if (is_read(e->a[r].kind) && e->a[r].seen == e->a[a].id)
            e->a[r].value = e->a[a].value;
}

/* an action gets another identifier, and its readers with it; or another target; or goes */
static void estrange(struct draft *d, struct execution *e) {
    int a = some_action(d, e, percent(&d->g, 60) ? NOT_SYNC : ANY_KIND);
    if (a < 0)
        return;
    uint16_t old = e->a[a].id;
    int v = some_variable(d, 0), seen = 0;
    for (unsigned r = 0; r < e->n; r++)
        seen |= e->a[r].seen == old;
    switch (below(&d->g, 4)) {
    case 0:
        if (e->a[a].kind == EXTERNAL) {
            e->a[a].target ^= (uint8_t)(1u << below(&d->g, 8));
            return;
        }
        break;
    case 1:
        if (!seen && !is_sync(e->a[a].kind)) {
            memmove(&e->a[a], &e->a[a + 1], sizeof *e->a * (e->n - 1 - (unsigned)a));
            e->n--;
            return;
        }
        break;
    case 2:
        if (!seen && e->a[a].kind == WRITE) {
            e->a[a].target = (uint8_t)v;
            return;
        }
        break;
    }
    e->a[a].id = fresh_id(d);
    for (unsigned r = 0; r < e->n; r++)
        if (is_read(e->a[r].kind) && e->a[r].seen == old)
            e->a[r].seen = e->a[a].id;
}

/* two actions of one thread that don't synchronize change their places in the section */
static void reorder(struct draft *d, struct execution *e) {
    for (int tries = 0; tries < 20; tries++) {
        int a = some_action(d, e, NOT_SYNC);
        if (a < 0)
            return;
        for (unsigned b = (unsigned)a + 1; b < e->n; b++)
            if (e->a[b].thread == e->a[a].thread) {
                if (is_sync(e->a[b].kind) ||
                    (e->a[a].kind != EXTERNAL && e->a[b].kind != EXTERNAL && e->a[a].target == e->a[b].target))
                    break;
                struct action x = e->a[a];
                e->a[a] = e->a[b];
                e->a[b] = x;
                return;
            }
    }
}

/* another commit number for an action of these kinds, and none too large */
static void recommit(struct draft *d, unsigned kinds) {
    int a = some_action(d, &d->e[0], kinds);
    if (a >= 0 && d->executions > 0)
        d->e[0].a[a].commit = (uint8_t)from_to(&d->g, 1, d->executions);
}

/*
 * A write that a read of E sees, there or before the read is committed, is committed only with the read; a read that sees
 * two such writes, if there is one. E must be in line.
 */
static void recommit_together(struct draft *d) {
    struct execution *e = &d->e[0];
    int chosen = some_action(d, e, READS), two = 0;
    for (unsigned r = 0; r < e->n; r++)
        if (is_read(e->a[r].kind) && d->settled[r] != d->source[r] && d->settled[r] != INITIAL && (!two || percent(&d->g, 50))) {
            chosen = (int)r;
            two = 1;
        }
    if (chosen < 0)
        return;
    int w = percent(&d->g, 70) ? d->settled[chosen] : d->source[chosen];
    if (w != INITIAL)
        e->a[w].commit = e->a[chosen].commit;
}

static void insert(struct execution *e, unsigned at, struct action x) {
    memmove(&e->a[at + 1], &e->a[at], sizeof *e->a * (e->n - at));
    e->a[at] = x;
    e->n++;
}

/* an external action that E hasn't, anywhere in its thread but at the ends */
static void insert_external(struct draft *d, struct execution *e) {
    int a = some_action(d, e, ANY_KIND & ~(1 << FIRST));
    if (a >= 0 && e->n < MOST_ACTIONS && e != &d->e[0])
        insert(e, (unsigned)a, (struct action){.id = fresh_id(d), .thread = e->a[a].thread, .kind = EXTERNAL, .target = 9});
}

/* where in the line a thread may take its first step: after its kind 8 action and its start, or at once */
static unsigned earliest_step(const struct execution *e, unsigned t) {
    unsigned from = 0;
    for (unsigned a = 0; a < e->n; a++)
        if ((e->a[a].kind == FIRST && e->a[a].thread == t) || (e->a[a].kind == START && e->a[a].target == t))
            from = a + 1;
    return from;
}

/*
 * Two new actions that synchronize in some of the sections: a volatile write x of one thread and, just before an
 * action z of another, a volatile read y of it. In one section they are missing, or y merely comes after x in x's thread.
 * The sections must be in line.
 */
static void insert_edge(struct draft *d) {
    const struct execution *e = &d->e[0];
    unsigned k = d->executions;
    int v = some_variable(d, 1), z = some_action(d, e, ANY_KIND & ~(1 << FIRST));
    if (v < 0 || z < 0 || k < 2)
        return;
    struct action x = {.id = fresh_id(d), .kind = VWRITE, .target = (uint8_t)v, .value = some_value(&d->g)};
    struct action y = {.id = fresh_id(d), .kind = VREAD, .target = (uint8_t)v};
    uint16_t id_z = e->a[z].id;
    x.thread = (uint8_t)below(&d->g, d->threads);
    y.thread = e->a[z].thread;
    unsigned i = percent(&d->g, 70) ? e->a[z].commit : from_to(&d->g, 1, k), everywhere = percent(&d->g, 30);
    unsigned apart = percent(&d->g, 30);
    unsigned missing = from_to(&d->g, i, k + 1) % (k + 1);              /* a section that has no such edge */
    for (unsigned s = 0; s <= k; s++) {
        struct execution *f = &d->e[s];
        int at = position(f, id_z);
        if (at < 0 || f->n + 2 > MOST_ACTIONS ||
            (s != i && ((s == missing && !apart) || (s != missing && !everywhere && percent(&d->g, 50)))))
            continue;
        unsigned last = (unsigned)at, from = earliest_step(f, x.thread);
        if (from > last)
            continue;
        x.commit = y.commit = 0;
        if (s == 0) {
            x.commit = (uint8_t)from_to(&d->g, 1, k - 1);
            y.commit = (uint8_t)from_to(&d->g, x.commit + 1u, k);
        }
        if (s == missing && s != i) {
            struct action after = {.id = y.id, .thread = x.thread, .kind = EXTERNAL, .commit = y.commit};
            insert(f, from, after);
            insert(f, from, x);
        } else {
            insert(f, last, y);
            insert(f, percent(&d->g, 60) ? from : from_to(&d->g, from, last), x);
        }
        number_places(f);
        for (unsigned r = 0; r < f->n; r++)
            if (f->a[r].kind == VREAD && f->a[r].target == v)
                see(f, r, latest_write(f, r));
    }
}

/*
 * A lock and an unlock, both new, between an unlock and the next lock of their monitor, in E and the last of the other
 * sections: there that unlock still synchronizes with that lock. The sections must be in line.
 */
static void insert_locking(struct draft *d) {
    unsigned k = d->executions, t = below(&d->g, d->threads), late = from_to(&d->g, 1, k + 1);
    int l = some_action(d, &d->e[0], 1 << LOCK);
    if (l < 0 || k < 1)
        return;
    uint16_t id_l = d->e[0].a[l].id;
    struct action x = {.id = fresh_id(d), .thread = (uint8_t)t, .kind = LOCK, .target = d->e[0].a[l].target}, y = x;
    y.id = fresh_id(d);
    y.kind = UNLOCK;
    for (unsigned s = 0; s <= k; s++) {
        struct execution *f = &d->e[s];
        int at = position(f, id_l);
        if (at < 0 || (s > 0 && s < late) || f->n + 2 > MOST_ACTIONS || earliest_step(f, t) > (unsigned)at)
            continue;
        x.commit = y.commit = (uint8_t)(s > 0 ? 0 : late > k ? k : late);
        insert(f, (unsigned)at, y);
        insert(f, (unsigned)at, x);
        number_places(f);
    }
}

/* a section, E itself seldom where there are others, the last one often */
static struct execution *some_section(struct draft *d) {
    if (d->executions == 0 || percent(&d->g, 25))
        return &d->e[0];
    if (percent(&d->g, 30))
        return &d->e[d->executions];
    return &d->e[from_to(&d->g, 1, d->executions)];
}

enum { FAULTS = 32, FIRST_STEP_FAULT = 11 };

/* one fault; from FIRST_STEP_FAULT on, one that leaves sections well-formed more often than not */
static void spoil(struct draft *d, struct execution *e, unsigned fault) {
    switch (fault) {
    case 0:
        spoil_field(d, e);
        break;
    case 1:
        repeat_id(d, e);
        break;
    case 2:
        spoil_place(d, e);
        break;
    case 3:
        swap_some_places(d, e, 1, SYNCS);
        break;
    case 4:
        spoil_monitors(d, e);
        break;
    case 5:
        spoil_threads(d, e);
        break;
    case 6:
        spoil_seen(d, e);
        break;
    case 7:
        spoil_value(d, e);
        break;
    case 8:
    case 9:
        see_another(d, e, 1 << VREAD);
        break;
    case 10:
        see_another(d, e, 1 << READ);
        break;
    case 11:
    case 12:
    case 13:
    case 14:
        see_another_visible(d, e);
        break;
    case 15:
        estrange(d, e);
        break;
    case 16:
        reorder(d, e);
        break;
    case 17:
        swap_neighbours(d, e);
        break;
    case 18:
        rewrite(d, e);
        break;
    case 19:
    case 20:
        recommit(d, 1 << EXTERNAL);
        break;
    case 21:
        recommit(d, READS | WRITES);
        break;
    case 22:
        recommit(d, ANY_KIND);
        break;
    case 23:
    case 24:
        recommit_together(d);
        break;
    case 25:
        insert_external(d, e);
        break;
    case 26:
    case 27:
        insert_locking(d);
        break;
    default:
        insert_edge(d);
    }
}

/* no fault, one, the same one some times in a section, or several in a section */
static void spoil_some(struct draft *d) {
    struct execution *e = some_section(d);
    unsigned fault = below(&d->g, FAULTS), shape = below(&d->g, 10), times = from_to(&d->g, 2, 4);
    if (shape < 3)
        return;
    if (shape < 7)
        spoil(d, e, fault);
    else if (shape < 8)
        while (times-- > 0)
            spoil(d, e, fault);
    else
        while (times-- > 0)
            spoil(d, e, from_to(&d->g, percent(&d->g, 80) ? FIRST_STEP_FAULT : 0, FAULTS - 1));
}

/* ---- from draft to bytes ---- */

/* merges the threads of a section anew; their own orders stay */
static void merge_anew(struct draft *d, struct execution *e) {
    struct execution old = *e;
    uint64_t done[2] = {0, 0};
    for (unsigned k = 0; k < e->n;) {
        unsigned t = old.a[below(&d->g, old.n)].thread, run = from_to(&d->g, 1, 3);
        for (unsigned a = 0; a < old.n && run > 0; a++)
            if (old.a[a].thread == t && !has(done, a)) {
                add(done, a);
                e->a[k++] = old.a[a];
                run--;
            }
    }
}

static uint8_t *put(uint8_t *p, uint64_t x, int bytes) {
    for (int k = 0; k < bytes; k++)
        *p++ = (uint8_t)(x >> (8 * k));
    return p;
}

static size_t encode(const struct draft *d, uint8_t *rec) {
    uint8_t *p = rec;
    memcpy(p, "JXE\1", 5);
    p[5] = (uint8_t)d->threads;
    p[6] = (uint8_t)d->variables;
    p[7] = (uint8_t)d->monitors;
    p[8] = (uint8_t)d->executions;
    p = put(p + 9, d->map, 8);
    for (unsigned s = 0; s <= d->executions; s++) {
        p = put(p, d->e[s].n, 2);
        for (unsigned a = 0; a < d->e[s].n; a++) {
            const struct action *x = &d->e[s].a[a];
            p = put(p, x->id, 2);
            *p++ = x->thread;
            *p++ = x->kind;
            *p++ = x->target;
            *p++ = x->commit;
            p = put(p, x->place, 2);
            p = put(p, x->seen, 2);
            p = put(p, x->spare, 2);
            p = put(p, (uint64_t)x->value, 8);
        }
    }
    return (size_t)(p - rec);
}

/* ---- kinds of records ---- */

static void head(struct draft *d, unsigned threads, unsigned variables, unsigned monitors) {
    d->threads = from_to(&d->g, 1, threads);
    d->variables = below(&d->g, variables + 1);
    d->monitors = below(&d->g, monitors + 1);
    d->map = draw(&d->g) & draw(&d->g);
    if (d->variables < 64)
        d->map &= ((uint64_t)1 << d->variables) - 1;
    d->last_id = below(&d->g, 65536);
}

/* a justified record in line, with sections of at most n actions */
static void justified(struct draft *d, unsigned n) {
    struct plan p = {.n = n, .guarded = percent(&d->g, 40), .no_reads = d->executions == 1 && percent(&d->g, 80)};
    play(d, &p);
    choose_sources(d);
    commit_all(d);
    unsigned likely = below(&d->g, 3) * 50, replays = percent(&d->g, 15) ? 60 : 0, extras = percent(&d->g, 25) ? 4 : 0;
    for (unsigned i = 1; i <= d->executions; i++) {
        if (percent(&d->g, replays))
            replay(d, i);
        else
            derive(d, i, likely);
        if (extras)
            append_fresh(d, i, below(&d->g, extras));
    }
}

/* actions thrown together, each with fields that fit */
static void soup(struct draft *d, unsigned n) {
    for (unsigned s = 0; s <= d->executions; s++) {
        struct execution *e = &d->e[s];
        unsigned threading = percent(&d->g, 50);
        e->n = below(&d->g, n + 1);
        for (unsigned a = 0; a < e->n; a++) {
            unsigned kind = from_to(&d->g, threading ? 3 : 1, threading ? 10 : 11);
            int target = 0;
            if (kind <= VWRITE)
                target = some_variable(d, kind >= VREAD);
            else if (kind == LOCK || kind == UNLOCK)
                target = d->monitors ? (int)below(&d->g, d->monitors) : NOBODY;
            else if (kind == START || kind == JOIN)
                target = (int)below(&d->g, d->threads);
            if (target < 0) {
                kind = EXTERNAL;
                target = 0;
            }
            e->a[a] = (struct action){.id = (uint16_t)(a + 1), .thread = (uint8_t)below(&d->g, d->threads)};
            e->a[a].kind = (uint8_t)kind;
            e->a[a].target = (uint8_t)target;
            e->a[a].commit = (uint8_t)(s == 0 && d->executions > 0 ? from_to(&d->g, 1, d->executions) : 0);
            if (is_write(kind))
                e->a[a].value = below(&d->g, 2);
        }
        number_places(e);
        if (percent(&d->g, 70))
            for (unsigned k = 0; k < e->n; k++) {
                int a = some_action(d, e, SYNCS), b = some_action(d, e, SYNCS);
                if (a >= 0)
                    swap_places(e, a, b);
            }
        if (percent(&d->g, 20))
            spoil_place(d, e);
        for (unsigned a = 0; a < e->n; a++)
            if (is_read(e->a[a].kind))
                see_another(d, e, 1u << e->a[a].kind);
    }
}

static size_t cut(struct chance *g, uint8_t *rec, size_t len) {
    switch (below(g, 6)) {
    case 0:                                             /* anywhere */
        return below(g, (unsigned)len);
    case 1:                                             /* in the header */
        return below(g, 19);
    case 2:                                             /* at the end */
        return len - from_to(g, 1, 3);
    case 3:                                             /* too long by a little */
        for (unsigned more = from_to(g, 1, 30); more > 0; more--)
            rec[len++] = (uint8_t)below(g, 256);
        return len;
    case 4:                                             /* longer than any record */
        for (size_t end = LONGEST_RECORD + from_to(g, 1, 1400); len < end;)
            rec[len++] = (uint8_t)draw(g);
        return len;
    default:                                            /* a count */
        rec[17] = (uint8_t)(percent(g, 50) ? from_to(g, 127, 130) : below(g, 256));
        rec[18] = (uint8_t)(percent(g, 20) ? below(g, 256) : 0);
        return len;
    }
}

static void damage(struct chance *g, uint8_t *rec, size_t len) {
    static const uint8_t bounds[] = {0, 1, 2, 8, 9, 16, 17, 32, 33, 64, 65, 255};
    switch (below(g, 3)) {
    case 0:
        rec[below(g, 17)] = (uint8_t)below(g, 256);
        break;
    case 1:
        rec[from_to(g, 3, 8)] = bounds[below(g, sizeof bounds)];
        break;
    default:
        for (unsigned k = from_to(g, 1, 3); k > 0; k--)
            rec[below(g, (unsigned)len)] ^= (uint8_t)(1u << below(g, 8));
    }
}

size_t generate(uint64_t seed, uint8_t *rec) {
    static struct draft d;
    memset(&d, 0, sizeof d);
    d.g = chance_from(seed);
    unsigned size = below(&d.g, 100), n;
    if (size < 45) {
        head(&d, 3, 3, 2);
        n = below(&d.g, 11);
        d.executions = below(&d.g, 4);
    } else if (size < 80) {
        head(&d, 5, 8, 3);
        n = from_to(&d.g, 4, 26);
        d.executions = below(&d.g, 6);
    } else if (size < 94) {
        head(&d, 16, 64, 32);
        n = from_to(&d.g, 10, 80);
        d.executions = below(&d.g, 9);
    } else {
        head(&d, 16, 64, 32);
        n = percent(&d.g, 40) ? MOST_ACTIONS : from_to(&d.g, 90, MOST_ACTIONS);
        d.executions = percent(&d.g, 50) ? 8 : below(&d.g, 9);
    }
    if (percent(&d.g, 12))
        soup(&d, n);
    else {
        justified(&d, n);
        spoil_some(&d);
    }
    for (unsigned s = 0; s <= d.executions; s++)
        if (percent(&d.g, 60))
            merge_anew(&d, &d.e[s]);
    size_t len = encode(&d, rec);
    if (percent(&d.g, 4))
        damage(&d.g, rec, len);
    if (percent(&d.g, 4))
        len = cut(&d.g, rec, len);
    return len;
}

size_t generate_window(uint64_t seed, unsigned n, unsigned executions, uint8_t *rec) {
    static struct draft d;
    memset(&d, 0, sizeof d);
    d.g = chance_from(seed);
    d.threads = 6;
    d.variables = 24;
    d.monitors = 6;
    d.map = 0x111111;                   /* each fourth variable */
    d.executions = executions;
    d.last_id = below(&d.g, 65536);
    play(&d, &(struct plan){.n = n, .guarded = 1});
    choose_sources(&d);
    commit_all(&d);
    for (unsigned i = 1; i <= executions; i++)
        derive(&d, i, 100);
    return encode(&d, rec);
}
