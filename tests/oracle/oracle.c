/*
 * The oracle. Each section is read once into arrays; what is asked often (the action at a place, the position of an
 * identifier or of a seen write, the writes to a variable) is found once and kept.
 *
 * Happens-before is not closed by rounds over the rows where it can be had in one sweep: an execution that keeps the
 * order rules can be lined up (earlier in hb stands earlier in the line), and going through the line backwards each row
 * is the union of a few sets already known. Where the places contradict program order, or a start or join runs against
 * the places, there is no such line, and the rows are closed by Warshall's rounds.
 */
#include "oracle.h"

#include <string.h>

/* ---- sets of positions ---- */

typedef struct {
    uint64_t lo, hi;
} set;

static const set EMPTY = {0, 0};

static inline set both(set x, set y) { return (set){x.lo & y.lo, x.hi & y.hi}; }
static inline set either(set x, set y) { return (set){x.lo | y.lo, x.hi | y.hi}; }
static inline set minus(set x, set y) { return (set){x.lo & ~y.lo, x.hi & ~y.hi}; }
static inline set differ(set x, set y) { return (set){x.lo ^ y.lo, x.hi ^ y.hi}; }
static inline int some(set x) { return (x.lo | x.hi) != 0; }
static inline int has(set x, unsigned a) { return (a < 64 ? x.lo >> a : x.hi >> (a - 64)) & 1; }
static inline unsigned least(set x) {
    return x.lo ? (unsigned)__builtin_ctzll(x.lo) : 64 + (unsigned)__builtin_ctzll(x.hi);
}
static inline set with(set x, unsigned a) {
    if (a < 64)
        x.lo |= (uint64_t)1 << a;
    else
        x.hi |= (uint64_t)1 << (a - 64);
    return x;
}
static inline set without_least(set x) {
    if (x.lo)
        x.lo &= x.lo - 1;
    else
        x.hi &= x.hi - 1;
    return x;
}
/* the positions above a */
static inline set above(unsigned a) {
    if (a < 64)
        return (set){~(uint64_t)0 << a << 1, ~(uint64_t)0};
    return (set){0, ~(uint64_t)0 << (a - 64) << 1};
}

/* row a of rows that lie two words to an action, as in a part of the work area */
static inline set row(const uint64_t *rows, unsigned a) { return (set){rows[2 * a], rows[2 * a + 1]}; }
static inline void put_row(uint64_t *rows, unsigned a, set x) {
    rows[2 * a] = x.lo;
    rows[2 * a + 1] = x.hi;
}

/* ---- kinds ---- */

enum { READ = 1, WRITE, VREAD, VWRITE, LOCK, UNLOCK, START, FIRST, LAST, JOIN, EXTERNAL, KINDS };
enum target { NOTHING, PLAIN_VARIABLE, VOLATILE_VARIABLE, MONITOR, THREAD, ANY };

static const struct kind {
    uint8_t target, sync, read, write;
} KIND[KINDS] = {
    [READ] = {PLAIN_VARIABLE, 0, 1, 0},
    [WRITE] = {PLAIN_VARIABLE, 0, 0, 1},
    [VREAD] = {VOLATILE_VARIABLE, 1, 1, 0},
    [VWRITE] = {VOLATILE_VARIABLE, 1, 0, 1},
    [LOCK] = {MONITOR, 1, 0, 0},
    [UNLOCK] = {MONITOR, 1, 0, 0},
    [START] = {THREAD, 1, 0, 0},
    [FIRST] = {NOTHING, 1, 0, 0},
    [LAST] = {NOTHING, 1, 0, 0},
    [JOIN] = {THREAD, 1, 0, 0},
    [EXTERNAL] = {ANY, 0, 0, 0},
};

/*
 * What two actions synchronize through: x synchronizes with y when x releases the object that y acquires and, for a
 * variable or a monitor, y has the larger place.
 */
enum { VARIABLES = 0, MONITORS = 64, BEGINNINGS = 96, ENDINGS = 112, OBJECTS = 128 };

/* ---- the record ---- */

enum {
    ABSENT = 255,       /* no such position; of a seen write: the initial one */
    NO_OBJECT = 255,
    SLOTS = 256,
    THREADS = 16
};

struct header {
    unsigned threads, variables, monitors, executions;
    uint64_t map;
};

struct section {
    unsigned n, sync, reads;            /* counts: actions, synchronization actions, reads */
    uint16_t id[MOST_ACTIONS], place[MOST_ACTIONS], seen[MOST_ACTIONS];
    uint8_t thread[MOST_ACTIONS], kind[MOST_ACTIONS], target[MOST_ACTIONS], commit[MOST_ACTIONS];
    int64_t value[MOST_ACTIONS];
    uint8_t releases[MOST_ACTIONS], acquires[MOST_ACTIONS];
    uint8_t read[MOST_ACTIONS];         /* the reads, by position */
    uint8_t slot[SLOTS];                /* identifiers, hashed: position + 1, or 0 */
    unsigned twice;                     /* first action whose identifier was already met, or NO_POSITION */
    uint8_t head[THREADS], tail[THREADS], next[MOST_ACTIONS];   /* program order, step by step */
    set externals, writes[64], accesses[64];
    /* found by line_up */
    unsigned misplaced, backward;       /* first action against 11, against 12, or NO_POSITION */
    uint8_t at[MOST_ACTIONS + 1];       /* the action at a place, when 11 holds */
    int lined;                          /* whether there is a line */
    uint8_t line[MOST_ACTIONS];
    /* found by settle_seen */
    uint8_t source[MOST_ACTIONS];       /* of a read: the position of its seen write, or ABSENT */
    /* relations */
    const uint64_t *hb;                 /* its part of the work area */
    uint64_t before[2 * MOST_ACTIONS];  /* the same turned round: bit a of row b when a hb b */
};

struct record {
    struct header h;
    struct section e[MOST_SECTIONS];
};

static inline unsigned get16(const uint8_t *p) { return p[0] | (unsigned)p[1] << 8; }
static inline uint64_t get64(const uint8_t *p) {
    uint64_t x = 0;
    for (int k = 0; k < 8; k++)
        x |= (uint64_t)p[k] << (8 * k);
    return x;
}

static struct answer plain(unsigned n) { return (struct answer){n, 0, NO_POSITION, NO_POSITION}; }
static struct answer at(unsigned n, unsigned s, unsigned a) { return (struct answer){n, s, a, NO_POSITION}; }
static struct answer pair(unsigned n, unsigned s, unsigned a, unsigned b) { return (struct answer){n, s, a, b}; }
static const struct answer FINE = {0, 0, NO_POSITION, NO_POSITION};

static inline unsigned hash(unsigned id) { return (uint32_t)(id * 2654435769u) >> 24; }        /* one of 256 slots */

/* the position of an identifier, or ABSENT */
static unsigned find(const struct section *e, unsigned id) {
    for (unsigned k = hash(id); e->slot[k]; k = (k + 1) % SLOTS)
        if (e->id[e->slot[k] - 1] == id)
            return e->slot[k] - 1u;
    return ABSENT;
}

/* notes the identifier of action a; false when it was already met */
static int note(struct section *e, unsigned a) {
    unsigned k = hash(e->id[a]);
    for (; e->slot[k]; k = (k + 1) % SLOTS)
        if (e->id[e->slot[k] - 1] == e->id[a])
            return 0;
    e->slot[k] = (uint8_t)(a + 1);
    return 1;
}

/* 6: the target of a kind */
static inline int target_fits(const struct header *h, unsigned kind, unsigned target) {
    switch ((enum target)KIND[kind].target) {
    case PLAIN_VARIABLE:
        return target < h->variables && !(h->map >> target & 1);
    case VOLATILE_VARIABLE:
        return target < h->variables && (h->map >> target & 1);
    case MONITOR:
        return target < h->monitors;
    case THREAD:
        return target < h->threads;
    case NOTHING:
        return target == 0;
    case ANY:
        break;
    }
    return 1;
}

/* Reads the n actions at p as section s. The first action against 6, or NO_POSITION; e->twice tells of 7. */
static unsigned read_section(struct section *e, const struct header *h, unsigned s, const uint8_t *p, unsigned n) {
    unsigned low = s == 0 && h->executions > 0, high = s == 0 ? h->executions : 0;
    e->n = n;
    e->sync = e->reads = 0;
    e->twice = NO_POSITION;
    memset(e->slot, 0, sizeof e->slot);
    memset(e->head, ABSENT, sizeof e->head);
    memset(e->tail, ABSENT, sizeof e->tail);
    memset(e->writes, 0, sizeof(set) * h->variables);
    memset(e->accesses, 0, sizeof(set) * h->variables);
    e->externals = EMPTY;
    for (unsigned a = 0; a < n; a++, p += ACTION_BYTES) {
        unsigned id = get16(p), thread = p[2], kind = p[3], target = p[4], commit = p[5];
        unsigned place = get16(p + 6), seen = get16(p + 8);
        uint64_t value = get64(p + 12);
        if (id == 0 || thread >= h->threads || kind == 0 || kind >= KINDS || !target_fits(h, kind, target) ||
            commit < low || commit > high || (place != 0) != KIND[kind].sync || (seen != 0 && !KIND[kind].read) ||
            get16(p + 10) != 0 || (value != 0 && kind >= LOCK))
            return a;
        e->id[a] = (uint16_t)id;
        e->thread[a] = (uint8_t)thread;
        e->kind[a] = (uint8_t)kind;
        e->target[a] = (uint8_t)target;
        e->commit[a] = (uint8_t)commit;
        e->place[a] = (uint16_t)place;
        e->seen[a] = (uint16_t)seen;
        e->value[a] = (int64_t)value;
        if (!note(e, a) && e->twice == NO_POSITION)
            e->twice = a;
        /* program order */
        if (e->head[thread] == ABSENT)
            e->head[thread] = (uint8_t)a;
        else
            e->next[e->tail[thread]] = (uint8_t)a;
        e->tail[thread] = (uint8_t)a;
        e->next[a] = ABSENT;
        e->sync += KIND[kind].sync;
        e->releases[a] = e->acquires[a] = NO_OBJECT;
        switch (kind) {
        case READ:
            e->accesses[target] = with(e->accesses[target], a);
            e->read[e->reads++] = (uint8_t)a;
            break;
        case WRITE:
            e->accesses[target] = with(e->accesses[target], a);
            e->writes[target] = with(e->writes[target], a);
            break;
        case VREAD:
            e->acquires[a] = (uint8_t)(VARIABLES + target);
            e->read[e->reads++] = (uint8_t)a;
            break;
        case VWRITE:
            e->releases[a] = (uint8_t)(VARIABLES + target);
            break;
        case LOCK:
            e->acquires[a] = (uint8_t)(MONITORS + target);
            break;
        case UNLOCK:
            e->releases[a] = (uint8_t)(MONITORS + target);
            break;
        case START:
            e->releases[a] = (uint8_t)(BEGINNINGS + target);
            break;
        case FIRST:
            e->acquires[a] = (uint8_t)(BEGINNINGS + thread);
            break;
        case LAST:
            e->releases[a] = (uint8_t)(ENDINGS + thread);
            break;
        case JOIN:
            e->acquires[a] = (uint8_t)(ENDINGS + target);
            break;
        default:
            e->externals = with(e->externals, a);
        }
    }
    return NO_POSITION;
}

/* 1 to 7. Work area: `all` asks for the parts of all sections, otherwise part 0 is enough. */
static struct answer read_record(struct record *r, const uint8_t *rec, size_t len, size_t nwords, int all) {
    struct header *h = &r->h;
    if (len < HEADER_BYTES || memcmp(rec, "JXE", 3) != 0)
        return plain(1);
    if (get16(rec + 3) != 1)
        return plain(2);
    h->threads = rec[5];
    h->variables = rec[6];
    h->monitors = rec[7];
    h->executions = rec[8];
    h->map = get64(rec + 9);
    if (h->threads < 1 || h->threads > THREADS || h->variables > 64 || h->monitors > 32 || h->executions > 8 ||
        (h->variables < 64 && h->map >> h->variables != 0))
        return plain(3);
    unsigned sections = h->executions + 1;
    if (nwords < PART_WORDS * (size_t)(all ? sections : 1))
        return plain(4);

    const uint8_t *start[MOST_SECTIONS];
    unsigned count[MOST_SECTIONS];
    size_t done = HEADER_BYTES;
    for (unsigned s = 0; s < sections; s++) {
        if (len - done < 2)
            return at(5, s, NO_POSITION);
        count[s] = get16(rec + done);
        done += 2;
        if (count[s] > MOST_ACTIONS || len - done < (size_t)ACTION_BYTES * count[s])
            return at(5, s, NO_POSITION);
        start[s] = rec + done;
        done += (size_t)ACTION_BYTES * count[s];
    }
    if (done != len)
        return at(5, h->executions, NO_POSITION);

    for (unsigned s = 0; s < sections; s++) {
        unsigned a = read_section(&r->e[s], h, s, start[s], count[s]);
        if (a != NO_POSITION)
            return at(6, s, a);
    }
    for (unsigned s = 0; s < sections; s++)
        if (r->e[s].twice != NO_POSITION)
            return at(7, s, r->e[s].twice);
    return FINE;
}

/* ---- relations ---- */

static inline int synchronizes(const struct section *e, unsigned x, unsigned y) {
    unsigned object = e->releases[x];
    return object != NO_OBJECT && e->acquires[y] == object && (object >= BEGINNINGS || e->place[x] < e->place[y]);
}

/* The order rules 11 and 12, and the line: all actions so that x stands before y when x hb y, if there is such a line. */
static void line_up(struct section *e) {
    uint16_t latest[THREADS] = {0};
    uint16_t released[OBJECTS] = {0}, acquired[OBJECTS];
    e->misplaced = e->backward = NO_POSITION;
    e->lined = 0;
    memset(e->at, ABSENT, sizeof e->at);
    memset(acquired, 0xff, sizeof acquired);
    for (unsigned a = 0; a < e->n; a++) {
        unsigned place = e->place[a], t = e->thread[a];
        if (place == 0)
            continue;
        if (place > e->sync || e->at[place] != ABSENT) {
            e->misplaced = a;
            return;
        }
        e->at[place] = (uint8_t)a;
        if (place < latest[t]) {
            if (e->backward == NO_POSITION)
                e->backward = a;
        } else
            latest[t] = (uint16_t)place;
        /* of a beginning or an ending: the largest place that releases it, the smallest that acquires it */
        unsigned out = e->releases[a], in = e->acquires[a];
        if (out != NO_OBJECT && place > released[out])
            released[out] = (uint16_t)place;
        if (in != NO_OBJECT && place < acquired[in])
            acquired[in] = (uint16_t)place;
    }
    if (e->backward != NO_POSITION)
        return;
    for (unsigned object = BEGINNINGS; object < OBJECTS; object++)
        if (released[object] >= acquired[object])
            return;
    /* each synchronization action at its place, after what its thread does before it; then what is left */
    uint8_t cursor[THREADS];
    unsigned k = 0;
    memcpy(cursor, e->head, sizeof cursor);
    for (unsigned place = 1; place <= e->sync; place++) {
        unsigned a = e->at[place], c;
        do {
            c = cursor[e->thread[a]];
            e->line[k++] = (uint8_t)c;
            cursor[e->thread[a]] = e->next[c];
        } while (c != a);
    }
    for (unsigned t = 0; t < THREADS; t++)
        for (unsigned c = cursor[t]; c != ABSENT; c = e->next[c])
            e->line[k++] = (uint8_t)c;
    e->lined = 1;
}

/*
 * One sweep over the line, backwards (step -1) for what comes after each action, forwards (step 1) for what comes before.
 * An action is noted in the sets under number[a], or not at all when that is ABSENT.
 */
static void sweep(const struct section *e, int step, const uint8_t *number, uint64_t *rows) {
    const uint8_t *gives = step < 0 ? e->acquires : e->releases, *takes = step < 0 ? e->releases : e->acquires;
    set through[OBJECTS], thread[THREADS];
    memset(through, 0, sizeof through);
    memset(thread, 0, sizeof thread);
    for (unsigned k = 0; k < e->n; k++) {
        unsigned a = e->line[step < 0 ? e->n - 1 - k : k], t = e->thread[a];
        set x = thread[t];
        if (takes[a] != NO_OBJECT)
            x = either(x, through[takes[a]]);
        put_row(rows, a, x);
        if (number[a] != ABSENT)
            x = with(x, number[a]);
        thread[t] = x;
        if (gives[a] != NO_OBJECT)
            through[gives[a]] = either(through[gives[a]], x);
    }
}

static const uint8_t OWN[MOST_ACTIONS] = {
    0,  1,  2,  3,  4,  5,  6,  7,  8,  9,  10, 11, 12, 13, 14, 15, 16, 17, 18, 19, 20, 21, 22, 23, 24, 25,
    26, 27, 28, 29, 30, 31, 32, 33, 34, 35, 36, 37, 38, 39, 40, 41, 42, 43, 44, 45, 46, 47, 48, 49, 50, 51,
    52, 53, 54, 55, 56, 57, 58, 59, 60, 61, 62, 63, 64, 65, 66, 67, 68, 69, 70, 71, 72, 73, 74, 75, 76, 77,
    78, 79, 80, 81, 82, 83, 84, 85, 86, 87, 88, 89, 90, 91, 92, 93, 94, 95, 96, 97, 98, 99, 100, 101, 102, 103,
    104, 105, 106, 107, 108, 109, 110, 111, 112, 113, 114, 115, 116, 117, 118, 119, 120, 121, 122, 123, 124, 125, 126, 127,
};

/* happens-before into the section's part of the work area */
static void relate(struct section *e, uint64_t *part) {
    line_up(e);
    e->hb = part;
    memset(part + 2 * e->n, 0, sizeof *part * (PART_WORDS - 2 * e->n));
    if (e->lined) {
        sweep(e, -1, OWN, part);
        sweep(e, 1, OWN, e->before);
        return;
    }
    for (unsigned x = 0; x < e->n; x++) {
        set r = EMPTY;
        if (e->next[x] != ABSENT)
            r = with(r, e->next[x]);
        for (unsigned y = 0; y < e->n; y++)
            if (synchronizes(e, x, y))
                r = with(r, y);
        put_row(part, x, r);
    }
    for (unsigned z = 0; z < e->n; z++)
        for (unsigned x = 0; x < e->n; x++)
            if (has(row(part, x), z))
                put_row(part, x, either(row(part, x), row(part, z)));
}

/* ---- rules on one section ---- */

/* 13, in order of places */
static unsigned monitor_fault(const struct section *e) {
    uint8_t holder[32];
    memset(holder, ABSENT, sizeof holder);
    for (unsigned place = 1; place <= e->sync; place++) {
        unsigned a = e->at[place], m = e->target[a];
        if (e->kind[a] == LOCK) {
            if (holder[m] != ABSENT)
                return a;
            holder[m] = e->thread[a];
        } else if (e->kind[a] == UNLOCK) {
            if (holder[m] != e->thread[a])
                return a;
            holder[m] = ABSENT;
        }
    }
    return NO_POSITION;
}

/* 14 */
static unsigned thread_fault(const struct section *e) {
    uint16_t ended[THREADS];            /* the smallest place of a kind 9 action */
    unsigned started = 0;
    memset(ended, 0xff, sizeof ended);
    for (unsigned a = 0; a < e->n; a++)
        if (e->kind[a] == LAST && e->place[a] < ended[e->thread[a]])
            ended[e->thread[a]] = e->place[a];
    for (unsigned a = 0; a < e->n; a++) {
        unsigned t = e->thread[a], u = e->target[a], begin;
        switch (e->kind[a]) {
        case FIRST:
            if (e->head[t] != a)
                return a;
            break;
        case LAST:
            if (e->tail[t] != a)
                return a;
            break;
        case START:
            begin = e->head[u];
            if (u == t || (started >> u & 1) ||
                (begin != ABSENT && (e->kind[begin] != FIRST || e->place[begin] <= e->place[a])))
                return a;
            started |= 1u << u;
            break;
        case JOIN:
            if (ended[u] >= e->place[a])
                return a;
            break;
        }
    }
    return NO_POSITION;
}

/* 11 to 14 on section s */
static struct answer shape_rules(const struct section *e, unsigned s) {
    unsigned a;
    if (e->misplaced != NO_POSITION)
        return at(11, s, e->misplaced);
    if (e->backward != NO_POSITION)
        return at(12, s, e->backward);
    if ((a = monitor_fault(e)) != NO_POSITION)
        return at(13, s, a);
    if ((a = thread_fault(e)) != NO_POSITION)
        return at(14, s, a);
    return FINE;
}

/* 15: finds the seen writes; the first read whose seen write isn't one to its variable */
static unsigned settle_seen(struct section *e) {
    for (unsigned k = 0; k < e->reads; k++) {
        unsigned a = e->read[k], w = ABSENT;
        if (e->seen[a] != 0) {
            w = find(e, e->seen[a]);
            if (w == ABSENT || !KIND[e->kind[w]].write || e->target[w] != e->target[a])
                return a;
        }
        e->source[a] = (uint8_t)w;
    }
    return NO_POSITION;
}

/* 16 */
static unsigned value_fault(const struct section *e) {
    for (unsigned k = 0; k < e->reads; k++) {
        unsigned a = e->read[k], w = e->source[a];
        if (e->value[a] != (w == ABSENT ? 0 : e->value[w]))
            return a;
    }
    return NO_POSITION;
}

/* 17 */
static unsigned volatile_fault(const struct section *e) {
    uint8_t latest[64];
    unsigned fault = NO_POSITION;
    memset(latest, ABSENT, sizeof latest);
    for (unsigned place = 1; place <= e->sync; place++) {
        unsigned a = e->at[place], v = e->target[a];
        if (e->kind[a] == VWRITE)
            latest[v] = (uint8_t)a;
        else if (e->kind[a] == VREAD && e->source[a] != latest[v] && a < fault)
            fault = a;
    }
    return fault;
}

/* 18 */
static unsigned hidden_fault(const struct section *e) {
    for (unsigned k = 0; k < e->reads; k++) {
        unsigned a = e->read[k], w = e->source[a];
        if (e->kind[a] != READ)
            continue;
        set between = both(e->writes[e->target[a]], row(e->before, a));
        if (w != ABSENT) {
            if (has(row(e->hb, a), w))
                return a;
            between = both(between, row(e->hb, w));
        }
        if (some(between))
            return a;
    }
    return NO_POSITION;
}

/* 11 to 18 on section s */
static struct answer section_rules(struct section *e, unsigned s) {
    unsigned a;
    struct answer r = shape_rules(e, s);
    if (r.n != 0)
        return r;
    if ((a = settle_seen(e)) != NO_POSITION)
        return at(15, s, a);
    if ((a = value_fault(e)) != NO_POSITION)
        return at(16, s, a);
    if ((a = volatile_fault(e)) != NO_POSITION)
        return at(17, s, a);
    if ((a = hidden_fault(e)) != NO_POSITION)
        return at(18, s, a);
    return FINE;
}

/* 31 */
static struct answer race_rule(const struct section *e) {
    for (unsigned a = 0; a < e->n; a++) {
        if (e->kind[a] > WRITE)
            continue;
        set rivals = (e->kind[a] == WRITE ? e->accesses : e->writes)[e->target[a]];
        rivals = minus(minus(both(rivals, above(a)), row(e->hb, a)), row(e->before, a));
        if (some(rivals))
            return pair(31, 0, a, least(rivals));
    }
    return FINE;
}

/* ---- rules 21 to 29 ---- */

/* E beside E_i, both keeping 11 to 18 */
struct step {
    const struct record *r;
    unsigned i;
    const struct section *e, *ei;
    set now, earlier;                   /* C_i and C_(i-1), as positions in E */
    set now_i, earlier_i;               /* those of their actions that are in E_i, as positions in E_i */
    uint8_t twin[MOST_ACTIONS];         /* of an action of C_i: its position in E_i */
    uint8_t origin[MOST_ACTIONS];       /* of an action of E_i in C_i: its position in E; else ABSENT */
};

/* 21: finds the twins; the first action without one */
static unsigned find_twins(struct step *c) {
    memset(c->origin, ABSENT, sizeof c->origin);
    for (set left = c->now; some(left); left = without_least(left)) {
        unsigned x = least(left), a = find(c->ei, c->e->id[x]);
        if (a == ABSENT || c->ei->thread[a] != c->e->thread[x] || c->ei->kind[a] != c->e->kind[x] ||
            c->ei->target[a] != c->e->target[x])
            return x;
        c->twin[x] = (uint8_t)a;
        c->origin[a] = (uint8_t)x;
        c->now_i = with(c->now_i, a);
        if (has(c->earlier, x))
            c->earlier_i = with(c->earlier_i, a);
    }
    return NO_POSITION;
}

/* 22: hb of E_i, its actions of C_i numbered as in E, against hb of E */
static struct answer hb_rule(const struct step *c) {
    uint64_t rows[2 * MOST_ACTIONS];
    sweep(c->ei, -1, c->origin, rows);
    for (set left = c->now; some(left); left = without_least(left)) {
        unsigned x = least(left);
        set broken = both(differ(row(c->e->hb, x), row(rows, c->twin[x])), c->now);
        if (some(broken))
            return pair(22, c->i, x, least(broken));
    }
    return FINE;
}

/* 23: the places of C_i in E_i must rise as they do in E; the pair is searched only where they don't */
static struct answer place_rule(const struct step *c) {
    unsigned latest = 0, rising = 1;
    for (unsigned place = 1; place <= c->e->sync && rising; place++) {
        unsigned x = c->e->at[place];
        if (has(c->now, x)) {
            rising = c->ei->place[c->twin[x]] > latest;
            latest = c->ei->place[c->twin[x]];
        }
    }
    if (rising)
        return FINE;
    for (set xs = c->now; some(xs); xs = without_least(xs))
        for (set ys = c->now; some(ys); ys = without_least(ys)) {
            unsigned x = least(xs), y = least(ys);
            if ((c->e->place[x] < c->e->place[y]) != (c->ei->place[c->twin[x]] < c->ei->place[c->twin[y]]))
                return pair(23, c->i, x, y);
        }
    return FINE;
}

/* 24 */
static struct answer written_rule(const struct step *c) {
    for (set left = c->now; some(left); left = without_least(left)) {
        unsigned x = least(left);
        if (KIND[c->e->kind[x]].write && c->ei->value[c->twin[x]] != c->e->value[x])
            return at(24, c->i, x);
    }
    return FINE;
}

/* 25 */
static struct answer settled_rule(const struct step *c) {
    for (unsigned k = 0; k < c->e->reads; k++) {
        unsigned x = c->e->read[k];
        if (has(c->earlier, x) && c->ei->seen[c->twin[x]] != c->e->seen[x])
            return at(25, c->i, x);
    }
    return FINE;
}

/* 26 */
static struct answer visible_rule(const struct step *c) {
    for (unsigned k = 0; k < c->ei->reads; k++) {
        unsigned a = c->ei->read[k], w = c->ei->source[a];
        if (!has(c->earlier_i, a) && w != ABSENT && !has(row(c->ei->hb, w), a))
            return at(26, c->i, a);
    }
    return FINE;
}

/* 27: C_0 is empty, so that no read may be in C_1; from C_1 on the initial writes are in */
static struct answer committed_rule(const struct step *c) {
    for (unsigned k = 0; k < c->ei->reads; k++) {
        unsigned a = c->ei->read[k];
        if (!has(c->now_i, a) || has(c->earlier_i, a))
            continue;
        unsigned w = c->e->source[c->origin[a]], w_i = c->ei->source[a];
        if (c->i == 1 || (w != ABSENT && !has(c->earlier, w)) || (w_i != ABSENT && !has(c->earlier_i, w_i)))
            return at(27, c->i, a);
    }
    return FINE;
}

/* whether actions with these identifiers synchronize, first with second */
static int synchronize_in(const struct section *e, unsigned id_x, unsigned id_y) {
    unsigned x = find(e, id_x), y = find(e, id_y);
    return x != ABSENT && y != ABSENT && synchronizes(e, x, y);
}

/*
 * 28. In E_i, which keeps 11 to 14, what x hb among the actions that acquire its object is what x synchronizes with; and
 * of those, what comes after another of them, or after x's next action, has an action between.
 */
static struct answer edge_rule(const struct step *c) {
    const struct section *ei = c->ei;
    set fresh = minus(c->now_i, c->earlier_i), acquirers[OBJECTS];
    memset(acquirers, 0, sizeof acquirers);
    for (unsigned place = 1; place <= ei->sync; place++) {
        unsigned y = ei->at[place];
        if (ei->acquires[y] != NO_OBJECT && some(both(row(ei->hb, y), fresh)))
            acquirers[ei->acquires[y]] = with(acquirers[ei->acquires[y]], y);
    }
    for (unsigned x = 0; x < ei->n; x++) {
        if (ei->releases[x] == NO_OBJECT)
            continue;
        set ys = both(acquirers[ei->releases[x]], row(ei->hb, x));
        if (ei->next[x] != ABSENT)
            ys = minus(ys, row(ei->hb, ei->next[x]));
        for (; some(ys); ys = without_least(ys)) {
            unsigned y = least(ys);
            if (ei->thread[x] != ei->thread[y] && !some(both(row(ei->hb, x), row(ei->before, y)))) {
                for (unsigned j = c->i + 1; j <= c->r->h.executions; j++)
                    if (!synchronize_in(&c->r->e[j], ei->id[x], ei->id[y]))
                        return pair(28, c->i, x, y);
                if (!synchronize_in(c->e, ei->id[x], ei->id[y]))
                    return pair(28, c->i, x, y);
            }
            set after = row(ei->hb, y);
            ys = minus(ys, after);
        }
    }
    return FINE;
}

/* 29 */
static struct answer external_rule(const struct step *c) {
    for (set left = minus(c->ei->externals, c->now_i); some(left); left = without_least(left)) {
        unsigned x = least(left);
        set after = both(row(c->ei->hb, x), c->now_i);
        if (some(after))
            return pair(29, c->i, x, least(after));
    }
    return FINE;
}

/* 21 to 29 for E_i */
static struct answer step_rules(struct step *c) {
    static struct answer (*const rules[])(const struct step *) = {
        hb_rule, place_rule, written_rule, settled_rule, visible_rule, committed_rule, edge_rule, external_rule,
    };
    unsigned x = find_twins(c);
    if (x != NO_POSITION)
        return at(21, c->i, x);
    for (unsigned k = 0; k < sizeof rules / sizeof *rules; k++) {
        struct answer r = rules[k](c);
        if (r.n != 0)
            return r;
    }
    return FINE;
}

/* ---- the three questions ---- */

struct answer oracle_verdict(const uint8_t *rec, size_t len, uint64_t *words, size_t nwords) {
    struct record r;
    struct answer answer = read_record(&r, rec, len, nwords, 1);
    if (answer.n != 0)
        return answer;
    unsigned k = r.h.executions;
    for (unsigned s = 0; s <= k; s++)
        relate(&r.e[s], words + PART_WORDS * s);
    for (unsigned s = 0; s <= k; s++) {
        answer = section_rules(&r.e[s], s);
        if (answer.n != 0)
            return answer;
    }
    set committed = EMPTY;
    for (unsigned i = 1; i <= k; i++) {
        struct step c = {.r = &r, .i = i, .e = &r.e[0], .ei = &r.e[i], .earlier = committed};
        for (unsigned x = 0; x < r.e[0].n; x++)
            if (r.e[0].commit[x] == i)
                committed = with(committed, x);
        c.now = committed;
        answer = step_rules(&c);
        if (answer.n != 0)
            return answer;
    }
    return plain(k == 0 ? 10 : 0);
}

struct answer oracle_race(const uint8_t *rec, size_t len, uint64_t *words, size_t nwords) {
    struct record r;
    struct answer answer = read_record(&r, rec, len, nwords, 0);
    if (answer.n != 0)
        return answer;
    relate(&r.e[0], words);
    answer = shape_rules(&r.e[0], 0);
    return answer.n != 0 ? answer : race_rule(&r.e[0]);
}

/*
 * The one-at-a-time order. Threads below t are waiting for their places; only the owner of the place due next can be set
 * free by a step.
 */
static void serialize(const struct section *e, uint16_t *list) {
    uint8_t cursor[THREADS];
    unsigned t = 0, due = 1, k = 0;
    memcpy(cursor, e->head, sizeof cursor);
    while (t < THREADS) {
        unsigned a = cursor[t];
        if (a == ABSENT || (e->place[a] != 0 && e->place[a] != due)) {
            t++;
            continue;
        }
        list[k++] = (uint16_t)a;
        cursor[t] = e->next[a];
        if (e->place[a] != 0 && ++due <= e->sync && e->thread[e->at[due]] < t)
            t = e->thread[e->at[due]];
    }
}

struct answer oracle_order(const uint8_t *rec, size_t len, uint64_t *words, size_t nwords, uint16_t *list, size_t nlist) {
    struct record r;
    struct answer answer = read_record(&r, rec, len, nwords, 0);
    if (answer.n != 0)
        return answer;
    if (nlist < r.e[0].n)
        return plain(8);
    relate(&r.e[0], words);
    answer = section_rules(&r.e[0], 0);
    if (answer.n != 0)
        return answer;
    answer = race_rule(&r.e[0]);
    if (answer.n == 0)
        serialize(&r.e[0], list);
    return answer;
}
