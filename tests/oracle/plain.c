/*
 * Every rule is a search over positions or pairs of positions, in the order of the document, on the bytes themselves.
 * Nothing is kept but the relation hb of each section.
 */
#include "plain.h"

#include <stdbool.h>
#include <string.h>

typedef struct {
    const uint8_t *bytes;       /* from its count on */
    int n;
    bool hb[MOST_ACTIONS][MOST_ACTIONS];
} part;

typedef struct {
    const uint8_t *bytes;
    size_t len;
    part s[MOST_SECTIONS];
} parts;

static struct answer give(int n, int s, int a, int b) {
    return (struct answer){(unsigned)n, (unsigned)s, (unsigned)a, (unsigned)b};
}

/* ---- fields ---- */

static int byte_at(const part *s, int a, int k) { return s->bytes[2 + ACTION_BYTES * a + k]; }
static int identifier(const part *s, int a) { return byte_at(s, a, 0) + 256 * byte_at(s, a, 1); }
static int thread(const part *s, int a) { return byte_at(s, a, 2); }
static int kind(const part *s, int a) { return byte_at(s, a, 3); }
static int target(const part *s, int a) { return byte_at(s, a, 4); }
static int commit(const part *s, int a) { return byte_at(s, a, 5); }
static int place(const part *s, int a) { return byte_at(s, a, 6) + 256 * byte_at(s, a, 7); }
static int seen(const part *s, int a) { return byte_at(s, a, 8) + 256 * byte_at(s, a, 9); }
static int64_t value(const part *s, int a) {
    uint64_t x = 0;
    for (int k = 7; k >= 0; k--)
        x = 256 * x + (uint64_t)byte_at(s, a, 12 + k);
    return (int64_t)x;
}

static bool is_sync(int k) { return k >= 3 && k <= 10; }
static bool is_read(int k) { return k == 1 || k == 3; }
static bool is_write(int k) { return k == 2 || k == 4; }

/* position of an identifier, -1 where there is none */
static int position(const part *s, int id) {
    for (int a = 0; a < s->n; a++)
        if (identifier(s, a) == id)
            return a;
    return -1;
}

/* ---- 1 to 7 ---- */

static bool is_volatile(const parts *r, int v) { return r->bytes[9 + v / 8] >> (v % 8) & 1; }

static bool field_fault(const parts *r, int s, int a) {
    const part *e = &r->s[s];
    int T = r->bytes[5], V = r->bytes[6], M = r->bytes[7], K = r->bytes[8], k = kind(e, a), t = target(e, a);
    if (identifier(e, a) == 0 || thread(e, a) >= T || k < 1 || k > 11)
        return true;
    if (k <= 4 && (t >= V || is_volatile(r, t) != (k >= 3)))
        return true;
    if ((k == 5 || k == 6) && t >= M)
        return true;
    if ((k == 7 || k == 10) && t >= T)
        return true;
    if ((k == 8 || k == 9) && t != 0)
        return true;
    if (s == 0 && K > 0 ? commit(e, a) < 1 || commit(e, a) > K : commit(e, a) != 0)
        return true;
    if ((place(e, a) == 0) == is_sync(k))
        return true;
    if (!is_read(k) && seen(e, a) != 0)
        return true;
    if (byte_at(e, a, 10) != 0 || byte_at(e, a, 11) != 0)
        return true;
    return k >= 5 && value(e, a) != 0;
}

static struct answer refusal(parts *r, const uint8_t *rec, size_t len, size_t nwords, bool all) {
    r->bytes = rec;
    r->len = len;
    if (len < 17 || rec[0] != 'J' || rec[1] != 'X' || rec[2] != 'E')
        return give(1, 0, NO_POSITION, NO_POSITION);
    if (rec[3] != 1 || rec[4] != 0)
        return give(2, 0, NO_POSITION, NO_POSITION);
    int K = rec[8];
    if (rec[5] < 1 || rec[5] > 16 || rec[6] > 64 || rec[7] > 32 || K > 8)
        return give(3, 0, NO_POSITION, NO_POSITION);
    for (int v = rec[6]; v < 64; v++)
        if (is_volatile(r, v))
            return give(3, 0, NO_POSITION, NO_POSITION);
    if (nwords < (size_t)(all ? 256 * (K + 1) : 256))
        return give(4, 0, NO_POSITION, NO_POSITION);
    size_t from = 17;
    for (int s = 0; s <= K; s++) {
        if (from + 2 > len)
            return give(5, s, NO_POSITION, NO_POSITION);
        r->s[s].bytes = rec + from;
        r->s[s].n = rec[from] + 256 * rec[from + 1];
        from += 2 + 20 * (size_t)r->s[s].n;
        if (r->s[s].n > 128 || from > len)
            return give(5, s, NO_POSITION, NO_POSITION);
    }
    if (from < len)
        return give(5, K, NO_POSITION, NO_POSITION);
    for (int s = 0; s <= K; s++)
        for (int a = 0; a < r->s[s].n; a++)
            if (field_fault(r, s, a))
                return give(6, s, a, NO_POSITION);
    for (int s = 0; s <= K; s++)
        for (int a = 0; a < r->s[s].n; a++)
            if (position(&r->s[s], identifier(&r->s[s], a)) < a)
                return give(7, s, a, NO_POSITION);
    return give(0, 0, NO_POSITION, NO_POSITION);
}

/* ---- relations ---- */

static bool po(const part *s, int x, int y) { return x < y && thread(s, x) == thread(s, y); }

static bool sw(const part *s, int x, int y) {
    int k = kind(s, x), l = kind(s, y);
    if (k == 6 && l == 5)
        return target(s, x) == target(s, y) && place(s, x) < place(s, y);
    if (k == 4 && l == 3)
        return target(s, x) == target(s, y) && place(s, x) < place(s, y);
    if (k == 7 && l == 8)
        return target(s, x) == thread(s, y);
    if (k == 9 && l == 10)
        return thread(s, x) == target(s, y);
    return false;
}

static void relate(part *s, uint64_t *words) {
    for (int x = 0; x < s->n; x++)
        for (int y = 0; y < s->n; y++)
            s->hb[x][y] = po(s, x, y) || sw(s, x, y);
    for (int z = 0; z < s->n; z++)
        for (int x = 0; x < s->n; x++)
            for (int y = 0; y < s->n; y++)
                if (s->hb[x][z] && s->hb[z][y])
                    s->hb[x][y] = true;
    for (int k = 0; k < 256; k++)
        words[k] = 0;
    for (int x = 0; x < s->n; x++)
        for (int y = 0; y < s->n; y++)
            if (s->hb[x][y])
                words[2 * x + y / 64] |= (uint64_t)1 << (y % 64);
}

/* ---- 11 to 18 ---- */

static bool rule11(const part *s, int a) {
    int number = 0;
    for (int b = 0; b < s->n; b++)
        number += is_sync(kind(s, b));
    if (!is_sync(kind(s, a)))
        return false;
    for (int b = 0; b < a; b++)
        if (is_sync(kind(s, b)) && place(s, b) == place(s, a))
            return true;
    return place(s, a) > number;
}

static bool rule12(const part *s, int a) {
    for (int b = 0; b < a; b++)
        if (is_sync(kind(s, a)) && is_sync(kind(s, b)) && thread(s, a) == thread(s, b) && place(s, b) > place(s, a))
            return true;
    return false;
}

/* who holds monitor m just before a place, by the last lock or unlock of it at a smaller one; -1: nobody */
static int holder(const part *s, int m, int before) {
    int last = -1;
    for (int b = 0; b < s->n; b++)
        if ((kind(s, b) == 5 || kind(s, b) == 6) && target(s, b) == m && place(s, b) < before &&
            (last < 0 || place(s, b) > place(s, last)))
            last = b;
    return last >= 0 && kind(s, last) == 5 ? thread(s, last) : -1;
}

/* right where no action of a smaller place breaks it, and the least place is what is asked for */
static bool rule13(const part *s, int a) {
    if (kind(s, a) == 5)
        return holder(s, target(s, a), place(s, a)) != -1;
    if (kind(s, a) == 6)
        return holder(s, target(s, a), place(s, a)) != thread(s, a);
    return false;
}

static bool rule14(const part *s, int a) {
    int k = kind(s, a), t = target(s, a);
    if (k == 8)
        for (int b = 0; b < a; b++)
            if (thread(s, b) == thread(s, a))
                return true;
    if (k == 9)
        for (int b = a + 1; b < s->n; b++)
            if (thread(s, b) == thread(s, a))
                return true;
    if (k == 7) {
        if (t == thread(s, a))
            return true;
        for (int b = 0; b < a; b++)
            if (kind(s, b) == 7 && target(s, b) == t)
                return true;
        for (int b = 0; b < s->n; b++)
            if (thread(s, b) == t)
                return !(kind(s, b) == 8 && place(s, b) > place(s, a));
    }
    if (k == 10) {
        for (int b = 0; b < s->n; b++)
            if (kind(s, b) == 9 && thread(s, b) == t && place(s, b) < place(s, a))
                return false;
        return true;
    }
    return false;
}

static bool rule15(const part *s, int a) {
    if (!is_read(kind(s, a)) || seen(s, a) == 0)
        return false;
    int w = position(s, seen(s, a));
    return w < 0 || !is_write(kind(s, w)) || target(s, w) != target(s, a);
}

static bool rule16(const part *s, int a) {
    if (!is_read(kind(s, a)))
        return false;
    return value(s, a) != (seen(s, a) == 0 ? 0 : value(s, position(s, seen(s, a))));
}

static bool rule17(const part *s, int a) {
    if (kind(s, a) != 3)
        return false;
    int last = -1;
    for (int b = 0; b < s->n; b++)
        if (kind(s, b) == 4 && target(s, b) == target(s, a) && place(s, b) < place(s, a) &&
            (last < 0 || place(s, b) > place(s, last)))
            last = b;
    return seen(s, a) != (last < 0 ? 0 : identifier(s, last));
}

static bool rule18(const part *s, int r) {
    if (kind(s, r) != 1)
        return false;
    int w = seen(s, r) == 0 ? -1 : position(s, seen(s, r));
    if (w >= 0 && s->hb[r][w])
        return true;
    for (int b = 0; b < s->n; b++)
        if (kind(s, b) == 2 && target(s, b) == target(s, r) && (w < 0 || s->hb[w][b]) && s->hb[b][r])
            return true;
    return false;
}

static struct answer section_rules(const part *e, int s, int last) {
    static bool (*const rules[])(const part *, int) = {rule11, rule12, rule13, rule14, rule15, rule16, rule17, rule18};
    for (int n = 11; n <= last; n++) {
        int broken = -1;
        for (int a = 0; a < e->n; a++)
            if (rules[n - 11](e, a) && (broken < 0 || (n == 13 && place(e, a) < place(e, broken))))
                broken = a;
        if (broken >= 0)
            return give(n, s, broken, NO_POSITION);
    }
    return give(0, 0, NO_POSITION, NO_POSITION);
}

static struct answer race_rule(const part *s) {
    for (int a = 0; a < s->n; a++)
        for (int b = a + 1; b < s->n; b++)
            if (kind(s, a) <= 2 && kind(s, b) <= 2 && target(s, a) == target(s, b) && (kind(s, a) == 2 || kind(s, b) == 2) &&
                !s->hb[a][b] && !s->hb[b][a])
                return give(31, 0, a, b);
    return give(0, 0, NO_POSITION, NO_POSITION);
}

/* ---- 21 to 29 ---- */

/* whether the action of E with this identifier is in C_i */
static bool in_c(const parts *r, int i, int id) {
    int x = position(&r->s[0], id);
    return x >= 0 && commit(&r->s[0], x) <= i;
}

/* whether a seen write is in C_i; the initial writes are in every C_i but C_0 */
static bool seen_in_c(const parts *r, int i, int id) { return id == 0 ? i >= 1 : in_c(r, i, id); }

static bool sw_by_id(const part *s, int id_x, int id_y) {
    int x = position(s, id_x), y = position(s, id_y);
    return x >= 0 && y >= 0 && sw(s, x, y);
}

static bool rule28(const parts *r, int i, int x, int y) {
    const part *e = &r->s[i];
    if (!sw(e, x, y) || po(e, x, y))
        return false;
    for (int z = 0; z < e->n; z++)
        if (e->hb[x][z] && e->hb[z][y])
            return false;
    bool wanted = false;
    for (int z = 0; z < e->n; z++)
        if (e->hb[y][z] && in_c(r, i, identifier(e, z)) && !in_c(r, i - 1, identifier(e, z)))
            wanted = true;
    if (!wanted)
        return false;
    for (int j = i; j <= r->bytes[8]; j++)
        if (!sw_by_id(&r->s[j], identifier(e, x), identifier(e, y)))
            return true;
    return !sw_by_id(&r->s[0], identifier(e, x), identifier(e, y));
}

/* whether rule n, one that names a single action, is broken at a: of E for 21, 24 and 25, of E_i for 26 and 27 */
static bool broken_at(const parts *r, int i, int n, int a) {
    const part *e = &r->s[0], *f = &r->s[i];
    if (n >= 26) {
        int id = identifier(f, a);
        if (!is_read(kind(f, a)) || in_c(r, i - 1, id))
            return false;
        if (n == 26)
            return seen(f, a) != 0 && !f->hb[position(f, seen(f, a))][a];
        return in_c(r, i, id) &&
               (!seen_in_c(r, i - 1, seen(e, position(e, id))) || !seen_in_c(r, i - 1, seen(f, a)));
    }
    int twin = position(f, identifier(e, a));
    if (commit(e, a) > i)
        return false;
    if (n == 21)
        return twin < 0 || thread(f, twin) != thread(e, a) || kind(f, twin) != kind(e, a) || target(f, twin) != target(e, a);
    if (n == 24)
        return is_write(kind(e, a)) && value(f, twin) != value(e, a);
    return is_read(kind(e, a)) && commit(e, a) <= i - 1 && seen(f, twin) != seen(e, a);
}

/* whether rule n, one that names two, is broken at x and y: of E for 22 and 23, of E_i for 28 and 29 */
static bool broken_at_pair(const parts *r, int i, int n, int x, int y) {
    const part *e = &r->s[0], *f = &r->s[i];
    if (n == 28)
        return rule28(r, i, x, y);
    if (n == 29)
        return kind(f, x) == 11 && !in_c(r, i, identifier(f, x)) && f->hb[x][y] && in_c(r, i, identifier(f, y));
    if (commit(e, x) > i || commit(e, y) > i)
        return false;
    int fx = position(f, identifier(e, x)), fy = position(f, identifier(e, y));
    if (n == 22)
        return e->hb[x][y] != f->hb[fx][fy];
    return (place(e, x) < place(e, y)) != (place(f, fx) < place(f, fy));
}

static struct answer step_rules(const parts *r, int i) {
    for (int n = 21; n <= 29; n++) {
        int count = n <= 25 ? r->s[0].n : r->s[i].n;
        for (int x = 0; x < count; x++) {
            if (n == 22 || n == 23 || n >= 28) {
                for (int y = 0; y < count; y++)
                    if (broken_at_pair(r, i, n, x, y))
                        return give(n, i, x, y);
            } else if (broken_at(r, i, n, x))
                return give(n, i, x, NO_POSITION);
        }
    }
    return give(0, 0, NO_POSITION, NO_POSITION);
}

/* ---- the three questions ---- */

struct answer plain_verdict(const uint8_t *rec, size_t len, uint64_t *words, size_t nwords) {
    static parts r;
    struct answer answer = refusal(&r, rec, len, nwords, true);
    if (answer.n != 0)
        return answer;
    int K = rec[8];
    for (int s = 0; s <= K; s++)
        relate(&r.s[s], words + 256 * s);
    for (int s = 0; s <= K; s++) {
        answer = section_rules(&r.s[s], s, 18);
        if (answer.n != 0)
            return answer;
    }
    for (int i = 1; i <= K; i++) {
        answer = step_rules(&r, i);
        if (answer.n != 0)
            return answer;
    }
    return give(K == 0 ? 10 : 0, 0, NO_POSITION, NO_POSITION);
}

struct answer plain_race(const uint8_t *rec, size_t len, uint64_t *words, size_t nwords) {
    static parts r;
    struct answer answer = refusal(&r, rec, len, nwords, false);
    if (answer.n != 0)
        return answer;
    relate(&r.s[0], words);
    answer = section_rules(&r.s[0], 0, 14);
    return answer.n != 0 ? answer : race_rule(&r.s[0]);
}

struct answer plain_order(const uint8_t *rec, size_t len, uint64_t *words, size_t nwords, uint16_t *list, size_t nlist) {
    static parts r;
    const part *s = &r.s[0];
    struct answer answer = refusal(&r, rec, len, nwords, false);
    if (answer.n != 0)
        return answer;
    if (nlist < (size_t)s->n)
        return give(8, 0, NO_POSITION, NO_POSITION);
    relate(&r.s[0], words);
    answer = section_rules(s, 0, 18);
    if (answer.n == 0)
        answer = race_rule(s);
    if (answer.n != 0)
        return answer;
    bool done[MOST_ACTIONS] = {false};
    int due = 1;
    for (int k = 0; k < s->n; k++) {
        int chosen = -1;
        for (int t = 0; t < rec[5] && chosen < 0; t++) {
            int next = -1;
            for (int a = s->n - 1; a >= 0; a--)
                if (thread(s, a) == t && !done[a])
                    next = a;
            if (next >= 0 && (!is_sync(kind(s, next)) || place(s, next) == due))
                chosen = next;
        }
        done[chosen] = true;
        due += is_sync(kind(s, chosen));
        list[k] = (uint16_t)chosen;
    }
    return answer;
}
