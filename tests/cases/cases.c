/*
 * Record M, bad input of every kind, and bench case 12, with the numbers that document 01 gives. The records are made here by hand,
 * byte by byte, and asked through the host's calls. The last line is `N passed, M failed`.
 */
#include "jxe.h"

#include <stdio.h>
#include <string.h>

enum { HEADER = 17, COUNT = 2, ACTION = 20, LONGEST = 23075 };

static uint8_t record[LONGEST + 100];
static size_t length;
static unsigned passed, failed;

static void expect(const char *what, unsigned n, unsigned s, unsigned a) {
    uint64_t got = jxe_verdict(record, length);
    if (JXE_N(got) == n && JXE_S(got) == s && JXE_A(got) == a && JXE_B(got) == JXE_NONE) {
        passed++;
        return;
    }
    failed++;
    printf("%s: %u %u %u %u for %u %u %u\n", what, JXE_N(got), JXE_S(got), JXE_A(got), JXE_B(got), n, s, a);
}

/* T 2, V 2 with variable 1 volatile, M 1, K given, and no section yet */
static void header(unsigned executions) {
    static const uint8_t first[] = {'J', 'X', 'E', 1, 0, 2, 2, 1};
    memset(record, 0, sizeof record);
    memcpy(record, first, sizeof first);
    record[8] = (uint8_t)executions;
    record[9] = 2;
    length = HEADER;
}

/* a section of n writes to variable 0 by thread 0, with the identifiers 1 to n */
static void writes(unsigned n, unsigned commit) {
    record[length] = (uint8_t)n;
    record[length + 1] = (uint8_t)(n >> 8);
    for (unsigned a = 0; a < n; a++) {
        uint8_t *at = record + length + COUNT + ACTION * a;
        at[0] = (uint8_t)(a + 1);
        at[1] = (uint8_t)((a + 1) >> 8);
        at[3] = 2;
        at[5] = (uint8_t)commit;
    }
    length += COUNT + ACTION * n;
}

static uint8_t *action(unsigned a) { return record + HEADER + COUNT + ACTION * a; }

/* a record of two writes that passes, with one byte changed */
static void changed(const char *what, size_t at, uint8_t byte, unsigned n, unsigned a) {
    header(0);
    writes(2, 0);
    record[at] = byte;
    expect(what, n, 0, a);
}

static void headers(void) {
    header(0);
    length = 0;
    expect("no bytes", 1, 0, JXE_NONE);
    length = 16;
    expect("16 bytes", 1, 0, JXE_NONE);
    for (unsigned i = 0; i < 3; i++)
        changed("a wrong mark", i, 'x', 1, JXE_NONE);
    changed("version 0", 3, 0, 2, JXE_NONE);
    changed("version 2", 3, 2, 2, JXE_NONE);
    changed("version 257", 4, 1, 2, JXE_NONE);
    changed("T 0", 5, 0, 3, JXE_NONE);
    changed("T 17", 5, 17, 3, JXE_NONE);
    changed("V 65", 6, 65, 3, JXE_NONE);
    changed("M 33", 7, 33, 3, JXE_NONE);
    changed("K 9", 8, 9, 3, JXE_NONE);
    changed("a map bit at V", 9, 6, 3, JXE_NONE);
    changed("the last map bit", 16, 128, 3, JXE_NONE);
}

static void lengths(void) {
    header(0);
    writes(2, 0);
    size_t whole = length;
    expect("two writes", 10, 0, JXE_NONE);
    for (length = HEADER; length < whole; length++)
        expect("a section cut", 5, 0, JXE_NONE);
    length = whole + 1;
    expect("one byte left over", 5, 0, JXE_NONE);
    header(1);
    writes(1, 1);
    size_t second = length;
    writes(1, 0);
    whole = length;
    for (length = second; length < whole; length++)
        expect("the last section cut", 5, 1, JXE_NONE);
    length = whole + 1;
    expect("a byte left after section K", 5, 1, JXE_NONE);
    header(0);
    writes(128, 0);
    expect("128 actions", 10, 0, JXE_NONE);
    header(0);
    writes(129, 0);
    expect("129 actions", 5, 0, JXE_NONE);
    header(8);
    for (unsigned s = 0; s <= 8; s++)
        writes(128, s == 0);
    if (length != LONGEST)
        failed++;
    expect("the longest record", 0, 0, JXE_NONE);
    length++;
    expect("longer than the longest", 5, 8, JXE_NONE);
}

static void fields(void) {
    size_t at = HEADER + COUNT + ACTION;
    changed("identifier 0", at, 0, 6, 1);
    changed("a thread at T", at + 2, 2, 6, 1);
    changed("kind 0", at + 3, 0, 6, 1);
    changed("kind 12", at + 3, 12, 6, 1);
    changed("a plain write to a volatile variable", at + 4, 1, 6, 1);
    changed("a variable at V", at + 4, 2, 6, 1);
    changed("a commit number when K is 0", at + 5, 1, 6, 1);
    changed("a place of a plain write", at + 6, 1, 6, 1);
    changed("a write that sees", at + 8, 1, 6, 1);
    changed("byte 10", at + 10, 1, 6, 1);
    changed("byte 11", at + 11, 1, 6, 1);
    changed("an external action's value", at + 3, 11, 10, JXE_NONE);
    record[at + 19] = 128;
    expect("a value where there is none", 6, 0, 1);
    changed("a lock of monitor 0 without a place", at + 3, 5, 6, 1);
    record[at + 6] = 1;
    expect("a lock", 10, 0, JXE_NONE);
    record[at + 4] = 1;
    expect("a monitor at M", 6, 0, 1);
    changed("a repeated identifier", at, 1, 7, 1);
    header(0);
    writes(128, 0);
    action(127)[0] = 1;
    expect("a repeated identifier at the last position", 7, 0, 127);
    header(1);
    writes(1, 0);
    writes(1, 0);
    expect("no commit number when K is 1", 6, 0, 0);
}

/* bench case 12: a place equal to the number of synchronization actions passes 11, one more doesn't */
static void places(void) {
    header(0);
    writes(2, 0);
    for (unsigned a = 0; a < 2; a++) {
        action(a)[3] = 4;
        action(a)[4] = 1;
        action(a)[6] = (uint8_t)(a + 1);
    }
    expect("places 1 and 2 of two", 10, 0, JXE_NONE);
    action(1)[6] = 3;
    expect("place 3 of two", 11, 0, 1);
}

/* record M, and the host's number for it */
static void record_m(void) {
    static const uint8_t actions[4][9] = {/* identifier, -, thread, kind, target, commit, place, -, seen */
                                          {1, 0, 0, 2, 0, 0, 0, 0, 0},
                                          {2, 0, 0, 4, 1, 0, 1, 0, 0},
                                          {3, 0, 1, 3, 1, 0, 2, 0, 2},
                                          {4, 0, 1, 1, 0, 0, 0, 0, 1}};
    static const uint8_t values[4] = {5, 1, 1, 5};
    header(0);
    record[7] = 0;
    writes(4, 0);
    for (unsigned a = 0; a < 4; a++) {
        memcpy(action(a), actions[a], sizeof actions[a]);
        action(a)[12] = values[a];
    }
    if (length == 99 && jxe_verdict(record, length) == UINT64_C(281474976645130))
        passed++;
    else
        failed++;
}

int main(void) {
    record_m();
    headers();
    lengths();
    fields();
    places();
    printf("%u passed, %u failed\n", passed, failed);
    return failed != 0;
}
