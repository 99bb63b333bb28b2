/* The calls with every slice lent as a copy: between guard bytes at a changing alignment, or, where `guard` is 0, as a block of exactly its
 * length, where valgrind sees a byte too many. After each call the guards and the inputs must be as before, and after a refusal
 * everything. */
#include <inttypes.h>
#include <stdio.h>
#include <stdlib.h>
#include <string.h>

#include "sepalsail.h"

static unsigned passed, failed;
static size_t guard, turn;

static void expect(int good, const char *what) {
    passed += good != 0;
    failed += good == 0;
    if (!good) {
        printf("FAILED: %s\n", what);
    }
}

/* an answer, field by field and as one word */
static void answers(uint64_t word, uint32_t number, uint32_t value, uint32_t position, const char *what) {
    int good = sepalsail_number(word) == number && sepalsail_value(word) == value && sepalsail_position(word) == position &&
               word == ((uint64_t)position << 32 | (uint64_t)value << 8 | number);
    expect(good, what);
    if (!good) {
        printf("  word %016" PRIx64 ", not number %" PRIu32 " value %" PRIu32 " position %" PRIu32 "\n", word, number, value, position);
    }
}

struct slice {
    uint8_t *bytes;
    size_t length;
};

static struct slice slice(const uint8_t *bytes, size_t length) {
    struct slice s;
    s.bytes = (uint8_t *)(uintptr_t)bytes;
    s.length = length;
    return s;
}

/* a copy of a slice between guard bytes; what is written there comes back by `give_back` */
struct lent {
    struct slice from;
    uint8_t *block, *at;
    size_t front;
};

static uint8_t guard_byte(size_t index) { return (uint8_t)(0x5a ^ (index * 37)); }

static struct lent lend(struct slice from) {
    struct lent l;
    l.from = from;
    l.front = guard == 0 ? from.length == 0 : guard + turn++ % 16;
    size_t whole = l.front + from.length + guard;
    l.block = (uint8_t *)malloc(whole);
    if (l.block == NULL) {
        exit(2);
    }
    for (size_t i = 0; i < whole; i++) {
        l.block[i] = guard_byte(i);
    }
    l.at = l.block + l.front;
    memcpy(l.at, from.bytes, from.length);
    return l;
}

static void give_back(struct lent l, int may_change, const char *what) {
    size_t end = l.front + l.from.length;
    int kept = 1;
    for (size_t i = 0; i < end + guard; i++) {
        kept &= (i >= l.front && i < end) || l.block[i] == guard_byte(i);
    }
    expect(kept, what);
    if (may_change) {
        memcpy(l.from.bytes, l.at, l.from.length);
    } else {
        expect(memcmp(l.at, l.from.bytes, l.from.length) == 0, what);
    }
    free(l.block);
}

static uint64_t check(struct slice sheet) {
    struct lent s = lend(sheet);
    uint64_t word = sepalsail_check(s.at, sheet.length);
    give_back(s, 0, "check: sheet");
    return word;
}

static uint64_t build(uint32_t kind, uint32_t bound, uint32_t parties, struct slice out) {
    struct lent o = lend(out);
    uint64_t word = sepalsail_build(kind, bound, parties, o.at, out.length);
    give_back(o, sepalsail_number(word) == 0, "build: out");
    return word;
}

static uint64_t open_session(struct slice sheet, struct slice proposals, struct slice session) {
    struct lent s = lend(sheet), p = lend(proposals), o = lend(session);
    uint64_t word = sepalsail_open(s.at, sheet.length, p.at, proposals.length, o.at, session.length);
    give_back(s, 0, "open: sheet");
    give_back(p, 0, "open: proposals");
    give_back(o, sepalsail_number(word) == 0, "open: session");
    return word;
}

static uint64_t step(struct slice session, uint32_t party) {
    struct lent s = lend(session);
    uint64_t word = sepalsail_step(s.at, session.length, party);
    give_back(s, sepalsail_number(word) == 0 && sepalsail_value(word) != SEPALSAIL_PLACE_DONE, "step: session");
    return word;
}

static uint64_t stop(struct slice session, uint32_t party) {
    struct lent s = lend(session);
    uint64_t word = sepalsail_stop(s.at, session.length, party);
    give_back(s, sepalsail_number(word) == 0, "stop: session");
    return word;
}

static uint64_t live(struct slice session) {
    struct lent s = lend(session);
    uint64_t word = sepalsail_live(s.at, session.length);
    give_back(s, 0, "live: session");
    return word;
}

static uint64_t run(struct slice sheet, struct slice proposals, struct slice schedule, struct slice out) {
    struct lent s = lend(sheet), p = lend(proposals), c = lend(schedule), o = lend(out);
    uint64_t word = sepalsail_run(s.at, sheet.length, p.at, proposals.length, c.at, schedule.length, o.at, out.length);
    give_back(s, 0, "run: sheet");
    give_back(p, 0, "run: proposals");
    give_back(c, 0, "run: schedule");
    give_back(o, sepalsail_number(word) == 0, "run: out");
    return word;
}
