/* The calls at their edges, from C: empty slices, lengths off by one, outputs too short by one, parties that are none. Its last line is
 * "N passed, M failed". */
#include "lend.h"

static const uint32_t no_party[] = {0, 3, 17, 128, 129, 256, 257, 258, 65537, 2147483649u, 4294967295u};
#define COUNT(list) (sizeof(list) / sizeof((list)[0]))

static void words_and_sizes(void) {
    const uint64_t word = UINT64_C(0xfffffffefedcba98);
    expect(sepalsail_number(word) == 0x98 && sepalsail_value(word) == 0xfedcba && sepalsail_place(word) == 0xba &&
               sepalsail_position(word) == 4294967294u,
           "fields");
    expect(SEPALSAIL_SHEET_SIZE(1u) == 8 && SEPALSAIL_SHEET_SIZE(2u) == 36 && SEPALSAIL_SHEET_SIZE(3u) == 78, "sheet sizes");
    expect(SEPALSAIL_SHEET_SIZE(SEPALSAIL_PARTIES_MAX) == SEPALSAIL_SHEET_MAX, "the largest sheet");
    expect(SEPALSAIL_RECORD_SIZE(2u) == 18 && SEPALSAIL_RECORD_SIZE(SEPALSAIL_PARTIES_MAX) == SEPALSAIL_RECORD_MAX, "record sizes");
    expect(SEPALSAIL_AT_PROPOSALS == SEPALSAIL_AT_SHEET + SEPALSAIL_SHEET_MAX && SEPALSAIL_AT_MARKS == SEPALSAIL_AT_PROPOSALS + 64 &&
               SEPALSAIL_AT_PUBLISHED == SEPALSAIL_AT_MARKS + 1024 && SEPALSAIL_AT_PARTIES == SEPALSAIL_AT_PUBLISHED + 256 &&
               SEPALSAIL_SESSION_SIZE == SEPALSAIL_AT_PARTIES + 16 * 11,
           "a session without gaps");
    expect(sepalsail_step_byte(16) == 16 && sepalsail_stop_byte(16) == 144, "bytes of a schedule");
}

static void sheets(void) {
    uint8_t out[SEPALSAIL_SHEET_MAX + 1];
    for (uint32_t n = 1; n <= 16; n++) {
        size_t length = SEPALSAIL_SHEET_SIZE((size_t)n);
        memset(out, 0xee, sizeof out);
        answers(build(2, 64, n, slice(out, length - 1)), 11, 0, 0, "build: one byte too few");
        answers(build(2, 64, n, slice(out, length + 1)), 0, 0, 0, "build: one byte more");
        expect(out[length] == 0xee, "build: the byte past the sheet");
        memset(out, 0xee, sizeof out);
        answers(build(2, 64, n, slice(out, length)), 0, 0, 0, "build");
        expect(sepalsail_number_at(out, 2) == length && out[5] == n, "build: length and parties");
        answers(check(slice(out, length)), 0, 0, 0, "check: built");
        answers(check(slice(out, length - 1)), n == 1 ? 1 : 4, 0, 0, "check: one byte too few");
        answers(check(slice(out, length + 1)), 4, 0, 0, "check: one byte more");
        answers(build(2, 2 * n - 1, n, slice(out, 0)), 11, 0, 0, "build: an empty output");
        answers(build(2, 2 * n - 2, n, slice(out, 0)), n == 1 ? 3 : 12, 0, 0, "build: 12 comes before 11");
    }
    const uint32_t bad[][3] = {{0, 5, 2}, {3, 5, 2}, {257, 5, 2}, {1, 0, 2}, {1, 65, 2}, {1, 259, 2}, {1, 5, 0}, {1, 5, 17}, {1, 5, 258},
                               {4294967295u, 5, 2}, {1, 4294967295u, 2}, {1, 5, 4294967295u}};
    for (size_t i = 0; i < COUNT(bad); i++) {
        answers(build(bad[i][0], bad[i][1], bad[i][2], slice(out, 0)), 3, 0, 0, "build: 3 comes first");
    }
    memset(out, 0, 8);
    for (size_t length = 0; length < 8; length++) {
        answers(check(slice(out, length)), 1, 0, 0, "check: fewer than 8 bytes");
    }
    answers(check(slice(out, 8)), 2, 0, 0, "check: zeros");
}

static uint8_t sheet_bytes[SEPALSAIL_SHEET_SIZE(2)], proposal_bytes[12];
static struct slice sheet, proposals;

static void openings(void) {
    uint8_t one[SEPALSAIL_SESSION_SIZE + 1], other[SEPALSAIL_SESSION_SIZE];
    const size_t wrong[] = {0, 1, 3417, 3419};
    memset(one, 0xff, sizeof one);
    memset(other, 0, sizeof other);
    for (size_t i = 0; i < COUNT(wrong); i++) {
        answers(open_session(sheet, proposals, slice(one, wrong[i])), 11, 0, 0, "open: a session of another length");
        answers(open_session(sheet, slice(proposal_bytes, 7), slice(one, wrong[i])), 7, 0, 0, "open: 7 comes before 11");
        answers(open_session(slice(sheet_bytes, 35), slice(proposal_bytes, 7), slice(one, wrong[i])), 4, 0, 0, "open: 4 comes before 7");
    }
    for (size_t length = 0; length <= sizeof proposal_bytes; length++) {
        uint32_t number = length == 8 ? 0 : 7;
        answers(open_session(sheet, slice(proposal_bytes, length), slice(one, 3418)), number, 0, 0, "open: a length of proposals");
    }
    answers(open_session(slice(sheet_bytes, 0), slice(proposal_bytes, 0), slice(one, 0)), 1, 0, 0, "open: all empty");
    answers(open_session(sheet, proposals, slice(other, sizeof other)), 0, 0, 0, "open");
    expect(memcmp(one, other, sizeof other) == 0, "open: what the session held before does not matter");
    expect(memcmp(one, sheet_bytes, sizeof sheet_bytes) == 0, "open: the copy of the sheet");
    expect(sepalsail_number_at(one + SEPALSAIL_AT_PROPOSALS + 4, 4) == 600, "open: party 2's proposal");
    for (uint32_t party = 1; party <= 2; party++) {
        expect(sepalsail_party_status(one, party) == SEPALSAIL_IDLE && sepalsail_party_steps(one, party) == 0, "open: an idle party");
        expect(sepalsail_entry(one, party)[4] == party, "open: a party's candidate is itself");
    }
}

/* P5, step by step: the party, the place acted on, and the party's entry afterwards */
static const uint8_t p5[][13] = {
    {1, 0, 1, 1, 2, 0, 1, 0, 1, 0, 0, 0, 0}, {1, 1, 1, 2, 2, 0, 1, 0, 2, 0, 0, 0, 0}, {1, 2, 1, 3, 2, 0, 1, 0, 3, 0, 0, 0, 0},
    {2, 0, 1, 2, 2, 0, 2, 0, 1, 0, 0, 0, 0}, {2, 2, 1, 4, 2, 1, 2, 0, 2, 0, 0, 0, 0}, {2, 4, 1, 5, 2, 1, 2, 0, 3, 0, 0, 0, 0},
    {2, 5, 1, 6, 2, 1, 2, 0, 4, 0, 0, 0, 0}, {2, 6, 1, 7, 0, 0, 1, 0, 5, 0, 0, 0, 0}, {2, 7, 2, 8, 0, 0, 1, 0, 6, 0, 0, 1, 0xf4},
    {1, 3, 1, 4, 2, 1, 1, 0, 4, 0, 0, 0, 0}, {1, 4, 1, 5, 2, 1, 1, 0, 5, 0, 0, 0, 0}, {1, 5, 1, 7, 0, 0, 1, 0, 6, 0, 0, 0, 0},
    {1, 7, 2, 8, 0, 0, 1, 0, 7, 0, 0, 1, 0xf4},
};

static void steps_and_stops(void) {
    uint8_t bytes[SEPALSAIL_SESSION_SIZE + 1] = {0};
    struct slice session = slice(bytes, SEPALSAIL_SESSION_SIZE);
    const size_t wrong[] = {0, 1, 3417, 3419};
    const size_t damage[] = {2, 36, SEPALSAIL_AT_PROPOSALS + 8, SEPALSAIL_AT_MARKS, SEPALSAIL_AT_PUBLISHED, SEPALSAIL_AT_PARTIES, 3417};
    open_session(sheet, proposals, session);
    for (size_t i = 0; i < COUNT(wrong); i++) {
        answers(step(slice(bytes, wrong[i]), 1), 9, 0, 0, "step: a session of another length");
        answers(stop(slice(bytes, wrong[i]), 0), 9, 0, 0, "stop: 9 comes before 10");
        answers(live(slice(bytes, wrong[i])), 9, 0, 0, "live: a session of another length");
    }
    for (size_t i = 0; i < COUNT(no_party); i++) {
        answers(step(session, no_party[i]), 10, 0, 0, "step: no party");
        answers(stop(session, no_party[i]), 10, 0, 0, "stop: no party");
    }
    for (size_t i = 0; i < COUNT(damage); i++) {
        uint8_t was = bytes[damage[i]];
        bytes[damage[i]] = 200;
        answers(step(session, 257), 9, 0, 0, "step: damaged, 9 comes before 10");
        answers(stop(session, 1), 9, 0, 0, "stop: damaged");
        answers(live(session), 9, 0, 0, "live: damaged");
        bytes[damage[i]] = was;
    }
    answers(live(session), 0, 2, 0, "live: both");
    for (size_t i = 0; i < COUNT(p5); i++) {
        uint32_t party = p5[i][0];
        answers(step(session, party), 0, p5[i][1], 0, "P5: the place acted on");
        expect(memcmp(sepalsail_entry(bytes, party), p5[i] + 2, 11) == 0, "P5: the party's entry");
        expect(memcmp(bytes + SEPALSAIL_AT_MARKS, i < 2 ? "\0\0\0\0\0" : i < 4 ? "\0\0\1\1\0" : "\0\0\1\2\2", 5) == 0, "P5: the marks");
        expect(bytes[SEPALSAIL_AT_PUBLISHED + 16] == (i < 1 ? 0 : 1), "P5: what party 1 published in round 2");
    }
    answers(live(session), 0, 0, 0, "live: none");
    expect(sepalsail_party_decision(bytes, 1) == 500 && sepalsail_party_steps(bytes, 1) == 7, "P5: party 1 decides 500 at step 7");
    answers(stop(session, 1), 0, SEPALSAIL_DECIDED, 0, "stop: a decided party stays decided");
    answers(step(session, 1), 0, SEPALSAIL_PLACE_DONE, 0, "step: of a decided party");
    /* a stopped party */
    open_session(sheet, proposals, session);
    answers(stop(session, 2), 0, SEPALSAIL_STOPPED, 0, "stop");
    answers(stop(session, 2), 0, SEPALSAIL_STOPPED, 0, "stop: twice");
    answers(step(session, 2), 0, SEPALSAIL_PLACE_DONE, 0, "step: of a stopped party");
    answers(live(session), 0, 1, 0, "live: one stopped");
    expect(sepalsail_party_status(bytes, 2) == SEPALSAIL_STOPPED && sepalsail_party_decision(bytes, 2) == 0, "a stopped party's bytes");
}

static void runs(void) {
    const uint8_t p2[] = {0x00, 0x12, 1, 2, 2, 0x00, 0x05, 0, 0, 0x01, 0xf4, 0, 0, 0, 0, 0, 0, 0, 0xee};
    const uint8_t five[] = {1, 1, 1, 1, 1}, bad[] = {0, 3, 127, 128, 131, 255};
    uint8_t out[19];
    memset(out, 0xee, sizeof out);
    answers(run(sheet, proposals, slice(five, 5), slice(out, 17)), 11, 0, 0, "run: an output of 17 bytes");
    answers(run(sheet, proposals, slice(five, 5), slice(out, 0)), 11, 0, 0, "run: an empty output");
    answers(run(slice(sheet_bytes, 0), slice(proposal_bytes, 0), slice(five, 0), slice(out, 0)), 1, 0, 0, "run: all empty");
    answers(run(sheet, slice(proposal_bytes, 0), slice(bad, 1), slice(out, 0)), 7, 0, 0, "run: 7 comes before 8");
    for (size_t i = 0; i < COUNT(bad); i++) {
        const uint8_t schedule[] = {129, 130, 1, bad[i], bad[i]};
        answers(run(sheet, proposals, slice(schedule, 5), slice(out, 17)), 8, 0, 3, "run: a bad byte, 8 comes before 11");
    }
    answers(run(sheet, proposals, slice(five, 5), slice(out, 19)), 0, 0, 0, "P2");
    expect(memcmp(out, p2, sizeof p2) == 0, "P2: its record, and the byte past it");
    expect(sepalsail_record_status(out, 1) == SEPALSAIL_DECIDED && sepalsail_record_status(out, 2) == SEPALSAIL_IDLE, "P2: statuses");
    expect(sepalsail_record_steps(out, 1) == 5 && sepalsail_record_decision(out, 1) == 500, "P2: own steps and decision");
    answers(run(sheet, proposals, slice(five, 0), slice(out, 18)), 0, 0, 0, "run: an empty schedule");
    expect(sepalsail_record_status(out, 1) == SEPALSAIL_IDLE && sepalsail_record_steps(out, 1) == 0, "run: an empty schedule's record");
    /* inputs may overlap each other: the sheet's first bytes as proposals, and two of them (01 01) as the schedule */
    answers(sepalsail_run(sheet_bytes, 36, sheet_bytes, 8, sheet_bytes + 2, 2, out, 18), 0, 0, 0, "run: inputs that overlap");
    expect(sepalsail_record_status(out, 1) == SEPALSAIL_RUNNING && sepalsail_record_steps(out, 1) == 2, "run: inputs that overlap");
}

static void calls(void) {
    answers(build(1, 3, 2, sheet), 0, 0, 0, "build: the sheet of these tests");
    sheets();
    openings();
    steps_and_stops();
    runs();
}

int main(void) {
    for (uint32_t party = 1; party <= 3; party++) {
        sepalsail_propose(proposal_bytes, party, 400 + 100 * party);
    }
    sheet = slice(sheet_bytes, sizeof sheet_bytes);
    proposals = slice(proposal_bytes, 8);
    words_and_sizes();
    guard = 64;
    calls();
    guard = 0;
    calls();
    printf("%u passed, %u failed\n", passed, failed);
    return failed != 0;
}
