/* Every refusal once, from a real call: its number, its position, the answer's word in hexadecimal, and why. */
#include <inttypes.h>
#include <stdio.h>
#include <string.h>

#include "sepalsail.h"

#define PARTIES 2u

static uint8_t sheet[SEPALSAIL_SHEET_SIZE(PARTIES)];
static uint8_t session[SEPALSAIL_SESSION_SIZE];

static void show(uint64_t answer, const char *why) {
    printf("%2" PRIu32 " at %" PRIu32 "  %016" PRIx64 "  %s\n", sepalsail_number(answer), sepalsail_position(answer), answer, why);
}

/* the check of the sheet with one byte changed */
static uint64_t check_with(size_t index, uint8_t byte) {
    uint8_t changed[sizeof sheet];
    memcpy(changed, sheet, sizeof sheet);
    changed[index] = byte;
    return sepalsail_check(changed, sizeof changed);
}

int main(void) {
    const uint8_t proposals[] = {0, 0, 1, 0xf4, 0, 0, 2, 0x58};
    const uint8_t steps[] = {1, 2, 3, 4};
    uint8_t out[SEPALSAIL_RECORD_MAX];

    show(sepalsail_build(1, 3, PARTIES, sheet, sizeof sheet), "build: kind 1, bound 3, two parties; not refused");
    show(sepalsail_open(sheet, sizeof sheet, proposals, sizeof proposals, session, sizeof session), "open: not refused");
    show(sepalsail_check(sheet, 7), "check: a sheet of 7 bytes");
    show(check_with(2, 2), "check: version 2");
    show(check_with(3, 3), "check: kind 3");
    show(sepalsail_check(sheet, sizeof sheet - 1), "check: the last byte is missing");
    show(check_with(23, 2), "check: the top's 3 units, row 2, start at 2, no multiple of 3");
    show(check_with(33, 3), "check: the top's own unit, row 2, is 3, which party 1 stores too");
    show(sepalsail_open(sheet, sizeof sheet, proposals, 4, session, sizeof session), "open: one proposal for two parties");
    show(sepalsail_run(sheet, sizeof sheet, proposals, sizeof proposals, steps, sizeof steps, out, sizeof out),
         "run: steps 1, 2, 3, 4 with two parties");
    session[SEPALSAIL_AT_MARKS] = 3;
    show(sepalsail_live(session, sizeof session), "live: the mark of unit 0 is 3, which is no mark");
    session[SEPALSAIL_AT_MARKS] = 0;
    show(sepalsail_step(session, sizeof session, 257), "step: party 257 of two");
    show(sepalsail_run(sheet, sizeof sheet, proposals, sizeof proposals, steps, 2, out, SEPALSAIL_RECORD_SIZE(PARTIES) - 1),
         "run: an output of 17 bytes for a record of 18");
    show(sepalsail_build(1, 4, 3, out, sizeof out), "build: kind 1, bound 4, three parties");
    return 0;
}
