/* Three cores agree on one value: core 1 proposes 500, core 2 600, core 3 700. Core 2 fails right after its first store, and core 3 wakes
 * late. The others still decide, and they decide the same: what core 2 proposed, since its store came first.
 *
 * The session is one buffer, lent to each call. Here the cores take turns in one thread, in a fixed order, so that the output is fixed.
 * On a board each core takes its steps when it runs, and the keeper of the calls lends the session to one of them at a time. */
#include <stdio.h>

#include "sepalsail.h"

#define CORES 3u

/* what a step at each place does, from SEPALSAIL_PLACE_ANNOUNCE to SEPALSAIL_PLACE_DONE */
static const char *const deed[] = {
    "announces",
    "publishes its candidate",
    "stores its mark",
    "reads the top's own unit",
    "reads a lower's own unit",
    "reads that lower's pair unit",
    "fetches that lower's candidate",
    "reads its candidate's proposal and decides",
    "has nothing to do",
};

/* a core: which party it is, at which turn it wakes and at which it fails (0: never), and whether it is over */
struct core {
    uint32_t party;
    unsigned wakes, fails;
    int over;
};

/* the session, and the schedule that the turns make */
static uint8_t session[SEPALSAIL_SESSION_SIZE];
static uint8_t schedule[64];
static size_t entries;

/* one turn of a core: it sleeps, fails, or takes one step */
static void take_turn(struct core *core, unsigned turn) {
    if (core->over || turn < core->wakes) {
        return;
    }
    if (turn == core->fails) {
        sepalsail_stop(session, sizeof session, core->party);
        schedule[entries++] = sepalsail_stop_byte(core->party);
        core->over = 1;
        printf("turn %2u  core %u FAILS\n", turn, core->party);
        return;
    }
    uint32_t place = sepalsail_place(sepalsail_step(session, sizeof session, core->party));
    schedule[entries++] = sepalsail_step_byte(core->party);
    core->over = place >= SEPALSAIL_PLACE_DECIDE;
    printf("turn %2u  core %u %s\n", turn, core->party, deed[place]);
}

int main(void) {
    /* the sheet for cores that can store up to five units of a word at once, and what each core proposes */
    uint8_t sheet[SEPALSAIL_SHEET_SIZE(CORES)];
    uint8_t proposals[SEPALSAIL_PROPOSALS_SIZE(CORES)];
    for (uint32_t party = 1; party <= CORES; party++) {
        sepalsail_propose(proposals, party, 400 + 100 * party);
    }
    if (sepalsail_build(SEPALSAIL_KIND_SIZE_VARYING, 5, CORES, sheet, sizeof sheet) != 0 ||
        sepalsail_open(sheet, sizeof sheet, proposals, sizeof proposals, session, sizeof session) != 0) {
        return 1;
    }

    struct core cores[CORES] = {{1, 1, 0, 0}, {2, 1, 3, 0}, {3, 7, 0, 0}};
    for (unsigned turn = 1; sepalsail_value(sepalsail_live(session, sizeof session)) > 0; turn++) {
        for (size_t i = 0; i < CORES; i++) {
            take_turn(&cores[i], turn);
        }
    }
    for (uint32_t party = 1; party <= CORES; party++) {
        unsigned steps = sepalsail_party_steps(session, party);
        if (sepalsail_party_status(session, party) == SEPALSAIL_DECIDED) {
            printf("core %u decided %u after %u steps\n", party, sepalsail_party_decision(session, party), steps);
        } else {
            printf("core %u stopped after %u steps\n", party, steps);
        }
    }

    /* the same turns as one run, and its record */
    uint8_t record[SEPALSAIL_RECORD_SIZE(CORES)];
    if (sepalsail_run(sheet, sizeof sheet, proposals, sizeof proposals, schedule, entries, record, sizeof record) != 0) {
        return 1;
    }
    printf("record");
    for (size_t i = 0; i < sizeof record; i++) {
        printf(" %02x", record[i]);
    }
    printf("\n");
    return 0;
}
