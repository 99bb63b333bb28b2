/* The stack that each call needs, measured: the call runs on a private stack that was filled with one byte, and the lowest byte that it
 * changed tells how deep it went. Each call is made on two fillings and on many inputs, accepted and refused; the largest depth is printed.
 * It is counted from the caller's frame, so with the return address and the arguments that are passed on the stack. */
#include <stdio.h>
#include <string.h>
#include <ucontext.h>

#include "sepalsail.h"

static uint8_t stack[1 << 18] __attribute__((aligned(64)));
static uint8_t sheet[SEPALSAIL_SHEET_MAX], out[SEPALSAIL_SHEET_MAX], schedule[8192];
static uint8_t proposals[4 * SEPALSAIL_PARTIES_MAX], session[SEPALSAIL_SESSION_SIZE];
static size_t sheet_len, proposals_len, session_len = sizeof session, schedule_len, out_len = sizeof out;
static uint32_t kind, bound, parties, party;
static uint64_t word;
static uintptr_t caller;

#define FROM_HERE() (caller = (uintptr_t)__builtin_frame_address(0))

static void check(void) {
    FROM_HERE();
    word = sepalsail_check(sheet, sheet_len);
}
static void build(void) {
    FROM_HERE();
    word = sepalsail_build(kind, bound, parties, out, out_len);
}
static void open_session(void) {
    FROM_HERE();
    word = sepalsail_open(sheet, sheet_len, proposals, proposals_len, session, session_len);
}
static void step(void) {
    FROM_HERE();
    word = sepalsail_step(session, session_len, party);
}
static void stop(void) {
    FROM_HERE();
    word = sepalsail_stop(session, session_len, party);
}
static void live(void) {
    FROM_HERE();
    word = sepalsail_live(session, session_len);
}
static void run(void) {
    FROM_HERE();
    word = sepalsail_run(sheet, sheet_len, proposals, proposals_len, schedule, schedule_len, out, out_len);
}

/* how deep a call goes on a stack filled with this byte; each two calls begin at another alignment */
static size_t depth_on(void (*call)(void), uint8_t filling) {
    static ucontext_t inside, outside;
    static uint8_t untouched[4096];
    static unsigned turn;
    memset(stack, filling, sizeof stack);
    memset(untouched, filling, sizeof untouched);
    getcontext(&inside);
    inside.uc_stack.ss_sp = stack;
    inside.uc_stack.ss_size = sizeof stack - 16 * (turn++ / 2 % 4);
    inside.uc_link = &outside;
    makecontext(&inside, call, 0);
    swapcontext(&outside, &inside);
    /* the call's caller wrote at the top: a changed byte is found before the end, by whole pieces first, which is quicker */
    size_t lowest = 0;
    while (memcmp(stack + lowest, untouched, sizeof untouched) == 0) {
        lowest += sizeof untouched;
    }
    while (stack[lowest] == filling) {
        lowest++;
    }
    return caller - (uintptr_t)(stack + lowest);
}

/* the calls in the order of the table, with the largest depth so far */
static struct {
    void (*make)(void);
    const char *name;
    size_t most;
} calls[] = {{check, "check", 0}, {build, "build", 0}, {open_session, "open", 0}, {step, "step", 0}, {stop, "stop", 0}, {live, "live", 0},
             {run, "run", 0}};
enum { CHECK, BUILD, OPEN, STEP, STOP, LIVE, RUN, CALLS };

/* makes a call on two fillings; what it changes is there once */
static void measure(int which) {
    static uint8_t before[SEPALSAIL_SESSION_SIZE];
    memcpy(before, session, sizeof session);
    size_t one = depth_on(calls[which].make, 0x5a);
    memcpy(session, before, sizeof session);
    size_t other = depth_on(calls[which].make, 0xa5);
    size_t deeper = one > other ? one : other;
    calls[which].most = deeper > calls[which].most ? deeper : calls[which].most;
}

/* the check and its callers on the sheet as it is: first whole, then with one field after the other damaged */
static void measure_sheet(void) {
    const size_t field[] = {0, 2, 3, 4, 5, 7, 9, 17, 19, 21, sheet_len - 14, sheet_len - 5, sheet_len - 3, sheet_len - 1};
    for (size_t i = 0; i <= sizeof field / sizeof field[0]; i++) {
        int damaged = i > 0 && field[i - 1] < sheet_len;
        if (damaged) {
            sheet[field[i - 1]] ^= 1;
        }
        measure(CHECK);
        measure(OPEN);
        measure(RUN);
        if (damaged) {
            sheet[field[i - 1]] ^= 1;
        }
    }
}

/* moves the rounds of a built sheet of kind 2 so that they descend in memory, which the check looks at in another way */
static void descend(void) {
    uint8_t *row = sheet + 8;
    for (uint32_t r = 2; r <= parties; r++) {
        for (uint32_t i = 1; i <= r; i++, row += 14) {
            for (size_t at = 0; at <= (i < r ? 12u : 10u); at += at == 0 ? 10 : 2) {
                uint32_t moved = sepalsail_number_at(row + at, 2) - (r - 2) * bound + (parties - r) * bound;
                row[at] = (uint8_t)(moved >> 8);
                row[at + 1] = (uint8_t)moved;
            }
        }
    }
}

/* sheets that the builder has, as they are and with rounds that descend, and its refusals */
static void measure_sheets(void) {
    for (kind = 0; kind <= 2; kind++) {
        for (parties = 1; parties <= SEPALSAIL_PARTIES_MAX; parties++) {
            for (bound = 1; bound <= 64; bound += bound < 5 ? 1 : 13) {
                measure(BUILD);
                if (sepalsail_number(word) == 0) {
                    sheet_len = SEPALSAIL_SHEET_SIZE((size_t)parties);
                    proposals_len = SEPALSAIL_PROPOSALS_SIZE((size_t)parties);
                    memcpy(sheet, out, sheet_len);
                    schedule_len = parties;
                    measure_sheet();
                    if (kind == 2) {
                        descend();
                        measure_sheet();
                    }
                }
            }
        }
    }
}

/* the largest session: its parties take turns until all have decided or were stopped, with refused calls and a run of the same */
static void measure_session(void) {
    sepalsail_build(2, 31, 16, sheet, sizeof sheet);
    sheet_len = sizeof sheet;
    proposals_len = sizeof proposals;
    measure(OPEN);
    schedule_len = 0;
    while (sepalsail_value(sepalsail_live(session, sizeof session)) > 0) {
        for (party = 1; party <= 16; party++) {
            measure(STEP);
            schedule[schedule_len++] = sepalsail_step_byte(party);
        }
        if (schedule_len % 1024 == 0) {
            party = 1 + (uint32_t)(schedule_len / 1024);
            measure(STOP);
            schedule[schedule_len++] = sepalsail_stop_byte(party);
        }
        measure(LIVE);
    }
    party = 16;
    measure(STOP);
    measure(RUN);
    schedule[schedule_len - 1] = 17;
    measure(RUN);
    party = 17;
    measure(STEP);
    measure(STOP);
    session[SEPALSAIL_AT_MARKS] = 3;
    measure(STEP);
    measure(STOP);
    measure(LIVE);
}

int main(void) {
    for (size_t i = 0; i < sizeof schedule; i++) {
        schedule[i] = (uint8_t)(i + 1);
    }
    measure_sheets();
    measure_session();
    printf("call   stack, bytes\n");
    for (int i = 0; i < CALLS; i++) {
        printf("%-5s  %12zu\n", calls[i].name, calls[i].most);
    }
    return 0;
}
