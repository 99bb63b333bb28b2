/* Sepalsail: cores without compare-and-swap agree on one value.
 *
 * Seven calls on numbers and byte slices. A sheet says which units of memory each party stores; a session is the state of one
 * agreement in 3,418 bytes that the host keeps and lends to each call; a run obeys a whole schedule at once.
 *
 * A slice is a pointer and a length. The pointer is never null, also where the length is 0, and needs no alignment. `out` and
 * `session` must not overlap an input. Inputs may overlap each other.
 * Every call takes whatever bytes and numbers it is lent, ends, and does nothing undefined. A call that refuses changes nothing.
 * The library keeps no state, allocates nothing and calls nothing but memcpy, memmove and memset: calls on different sessions may run at
 * the same time, and one session is lent to one call at a time.
 * All numbers of more than one byte are big-endian. Parties and rows are counted from 1. docs/HOST.md has the layouts as tables.
 */
#ifndef SEPALSAIL_H
#define SEPALSAIL_H

#include <stddef.h>
#include <stdint.h>

#ifdef __cplusplus
extern "C" {
#endif

/* The version of this interface. */
#define SEPALSAIL_INTERFACE_MAJOR 1
#define SEPALSAIL_INTERFACE_MINOR 0

/* ---- Numbers */

/* Refusals. The position is 0 except where another is named. */
#define SEPALSAIL_DONE 0u      /* not refused */
#define SEPALSAIL_SHORT 1u     /* sheet of fewer than 8 bytes */
#define SEPALSAIL_VERSION 2u   /* version not 1 */
#define SEPALSAIL_HEADER 3u    /* kind not 1 or 2, or bound, N or units out of range */
#define SEPALSAIL_LENGTH 4u    /* length field or lent length not 8 + 14 x rows */
#define SEPALSAIL_ROW 5u       /* row rule; the position is the first failing row, counted from 1 */
#define SEPALSAIL_WRITER 6u    /* writer rule; the position is the first failing row, counted from 1 */
#define SEPALSAIL_PROPOSALS 7u /* proposals not of 4 x N bytes */
#define SEPALSAIL_SCHEDULE 8u  /* schedule byte neither a step nor a stop; the position is its index, counted from 0 */
#define SEPALSAIL_SESSION 9u   /* session not of 3,418 bytes, or not well formed */
#define SEPALSAIL_PARTY 10u    /* party not 1 to N */
#define SEPALSAIL_OUTPUT 11u   /* output too short; from the open call, session not of 3,418 bytes */
#define SEPALSAIL_NO_SHEET 12u /* the builder has no sheet for these numbers */

/* Kinds of words that a core can store at once. */
#define SEPALSAIL_KIND_SIZE_VARYING 1u  /* 1 to B units in a row, starting at a multiple of their number */
#define SEPALSAIL_KIND_INCONSECUTIVE 2u /* any units of an aligned word of A units */

/* Statuses of a party. A party is live while it is idle or running. */
#define SEPALSAIL_IDLE 0u
#define SEPALSAIL_RUNNING 1u
#define SEPALSAIL_DECIDED 2u
#define SEPALSAIL_STOPPED 3u

/* Places: what a party's next step does, and what the step call answers. */
#define SEPALSAIL_PLACE_ANNOUNCE 0u  /* begins */
#define SEPALSAIL_PLACE_PUBLISH 1u   /* a lower publishes its candidate for the round */
#define SEPALSAIL_PLACE_WRITE 2u     /* stores its mark in all units of its row's set */
#define SEPALSAIL_PLACE_READ_TOP 3u  /* a lower reads the top's own unit */
#define SEPALSAIL_PLACE_READ_OWN 4u  /* reads the own unit of lower k */
#define SEPALSAIL_PLACE_READ_PAIR 5u /* reads the pair unit of lower k */
#define SEPALSAIL_PLACE_FETCH 6u     /* the top takes the candidate that lower k published */
#define SEPALSAIL_PLACE_DECIDE 7u    /* decides the proposal of its candidate */
#define SEPALSAIL_PLACE_DONE 8u      /* has decided or was stopped: nothing changes */

/* Sizes in bytes. Those of N parties are constant where N is. */
#define SEPALSAIL_PARTIES_MAX 16u
#define SEPALSAIL_SHEET_SIZE(n) (8u + 14u * ((n) * ((n) + 1u) / 2u - 1u))
#define SEPALSAIL_SHEET_MAX 1898u
#define SEPALSAIL_PROPOSALS_SIZE(n) (4u * (n))
#define SEPALSAIL_RECORD_SIZE(n) (4u + 7u * (n))
#define SEPALSAIL_RECORD_MAX 116u
#define SEPALSAIL_SESSION_SIZE 3418u

/* Where the parts of a session start. */
#define SEPALSAIL_AT_SHEET 0u        /* 1,898: the sheet, then zeros */
#define SEPALSAIL_AT_PROPOSALS 1898u /* 16 x 4 */
#define SEPALSAIL_AT_MARKS 1962u     /* 1,024: 0 empty, 1 lower, 2 higher */
#define SEPALSAIL_AT_PUBLISHED 2986u /* 256: that of round r and lower k at 16 (r - 1) + (k - 1), 0 for none */
#define SEPALSAIL_AT_PARTIES 3242u   /* 16 x 11: status 1, place 1, round 1, k 1, candidate 1, own steps 2, decision 4 */

/* ---- The answer of a call: bits 0 to 7 the refusal number, bits 8 to 31 the value, bits 32 to 63 the position */

static inline uint32_t sepalsail_number(uint64_t answer) { return (uint32_t)(answer & 0xffu); }
static inline uint32_t sepalsail_value(uint64_t answer) { return (uint32_t)((answer >> 8) & 0xffffffu); }
static inline uint32_t sepalsail_position(uint64_t answer) { return (uint32_t)(answer >> 32); }

/* The place in the answer of a step. It has bits 8 to 15; bits 16 to 31 of that answer are kept free and are 0. */
static inline uint32_t sepalsail_place(uint64_t answer) { return (uint32_t)((answer >> 8) & 0xffu); }

/* ---- Sheets */

/* Whether a sheet is accepted.
 * Value 0. Refusals in the order 1, 2, 3, 4, 5 for all rows, 6. Changes nothing. */
uint64_t sepalsail_check(const uint8_t *sheet, size_t sheet_len);

/* Writes the sheet for a kind (1 or 2), a bound (1 to 64) and a number of parties N (1 to 16) to the front of `out`. Its length is
 * SEPALSAIL_SHEET_SIZE(N). Kind 2 has one exactly where 2 N - 1 <= bound; kind 1 for N = 1, for N = 2 from bound 3, for N = 3 from
 * bound 5.
 * Value 0. Refusals in the order 3, 12, 11. Bytes past the sheet keep their content. */
uint64_t sepalsail_build(uint32_t kind, uint32_t bound, uint32_t parties, uint8_t *out, size_t out_len);

/* ---- Sessions */

/* Opens a session on a sheet. `proposals` has 4 bytes for each party, any numbers, equal ones allowed. All 3,418 bytes of `session` are
 * written; what they held before does not matter.
 * Value 0. Refusals in the order of the check, then 7, then 11 where session_len is not 3,418. */
uint64_t sepalsail_open(const uint8_t *sheet, size_t sheet_len, const uint8_t *proposals, size_t proposals_len, uint8_t *session,
                        size_t session_len);

/* One step of a party. Of the other parties' entries, of the sheet and of the proposals nothing is changed.
 * Value: the place acted on, 0 to 7; or 8 where the party had decided or was stopped, and nothing is changed.
 * Refusals in the order 9, 10. On bytes that only these calls have written since the open call, 9 is not answered. */
uint64_t sepalsail_step(uint8_t *session, size_t session_len, uint32_t party);

/* Stops a party, unless it has decided. Only its status is changed. Stopping it twice changes nothing.
 * Value: the party's status afterwards, 2 or 3. Refusals in the order 9, 10. */
uint64_t sepalsail_stop(uint8_t *session, size_t session_len, uint32_t party);

/* How many parties are live.
 * Value: that number, 0 to 16. Refusal 9. Changes nothing. */
uint64_t sepalsail_live(const uint8_t *session, size_t session_len);

/* A party's entry in a session. These read only; the party must be 1 to 16, and the session of 3,418 bytes. The decision is 0 unless
 * the party has decided; a proposal may be 0 too, so ask for the status first. */
static inline const uint8_t *sepalsail_entry(const uint8_t *session, uint32_t party) {
    return session + SEPALSAIL_AT_PARTIES + 11u * ((size_t)party - 1u);
}
static inline uint32_t sepalsail_number_at(const uint8_t *bytes, size_t length) {
    uint32_t number = 0;
    for (size_t i = 0; i < length; i++) {
        number = number << 8 | bytes[i];
    }
    return number;
}
static inline uint32_t sepalsail_party_status(const uint8_t *session, uint32_t party) { return sepalsail_entry(session, party)[0]; }
static inline uint32_t sepalsail_party_steps(const uint8_t *session, uint32_t party) {
    return sepalsail_number_at(sepalsail_entry(session, party) + 5, 2);
}
static inline uint32_t sepalsail_party_decision(const uint8_t *session, uint32_t party) {
    return sepalsail_number_at(sepalsail_entry(session, party) + 7, 4);
}

/* Writes a party's proposal to a slice of proposals; the party must be 1 to the number that the slice is for. */
static inline void sepalsail_propose(uint8_t *proposals, uint32_t party, uint32_t proposal) {
    uint8_t *at = proposals + 4u * ((size_t)party - 1u);
    for (size_t i = 0; i < 4; i++) {
        at[i] = (uint8_t)(proposal >> (24u - 8u * i) & 0xffu);
    }
}

/* ---- Runs */

/* Opens a session, obeys each byte of the schedule in turn, and writes the record of how the parties stand to the front of `out`.
 * Byte i, 1 to N, is a step of party i, byte 128 + i its stop. Record: length 2, version 1, N 1; then for each party status 1, own
 * steps 2, decision 4. Its length is SEPALSAIL_RECORD_SIZE(N).
 * Value 0. Refusals in the order of the check, then 7, 8, 11. A byte at index 2^32 - 1 counts as a bad byte, so that every index fits
 * the position. Bytes past the record keep their content. */
uint64_t sepalsail_run(const uint8_t *sheet, size_t sheet_len, const uint8_t *proposals, size_t proposals_len, const uint8_t *schedule,
                       size_t schedule_len, uint8_t *out, size_t out_len);

/* The schedule's bytes for a party from 1 to 16. */
static inline uint8_t sepalsail_step_byte(uint32_t party) { return (uint8_t)(party & 0x7fu); }
static inline uint8_t sepalsail_stop_byte(uint32_t party) { return (uint8_t)(128u | (party & 0x7fu)); }

/* A party's part of a record. These read only; the party must be 1 to the record's N. */
static inline uint32_t sepalsail_record_status(const uint8_t *record, uint32_t party) {
    return record[SEPALSAIL_RECORD_SIZE((size_t)party - 1u)];
}
static inline uint32_t sepalsail_record_steps(const uint8_t *record, uint32_t party) {
    return sepalsail_number_at(record + SEPALSAIL_RECORD_SIZE((size_t)party - 1u) + 1, 2);
}
static inline uint32_t sepalsail_record_decision(const uint8_t *record, uint32_t party) {
    return sepalsail_number_at(record + SEPALSAIL_RECORD_SIZE((size_t)party - 1u) + 3, 4);
}

#ifdef __cplusplus
}
#endif

#endif
