/*
 * What tests/boundary.c lends, and every call of recovery_line.h on it.
 */
#ifndef BOUNDARY_H
#define BOUNDARY_H

#include "recovery_line.h"

#include <stdbool.h>

/* Every slice that some call is lent. Process 1 begins a search with purpose 3; 2 is invited and then reports. */
enum slice { BYTES, EVENTS, SHAPE, SENT, RECEIVED, OUT, SET, PAIR, KNOWN, LINE, PARTICIPANT, INVITATION, INITIATOR, REPORT,
             LENGTHS, SESSION, STRANDS, ORDER, LIST, RESEND, LENGTH, PARTNER, PASSED, ROUNDS, MESSAGES, SLICES };
#define OF(slice) (1u << (slice))
#define TABLES (OF(SHAPE) | OF(SENT) | OF(RECEIVED))

enum { PURPOSE = RECOVERY_LINE_ADVANCE_AND_RESTART, GUARD = 64, SLOT = RECOVERY_LINE_MESSAGE_BYTES(3) };

/* A slice of fixed length: any other is refused first. */
struct kind {
    const char *name;
    size_t size, elements;
    bool fixed;
};
static const struct kind kinds[SLICES] = {
    {"bytes", 1, 28, false},
    {"events", 1, 73, false},
    {"shape", 8, RECOVERY_LINE_SHAPE_WORDS, true},
    {"sent", sizeof(recovery_line_counter), RECOVERY_LINE_TABLE_ENTRIES, false},
    {"received", sizeof(recovery_line_counter), RECOVERY_LINE_TABLE_ENTRIES, false},
    {"out", 1, 64, false},
    {"set", 8, RECOVERY_LINE_SET_WORDS, true},
    {"pair", 8, RECOVERY_LINE_PAIR_WORDS, true},
    {"known", sizeof(recovery_line_counter), RECOVERY_LINE_PROCESSES, true},
    {"line", 8, RECOVERY_LINE_SET_WORDS, true},
    {"participant's state", 8, RECOVERY_LINE_PARTICIPANT_WORDS, true},
    {"invitation", 1, 6, false},
    {"initiator's state", 8, RECOVERY_LINE_INITIATOR_WORDS, true},
    {"report", 1, 8, false},
    {"lengths", 8, RECOVERY_LINE_LENGTHS_WORDS, true},
    {"session", 8, RECOVERY_LINE_SESSION_WORDS, true},
    {"strands", 1, RECOVERY_LINE_STRAND_BYTES(3), false},
    {"order", 8, RECOVERY_LINE_ORDER_WORDS, true},
    {"list", 1, 9, false},
    {"resend", 8, RECOVERY_LINE_RESEND_WORDS, true},
    {"length", 8, 1, false},
    {"partner", 8, 1, false},
    {"passed", 8, 1, false},
    {"rounds", 8, 1, false},
    {"messages", 8, 1, false},
};

/* K's example 1, as a book and as the journal of its steps 2 to 4, and a book of one process. */
static const uint8_t book[] = {3, 2, 0, 0, 0, 0, 0, 0, 4, 5, 2, 0, 0, 0, 0, 3, 0, 0, 0, 2, 0, 0, 0, 0, 7, 0, 0, 0};
#define SENT_AND_RECEIVED(p, q) 1, p, q, 2, q, p
#define TWO(p, q) SENT_AND_RECEIVED(p, q), SENT_AND_RECEIVED(p, q)
static const uint8_t journal[] = {3, TWO(2, 1), SENT_AND_RECEIVED(2, 1), 3, 2, SENT_AND_RECEIVED(2, 1), TWO(3, 1), TWO(3, 1),
                                  SENT_AND_RECEIVED(3, 1), 3, 1, TWO(3, 1), 3, 3};
static const uint8_t lonely_book[] = {1, 3};
/* What the newest checkpoints of its others had sent to process 1. */
static const recovery_line_counter known[RECOVERY_LINE_PROCESSES] = {0, 3, 7};
static const uint8_t invitation[] = {1, PURPOSE, 1, 1, 1, 0};
static const uint8_t report[] = {2, PURPOSE, 2, 2, 1, 3, 3, 0};
static const uint8_t other_report[] = {2, PURPOSE, 3, 2, 1, 7, 2, 0};
/* On its line 1 2 2 process 1 has received none of the 3 messages that 2 has sent it, and none of the 7 that 3 has. */
static const uint8_t list[] = {2, 2, 1, 1, 3, 3, 1, 1, 7};

/* What is lent now: where, and how many elements. */
static struct {
    void *start;
    size_t elements;
} lent[SLICES];

#define U8(slice) (uint8_t *)lent[slice].start, lent[slice].elements
#define COUNTERS(slice) (recovery_line_counter *)lent[slice].start, lent[slice].elements
#define U64(slice) (uint64_t *)lent[slice].start, lent[slice].elements
#define NUMBER(slice) (uint64_t *)lent[slice].start
#define LENT_TABLES U64(SHAPE), COUNTERS(SENT), COUNTERS(RECEIVED)

static uint32_t call_read(void) { return recovery_line_read(U8(BYTES), LENT_TABLES); }
static uint32_t call_journal(void) { return recovery_line_journal(U8(EVENTS), LENT_TABLES); }
static uint32_t call_check(void) { return recovery_line_check(LENT_TABLES); }
static uint32_t call_write(void) { return recovery_line_write(LENT_TABLES, U8(OUT), NUMBER(LENGTH)); }
static uint32_t call_test_set(void) { return recovery_line_test_set(LENT_TABLES, U64(SET), U64(PAIR)); }
static uint32_t call_test_checkpoint(void) {
    return recovery_line_test_checkpoint(LENT_TABLES, 1, 2, COUNTERS(KNOWN), NUMBER(PARTNER));
}
static uint32_t call_find(void) { return recovery_line_find(LENT_TABLES, U64(LINE), NUMBER(PASSED)); }
static uint32_t call_participant_first(void) {
    return recovery_line_participant_first(LENT_TABLES, 2, 1, PURPOSE, U64(PARTICIPANT));
}
static uint32_t call_participant_receive(void) {
    return recovery_line_participant_receive(U64(PARTICIPANT), LENT_TABLES, U8(INVITATION), U8(OUT), U64(LENGTHS));
}
static uint32_t call_initiator_begin(void) {
    return recovery_line_initiator_begin(LENT_TABLES, 1, PURPOSE, U64(INITIATOR), U8(OUT), U64(LENGTHS));
}
static uint32_t call_initiator_receive(void) {
    return recovery_line_initiator_receive(U64(INITIATOR), LENT_TABLES, U8(REPORT), U8(OUT), U64(LENGTHS));
}
static uint32_t call_session_start(void) {
    return recovery_line_session_start(LENT_TABLES, 1, PURPOSE, U64(SESSION), U8(STRANDS));
}
static uint32_t call_session_turn(void) {
    return recovery_line_session_turn(U64(SESSION), LENT_TABLES, 3, U8(STRANDS));
}
static uint32_t call_search(void) {
    return recovery_line_search(LENT_TABLES, 1, PURPOSE, U64(LINE), NUMBER(PASSED), NUMBER(ROUNDS), NUMBER(MESSAGES));
}
static uint32_t call_move(void) { return recovery_line_move(LENT_TABLES, PURPOSE, U64(ORDER)); }
static uint32_t call_restart_order(void) { return recovery_line_restart_order(LENT_TABLES, PURPOSE, U64(ORDER)); }
static uint32_t call_write_resend(void) {
    return recovery_line_write_resend(LENT_TABLES, PURPOSE, U8(OUT), NUMBER(LENGTH));
}
static uint32_t call_read_resend(void) { return recovery_line_read_resend(3, U8(LIST), U64(RESEND)); }

/* A call, what it is lent to read and to write, and which part of its buffer of bytes it writes when it accepts. */
struct call {
    const char *name;
    uint32_t (*run)(void);
    unsigned reads, writes;
    size_t from, to;
};
enum { READ, JOURNAL, CHECK, WRITE, TEST_SET, TEST_CHECKPOINT, FIND, PARTICIPANT_FIRST, PARTICIPANT_RECEIVE, INITIATOR_BEGIN,
       INITIATOR_RECEIVE, SESSION_START, SESSION_TURN, SEARCH, MOVE, RESTART_ORDER, WRITE_RESEND, READ_RESEND, CALLS };
static const struct call calls[CALLS] = {
    {"read", call_read, OF(BYTES), TABLES, 0, 0},
    {"journal", call_journal, OF(EVENTS), TABLES, 0, 0},
    {"check", call_check, TABLES, 0, 0, 0},
    {"write", call_write, TABLES, OF(OUT) | OF(LENGTH), 0, sizeof book},
    {"test_set", call_test_set, TABLES | OF(SET), OF(PAIR), 0, 0},
    {"test_checkpoint", call_test_checkpoint, TABLES | OF(KNOWN), OF(PARTNER), 0, 0},
    {"find", call_find, TABLES, OF(LINE) | OF(PASSED), 0, 0},
    {"participant_first", call_participant_first, TABLES, OF(PARTICIPANT), 0, 0},
    {"participant_receive", call_participant_receive, TABLES | OF(INVITATION), OF(PARTICIPANT) | OF(OUT) | OF(LENGTHS), 0,
     sizeof report},
    {"initiator_begin", call_initiator_begin, TABLES, OF(INITIATOR) | OF(OUT) | OF(LENGTHS), 0, 2 * sizeof invitation},
    {"initiator_receive", call_initiator_receive, TABLES | OF(REPORT), OF(INITIATOR) | OF(OUT) | OF(LENGTHS), 0, 0},
    {"session_start", call_session_start, TABLES, OF(SESSION) | OF(STRANDS), 0, SLOT + sizeof invitation},
    {"session_turn", call_session_turn, TABLES, OF(SESSION) | OF(STRANDS), SLOT, SLOT + sizeof report},
    {"search", call_search, TABLES, OF(LINE) | OF(PASSED) | OF(ROUNDS) | OF(MESSAGES), 0, 0},
    {"move", call_move, 0, TABLES | OF(ORDER), 0, 0},
    {"restart_order", call_restart_order, TABLES, OF(ORDER), 0, 0},
    {"write_resend", call_write_resend, TABLES, OF(OUT) | OF(LENGTH), 0, sizeof list},
    {"read_resend", call_read_resend, OF(LIST), OF(RESEND), 0, 0},
};

#endif
