/*
 * What tests/stack.c lends, and every call of recovery_line.h on it.
 */
#ifndef STACK_CALLS_H
#define STACK_CALLS_H

#include "recovery_line.h"

enum { PROCESSES = RECOVERY_LINE_PROCESSES, ENTRIES = RECOVERY_LINE_TABLE_ENTRIES };
#define ARRAY(a) (a), sizeof(a) / sizeof((a)[0])
#define TABLES ARRAY(shape), ARRAY(sent), ARRAY(received)

/* What the calls are lent, and what they are told. */
static uint8_t book[RECOVERY_LINE_BOOK_BYTES], journal[RECOVERY_LINE_JOURNAL_BYTES], out[RECOVERY_LINE_STRAND_BYTES(PROCESSES)];
static uint8_t strands[RECOVERY_LINE_STRAND_BYTES(PROCESSES)], list[RECOVERY_LINE_MOST_RESEND_BYTES + 1];
static uint64_t shape[RECOVERY_LINE_SHAPE_WORDS], set[RECOVERY_LINE_SET_WORDS], pair[RECOVERY_LINE_PAIR_WORDS];
static uint64_t line[RECOVERY_LINE_SET_WORDS], order[RECOVERY_LINE_ORDER_WORDS], lengths[RECOVERY_LINE_LENGTHS_WORDS];
static uint64_t participants[PROCESSES][RECOVERY_LINE_PARTICIPANT_WORDS], initiator[RECOVERY_LINE_INITIATOR_WORDS];
static uint64_t session[RECOVERY_LINE_SESSION_WORDS], resend[RECOVERY_LINE_RESEND_WORDS];
static recovery_line_counter sent[ENTRIES], received[ENTRIES], known[PROCESSES];
static uint64_t book_length, journal_length, list_length, partner, passed, rounds, messages;
static uint64_t first, me, checkpoint, purpose, list_n;
static const uint8_t *message;
static size_t message_length, list_room;

static uint32_t call_version(void) { return recovery_line_version(); }
static uint32_t call_read(void) { return recovery_line_read(book, (size_t)book_length, TABLES); }
static uint32_t call_journal(void) { return recovery_line_journal(journal, (size_t)journal_length, TABLES); }
static uint32_t call_check(void) { return recovery_line_check(TABLES); }
static uint32_t call_write(void) { return recovery_line_write(TABLES, ARRAY(book), &book_length); }
static uint32_t call_test_set(void) { return recovery_line_test_set(TABLES, ARRAY(set), ARRAY(pair)); }
static uint32_t call_test_checkpoint(void) {
    return recovery_line_test_checkpoint(TABLES, me, checkpoint, ARRAY(known), &partner);
}
static uint32_t call_find(void) { return recovery_line_find(TABLES, ARRAY(line), &passed); }
static uint32_t call_participant_first(void) {
    return recovery_line_participant_first(TABLES, me, first, purpose, ARRAY(participants[me - 1]));
}
static uint32_t call_participant_receive(void) {
    return recovery_line_participant_receive(ARRAY(participants[me - 1]), TABLES, message, message_length, ARRAY(out),
                                             ARRAY(lengths));
}
static uint32_t call_initiator_begin(void) {
    return recovery_line_initiator_begin(TABLES, first, purpose, ARRAY(initiator), ARRAY(out), ARRAY(lengths));
}
static uint32_t call_initiator_receive(void) {
    return recovery_line_initiator_receive(ARRAY(initiator), TABLES, message, message_length, ARRAY(out), ARRAY(lengths));
}
static uint32_t call_session_start(void) {
    return recovery_line_session_start(TABLES, first, purpose, ARRAY(session), ARRAY(strands));
}
static uint32_t call_session_turn(void) {
    return recovery_line_session_turn(ARRAY(session), TABLES, me, ARRAY(strands));
}
static uint32_t call_search(void) {
    return recovery_line_search(TABLES, first, purpose, ARRAY(line), &passed, &rounds, &messages);
}
static uint32_t call_move(void) { return recovery_line_move(TABLES, purpose, ARRAY(order)); }
static uint32_t call_restart_order(void) { return recovery_line_restart_order(TABLES, purpose, ARRAY(order)); }
static uint32_t call_write_resend(void) {
    return recovery_line_write_resend(TABLES, purpose, list, list_room, &list_length);
}
static uint32_t call_read_resend(void) {
    return recovery_line_read_resend(list_n, list, (size_t)list_length, ARRAY(resend));
}

enum call { VERSION, READ, JOURNAL, CHECK, WRITE, TEST_SET, TEST_CHECKPOINT, FIND, PARTICIPANT_FIRST, PARTICIPANT_RECEIVE,
            INITIATOR_BEGIN, INITIATOR_RECEIVE, SESSION_START, SESSION_TURN, SEARCH, MOVE, RESTART_ORDER,
            WRITE_RESEND, READ_RESEND, CALLS };
static struct {
    const char *name;
    uint32_t (*run)(void);
    size_t most;
    unsigned long times;
} calls[CALLS] = {
    {"version", call_version, 0, 0},
    {"read", call_read, 0, 0},
    {"journal", call_journal, 0, 0},
    {"check", call_check, 0, 0},
    {"write", call_write, 0, 0},
    {"test_set", call_test_set, 0, 0},
    {"test_checkpoint", call_test_checkpoint, 0, 0},
    {"find", call_find, 0, 0},
    {"participant_first", call_participant_first, 0, 0},
    {"participant_receive", call_participant_receive, 0, 0},
    {"initiator_begin", call_initiator_begin, 0, 0},
    {"initiator_receive", call_initiator_receive, 0, 0},
    {"session_start", call_session_start, 0, 0},
    {"session_turn", call_session_turn, 0, 0},
    {"search", call_search, 0, 0},
    {"move", call_move, 0, 0},
    {"restart_order", call_restart_order, 0, 0},
    {"write_resend", call_write_resend, 0, 0},
    {"read_resend", call_read_resend, 0, 0},
};

#endif
