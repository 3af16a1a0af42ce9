/*
 * Mistakes that a compiler finds with the headers. Without any of the names below this compiles; with one of them, which puts
 * one mistake in place of what is right, it must not. The line `mistakes:` is read by tests/boundary.
 *
 * mistakes: DROPPED_ANSWER DROPPED_TYPED_ANSWER DROPPED_MESSAGE CHECKPOINT_AND_PROCESS PROCESS_FOR_CHECKPOINT
 * mistakes: NUMBER_FOR_PROCESS TABLES_BY_HALVES MACHINES_EXCHANGED ORDER_FOR_LIST
 */
#include "rline.h"

#ifdef DROPPED_ANSWER
#define ANSWER(call) call
#else
#define ANSWER(call) answer = call
#endif
#ifdef DROPPED_TYPED_ANSWER
#define TYPED_ANSWER(call) call
#else
#define TYPED_ANSWER(call) answer = call
#endif
#ifdef DROPPED_MESSAGE
#define MESSAGE(call) call
#else
#define MESSAGE(call) message = call
#endif
#ifdef CHECKPOINT_AND_PROCESS
#define CHECKPOINT checkpoint, process
#else
#define CHECKPOINT process, checkpoint
#endif
#ifdef PROCESS_FOR_CHECKPOINT
#define PUT process
#else
#define PUT checkpoint
#endif
#ifdef NUMBER_FOR_PROCESS
#define PROCESS 1
#else
#define PROCESS process
#endif
#ifdef TABLES_BY_HALVES
#define TABLES tables.received
#else
#define TABLES &tables
#endif
#ifdef MACHINES_EXCHANGED
#define PARTICIPANT &initiator
#else
#define PARTICIPANT &participant
#endif
#ifdef ORDER_FOR_LIST
#define LIST &order
#else
#define LIST &resend
#endif

uint32_t try_all(void);

uint32_t try_all(void) {
    static rline_tables tables;
    static rline_line line;
    static rline_messages messages;
    static rline_participant participant;
    static rline_initiator initiator;
    static rline_known known;
    static rline_order order;
    static rline_resend resend;
    static rline_message message;
    rline_process process = {1};
    rline_checkpoint checkpoint = {2};
    uint32_t answer = 0;
    ANSWER(recovery_line_check(tables.shape, RECOVERY_LINE_SHAPE_WORDS, tables.sent, RECOVERY_LINE_TABLE_ENTRIES,
                               tables.received, RECOVERY_LINE_TABLE_ENTRIES));
    TYPED_ANSWER(rline_find(TABLES, &line));
    rline_set_put(&line.set, PROCESS, PUT);
    MESSAGE(rline_message_to(&messages, process));
    answer += (uint32_t)rline_participant_ended(&participant);
    answer += rline_initiator_receive(&initiator, &tables, message, &messages);
    answer += rline_participant_receive(PARTICIPANT, &tables, message, &messages);
    answer += rline_test_checkpoint(&tables, CHECKPOINT, &known, &process);
    answer += rline_read_resend(&resend, 1, message.bytes, message.length);
    answer += (uint32_t)rline_order_repeat(&order, process, process).first;
    answer += (uint32_t)rline_resend_repeat(LIST, process, process).last;
    return answer;
}
