/*
 * The part of rline.h on machines, messages and sessions: include that file.
 */
#ifndef RLINE_H
#error "include rline.h"
#endif
#ifndef RLINE_MACHINES_H
#define RLINE_MACHINES_H

/* Each worker has a machine: one is the initiator, all others are participants. Beyond the check, a machine goes by the rows of
 * its own process, which stay as they are until it has ended: a checkpoint taken meanwhile is lent afterwards. Who has no other
 * rows makes tables by rline_own_tables.
 *
 * A message does not say to whom it goes. Carry each to its receiver, once and whole: one that is given to another worker, or
 * given twice, may be accepted, and the search may then end elsewhere, even on a set that is not consistent. What a step has
 * given must be sent, since no step can be taken again: who stores a machine's words stores with them the messages of its last
 * step, until they are sent. */
typedef struct rline_participant {
    uint64_t words[RECOVERY_LINE_PARTICIPANT_WORDS];
} rline_participant;
typedef struct rline_initiator {
    uint64_t words[RECOVERY_LINE_INITIATOR_WORDS];
} rline_initiator;

/* A message, to be carried to its receiver byte by byte. Length 0: none. It has room for one byte more than the longest message
 * has, so that what is longer is refused by question 14 when it is received. */
typedef struct rline_message {
    size_t length;
    uint8_t bytes[RECOVERY_LINE_MESSAGE_BYTES(RECOVERY_LINE_PROCESSES) + 1];
} rline_message;

/* What a machine sends in one step: at most one message to each process. */
typedef struct rline_messages {
    uint64_t lengths[RECOVERY_LINE_LENGTHS_WORDS];
    uint8_t bytes[RECOVERY_LINE_STRAND_BYTES(RECOVERY_LINE_PROCESSES)];
} rline_messages;

/* All machines of one search, and the messages that wait between them. */
typedef struct rline_session {
    uint64_t words[RECOVERY_LINE_SESSION_WORDS];
    uint8_t strands[RECOVERY_LINE_STRAND_BYTES(RECOVERY_LINE_PROCESSES)];
} rline_session;

/* Messages. */

/* A message of bytes that have come in. */
RECOVERY_LINE_NODISCARD static inline rline_message rline_message_of(const uint8_t *bytes, size_t length) {
    rline_message message;
    memset(&message, 0, sizeof message);
    message.length = length < sizeof message.bytes ? length : sizeof message.bytes;
    if (message.length != 0) {
        memcpy(message.bytes, bytes, message.length);
    }
    return message;
}

/* Where the second and the third number of a message stand, each of which is one byte in a message that is formed, as is the
 * first; and the lowest byte that is no number by itself. */
#define RLINE_MESSAGE_PURPOSE_AT 1
#define RLINE_MESSAGE_SENDER_AT (RLINE_MESSAGE_PURPOSE_AT + 1)
#define RLINE_ANOTHER_FOLLOWS 0x80

/* The number of one byte at a place; 0 where there is none. */
RECOVERY_LINE_NODISCARD static inline uint64_t rline_message_byte(const rline_message *message, size_t at) {
    return at < message->length && message->bytes[at] < RLINE_ANOTHER_FOLLOWS ? message->bytes[at] : 0;
}

/* For what a message is sent. Whether the message is formed is answered when it is received. */
RECOVERY_LINE_NODISCARD static inline uint64_t rline_message_purpose(const rline_message *message) {
    return rline_message_byte(message, RLINE_MESSAGE_PURPOSE_AT);
}

/* Who sends it. */
RECOVERY_LINE_NODISCARD static inline rline_process rline_message_sender(const rline_message *message) {
    return rline_process_number(rline_message_byte(message, RLINE_MESSAGE_SENDER_AT));
}

/* What was sent to that receiver. */
RECOVERY_LINE_NODISCARD static inline rline_message rline_message_to(const rline_messages *messages,
                                                                     rline_process receiver) {
    const uint8_t *start = messages->bytes;
    for (uint64_t p = 1; rline_is_process(receiver) && p < receiver.number; p++) {
        start += messages->lengths[p - 1];
    }
    return rline_message_of(start, (size_t)rline_word(messages->lengths, receiver));
}

/* Machines. */

/* Makes the machine of process `me`, before its invitation, which it is to receive then. Who begins, and for what, a worker
 * learns from that: rline_message_sender, rline_message_purpose. */
RECOVERY_LINE_NODISCARD static inline uint32_t rline_participant_first(rline_participant *machine,
                                                                       const rline_tables *tables, rline_process me,
                                                                       rline_process initiator, uint64_t purpose) {
    return recovery_line_participant_first(RLINE_TABLES(tables), me.number, initiator.number, purpose,
                                           RLINE_ARRAY(machine->words));
}

/* A participant receives a message; what it sends to the initiator is in `out`. */
RECOVERY_LINE_NODISCARD static inline uint32_t rline_participant_receive(rline_participant *machine,
                                                                         const rline_tables *tables,
                                                                         rline_message message, rline_messages *out) {
    return recovery_line_participant_receive(RLINE_ARRAY(machine->words), RLINE_TABLES(tables), message.bytes,
                                             message.length, RLINE_ARRAY(out->bytes), RLINE_ARRAY(out->lengths));
}

/* Makes the machine of process `me`, which begins a search; its invitations are in `out`. */
RECOVERY_LINE_NODISCARD static inline uint32_t rline_initiator_begin(rline_initiator *machine, const rline_tables *tables,
                                                                     rline_process me, uint64_t purpose,
                                                                     rline_messages *out) {
    return recovery_line_initiator_begin(RLINE_TABLES(tables), me.number, purpose, RLINE_ARRAY(machine->words),
                                         RLINE_ARRAY(out->bytes), RLINE_ARRAY(out->lengths));
}

/* The initiator receives a report; what it sends to participants is in `out`. */
RECOVERY_LINE_NODISCARD static inline uint32_t rline_initiator_receive(rline_initiator *machine,
                                                                       const rline_tables *tables,
                                                                       rline_message message, rline_messages *out) {
    return recovery_line_initiator_receive(RLINE_ARRAY(machine->words), RLINE_TABLES(tables), message.bytes,
                                           message.length, RLINE_ARRAY(out->bytes), RLINE_ARRAY(out->lengths));
}

RECOVERY_LINE_NODISCARD static inline int rline_participant_ended(const rline_participant *machine) {
    return machine->words[RECOVERY_LINE_PARTICIPANT_STAGE_AT] == RECOVERY_LINE_STAGE_ENDED;
}

/* The checkpoint on which the worker stands: that of the line once all have ended, with purpose 2 checkpoint 1. */
RECOVERY_LINE_NODISCARD static inline rline_checkpoint rline_participant_candidate(const rline_participant *machine) {
    return rline_checkpoint_number(machine->words[RECOVERY_LINE_PARTICIPANT_CANDIDATE_AT]);
}

RECOVERY_LINE_NODISCARD static inline int rline_initiator_ended(const rline_initiator *machine) {
    return machine->words[RECOVERY_LINE_INITIATOR_ENDED_AT] == RECOVERY_LINE_ENDED;
}

RECOVERY_LINE_NODISCARD static inline rline_checkpoint rline_initiator_candidate(const rline_initiator *machine) {
    return rline_checkpoint_number(machine->words[RECOVERY_LINE_INITIATOR_CANDIDATE_AT]);
}

RECOVERY_LINE_NODISCARD static inline uint64_t rline_initiator_rounds(const rline_initiator *machine) {
    return machine->words[RECOVERY_LINE_INITIATOR_ROUNDS_AT];
}

/* Sessions. */

/* Starts a session: the invitations wait. */
RECOVERY_LINE_NODISCARD static inline uint32_t rline_session_start(rline_session *session, const rline_tables *tables,
                                                                   rline_process initiator, uint64_t purpose) {
    return recovery_line_session_start(RLINE_TABLES(tables), initiator.number, purpose, RLINE_ARRAY(session->words),
                                       RLINE_ARRAY(session->strands));
}

/* Delivers the message that waits between a participant and the initiator; the replies wait then. */
RECOVERY_LINE_NODISCARD static inline uint32_t rline_session_turn(rline_session *session, const rline_tables *tables,
                                                                  rline_process participant) {
    return recovery_line_session_turn(RLINE_ARRAY(session->words), RLINE_TABLES(tables), participant.number,
                                      RLINE_ARRAY(session->strands));
}

/* Whether a message waits between a participant and the initiator. */
RECOVERY_LINE_NODISCARD static inline int rline_session_waits(const rline_session *session, rline_process participant) {
    return rline_word(session->words + RECOVERY_LINE_SESSION_LENGTHS_AT, participant) != 0;
}

RECOVERY_LINE_NODISCARD static inline int rline_session_is_initiator(const rline_session *session, rline_process process) {
    return process.number == session->words[RECOVERY_LINE_SESSION_INITIATOR_AT];
}

/* A word of a process's machine, by its place in an initiator's words and in a participant's. */
RECOVERY_LINE_NODISCARD static inline uint64_t rline_session_word(const rline_session *session, rline_process process,
                                                                  size_t in_initiator, size_t in_participant) {
    const uint64_t *participants = session->words + RECOVERY_LINE_SESSION_PARTICIPANTS_AT;
    if (!rline_is_process(process)) {
        return 0;
    }
    return rline_session_is_initiator(session, process)
               ? session->words[RECOVERY_LINE_SESSION_MACHINE_AT + in_initiator]
               : participants[(process.number - 1) * RECOVERY_LINE_PARTICIPANT_WORDS + in_participant];
}

/* Whether the worker has ended. */
RECOVERY_LINE_NODISCARD static inline int rline_session_ended(const rline_session *session, rline_process process) {
    uint64_t ended = rline_session_is_initiator(session, process) ? RECOVERY_LINE_ENDED : RECOVERY_LINE_STAGE_ENDED;
    return rline_session_word(session, process, RECOVERY_LINE_INITIATOR_ENDED_AT, RECOVERY_LINE_PARTICIPANT_STAGE_AT) ==
           ended;
}

/* Whether all workers have ended. */
RECOVERY_LINE_NODISCARD static inline int rline_session_all_ended(const rline_session *session) {
    uint64_t n = session->words[RECOVERY_LINE_N_AT], ended = 0;
    while (ended < n && rline_session_ended(session, rline_process_number(ended + 1))) {
        ended++;
    }
    return n != 0 && ended == n;
}

/* The checkpoint on which the worker stands. */
RECOVERY_LINE_NODISCARD static inline rline_checkpoint rline_session_candidate(const rline_session *session,
                                                                               rline_process process) {
    return rline_checkpoint_number(rline_session_word(session, process, RECOVERY_LINE_INITIATOR_CANDIDATE_AT,
                                                      RECOVERY_LINE_PARTICIPANT_CANDIDATE_AT));
}

RECOVERY_LINE_NODISCARD static inline uint64_t rline_session_rounds(const rline_session *session) {
    return session->words[RECOVERY_LINE_SESSION_MACHINE_AT + RECOVERY_LINE_INITIATOR_ROUNDS_AT];
}

RECOVERY_LINE_NODISCARD static inline uint64_t rline_session_delivered(const rline_session *session) {
    return session->words[RECOVERY_LINE_SESSION_DELIVERED_AT];
}

#endif
