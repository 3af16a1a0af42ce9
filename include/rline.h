/*
 * The recovery line of up to sixteen worker processes, with types: the functions of recovery_line.h over structs, for C11 and
 * C++17 or later. It adds nothing to link but what recovery_line.h names; examples/first_book.c is the shortest program:
 *
 *     tools/archive
 *     cc -std=c11 -I include examples/first_book.c target/staticlib/librecovery_line.a -o first_book
 *     ./first_book
 *
 * One struct holds the tables, so that sent and received counters cannot change places, and a process is no checkpoint. Both
 * are numbered from 1; 0 is none. In C and C++ `const rline_process first = {1};` makes one.
 *
 * The parts that it includes: rline_worker.h, what a worker counts, and tables made from that; rline_machines.h, machines,
 * messages and sessions.
 *
 * Every function that returns a uint32_t answers 0 or the number of a question, and a refused call changes nothing. Most do just
 * what the function of recovery_line.h does that they call. What that header says of threads and of overlaps holds here, and
 * RECOVERY_LINE_STACK_BYTES suffice for what is called. A look (a function that returns anything else) asks nothing: of a
 * process or a checkpoint that there is not it gives 0.
 *
 * Tables, machines, sessions, messages, orders, lists and buffers are initialised before they are lent: `static`, or `= {0}` in
 * C and `{}` in C++. Small results (a line, a fault, a partner, a search's result, a length) need not be.
 */
#ifndef RLINE_H
#define RLINE_H

#include "recovery_line.h"

#include <string.h>

typedef struct rline_process {
    uint64_t number;
} rline_process;

typedef struct rline_checkpoint {
    uint64_t number;
} rline_checkpoint;

/* A checkpoint book in memory. */
typedef struct rline_tables {
    uint64_t shape[RECOVERY_LINE_SHAPE_WORDS];
    recovery_line_counter sent[RECOVERY_LINE_TABLE_ENTRIES], received[RECOVERY_LINE_TABLE_ENTRIES];
} rline_tables;

/* A checkpoint for each process. */
typedef struct rline_set {
    uint64_t checkpoints[RECOVERY_LINE_SET_WORDS];
} rline_set;

/* The line, and how many checkpoints are newer than it. */
typedef struct rline_line {
    rline_set set;
    uint64_t passed;
} rline_line;

/* The receiver's checkpoint received more from the sender than the sender's sent to it. Two zeros: no fault. */
typedef struct rline_fault {
    rline_process receiver, sender;
} rline_fault;

/* What each process is known to have sent to one. */
typedef struct rline_known {
    recovery_line_counter sent[RECOVERY_LINE_PROCESSES];
} rline_known;

/* A restart order, and what it says of one process: its checkpoint `from`, numbered as before a move, and how many checkpoints
 * before it (older ones) and after it (newer ones) are dropped. With purpose 1 nobody restarts: `from` is the line's. */
typedef struct rline_order {
    uint64_t words[RECOVERY_LINE_ORDER_WORDS];
} rline_order;
typedef struct rline_restart {
    rline_checkpoint from;
    uint64_t before, after;
} rline_restart;

/* A list of what to send again, which every order has too, and what it says of one channel: its sender sends the receiver the
 * messages from `first` to `last` again, both included, as counted before the move. Two zeros: none. With purpose 1 nobody
 * restarts, and so nobody sends anything again: the list says what crosses the line. */
typedef struct rline_resend {
    uint64_t words[RECOVERY_LINE_RESEND_WORDS];
} rline_resend;
typedef struct rline_repeat {
    uint64_t first, last;
} rline_repeat;

/* On what a search has ended, how many checkpoints are newer than that, and the rounds and messages that it took. */
typedef struct rline_search_result {
    rline_set set;
    uint64_t newer, rounds, messages;
} rline_search_result;

/* A journal that is being written: `length` of the `room` bytes lent. It is full once something did not fit. */
typedef struct rline_journal {
    uint8_t *bytes;
    size_t room, length;
    int full;
} rline_journal;

/* For the slices of recovery_line.h; not for others. */
#define RLINE_ARRAY(a) (a), sizeof(a) / sizeof((a)[0])
#define RLINE_TABLES(t) RLINE_ARRAY((t)->shape), RLINE_ARRAY((t)->sent), RLINE_ARRAY((t)->received)

/* Question 17, by which a full journal is refused. */
#define RLINE_NO_ROOM 17

/* Whether the archive has the version of the header: if not, no other function may be called. */
RECOVERY_LINE_NODISCARD static inline int rline_version_fits(void) {
    return recovery_line_version() == RECOVERY_LINE_VERSION;
}

RECOVERY_LINE_NODISCARD static inline rline_process rline_process_number(uint64_t number) {
    rline_process process = {number};
    return process;
}

RECOVERY_LINE_NODISCARD static inline rline_checkpoint rline_checkpoint_number(uint64_t number) {
    rline_checkpoint checkpoint = {number};
    return checkpoint;
}

/* Whether a process can be there at all: from 1 to 16. */
RECOVERY_LINE_NODISCARD static inline int rline_is_process(rline_process process) {
    return process.number >= 1 && process.number <= RECOVERY_LINE_PROCESSES;
}

/* The process's word among sixteen; 0 for none. */
RECOVERY_LINE_NODISCARD static inline uint64_t rline_word(const uint64_t *sixteen, rline_process process) {
    return rline_is_process(process) ? sixteen[process.number - 1] : 0;
}

/* Books. */

/* Reads the bytes of a book. */
RECOVERY_LINE_NODISCARD static inline uint32_t rline_read(rline_tables *tables, const uint8_t *book, size_t length) {
    return recovery_line_read(book, length, RLINE_TABLES(tables));
}

/* Writes the book to the start of `out`, and its length; RECOVERY_LINE_BOOK_BYTES bytes always suffice. */
RECOVERY_LINE_NODISCARD static inline uint32_t rline_write(const rline_tables *tables, uint8_t *out, size_t room,
                                                           size_t *length) {
    uint64_t written = 0;
    uint32_t answer = recovery_line_write(RLINE_TABLES(tables), out, room, &written);
    if (answer == RECOVERY_LINE_ACCEPTED) {
        *length = (size_t)written;
    }
    return answer;
}

/* Checks tables that were not read: every other call does so too. */
RECOVERY_LINE_NODISCARD static inline uint32_t rline_check(const rline_tables *tables) {
    return recovery_line_check(RLINE_TABLES(tables));
}

/* How many processes there are. */
RECOVERY_LINE_NODISCARD static inline uint64_t rline_processes(const rline_tables *tables) {
    return tables->shape[RECOVERY_LINE_N_AT];
}

/* How many checkpoints a process has: the number of its newest. */
RECOVERY_LINE_NODISCARD static inline uint64_t rline_checkpoints(const rline_tables *tables, rline_process process) {
    return rline_word(tables->shape + RECOVERY_LINE_SHAPE_COUNTS_AT, process);
}

/* The set of newest checkpoints. */
RECOVERY_LINE_NODISCARD static inline rline_set rline_newest(const rline_tables *tables) {
    rline_set set;
    memcpy(set.checkpoints, tables->shape + RECOVERY_LINE_SHAPE_COUNTS_AT, sizeof set.checkpoints);
    return set;
}

/* Journals: what happened among the workers, event by event in the order in which it did. Checkpoint 1 of every process is
 * there from the start. Where processes are numbered 1 to 16, n takes one byte, a checkpoint 2, and every other event 3. What
 * does not fit its buffer fills a journal: neither that nor anything later is written. What is no event is written as it is;
 * whether a journal can be used is answered when it is read. Named first is the process that does it, then its partner. */

/* The most bytes of a 64-bit number in groups of seven bits, and of an event: its kind and two numbers. */
#define RLINE_NUMBER_BYTES ((64 + 6) / 7)
#define RLINE_EVENT_BYTES (1 + 2 * RLINE_NUMBER_BYTES)

/* Writes a number, and gives where it ends. */
RECOVERY_LINE_NODISCARD static inline uint8_t *rline_put_number(uint8_t *at, uint64_t number) {
    while (number >> 7 != 0) {
        *at++ = (uint8_t)(number | 0x80);
        number >>= 7;
    }
    *at++ = (uint8_t)number;
    return at;
}

static inline void rline_journal_append(rline_journal *journal, const uint8_t *from, const uint8_t *end) {
    size_t length = (size_t)(end - from);
    if (journal->full || length > journal->room - journal->length) {
        journal->full = 1;
        return;
    }
    memcpy(journal->bytes + journal->length, from, length);
    journal->length += length;
}

/* Begins a journal of n processes in a buffer of that many bytes; RECOVERY_LINE_JOURNAL_BYTES is the longest that is read. */
RECOVERY_LINE_NODISCARD static inline rline_journal rline_journal_begin(uint8_t *buffer, size_t room, uint64_t n) {
    uint8_t head[RLINE_NUMBER_BYTES];
    rline_journal journal = {buffer, room, 0, 0};
    rline_journal_append(&journal, head, rline_put_number(head, n));
    return journal;
}

/* `from` has sent a message to `to`. */
static inline void rline_journal_sent(rline_journal *journal, rline_process from, rline_process to) {
    uint8_t event[RLINE_EVENT_BYTES] = {RECOVERY_LINE_EVENT_SENT};
    rline_journal_append(journal, event, rline_put_number(rline_put_number(event + 1, from.number), to.number));
}

/* `to` has received the oldest message underway from `from`. */
static inline void rline_journal_received(rline_journal *journal, rline_process to, rline_process from) {
    uint8_t event[RLINE_EVENT_BYTES] = {RECOVERY_LINE_EVENT_RECEIVED};
    rline_journal_append(journal, event, rline_put_number(rline_put_number(event + 1, to.number), from.number));
}

/* A process has taken a checkpoint. */
static inline void rline_journal_checkpoint(rline_journal *journal, rline_process process) {
    uint8_t event[RLINE_EVENT_BYTES] = {RECOVERY_LINE_EVENT_CHECKPOINT};
    rline_journal_append(journal, event, rline_put_number(event + 1, process.number));
}

/* Reads a journal that was written elsewhere: its bytes. */
RECOVERY_LINE_NODISCARD static inline uint32_t rline_read_journal_bytes(rline_tables *tables, const uint8_t *bytes,
                                                                        size_t length) {
    return recovery_line_journal(bytes, length, RLINE_TABLES(tables));
}

/* Reads a journal. Questions: 17 if it is full, then those of recovery_line_journal. */
RECOVERY_LINE_NODISCARD static inline uint32_t rline_read_journal(rline_tables *tables, const rline_journal *journal) {
    return journal->full ? RLINE_NO_ROOM : rline_read_journal_bytes(tables, journal->bytes, journal->length);
}

/* Sets and the line. */

RECOVERY_LINE_NODISCARD static inline rline_checkpoint rline_set_get(const rline_set *set, rline_process process) {
    return rline_checkpoint_number(rline_word(set->checkpoints, process));
}

/* Does nothing for a process that is not from 1 to 16. */
static inline void rline_set_put(rline_set *set, rline_process process, rline_checkpoint checkpoint) {
    if (rline_is_process(process)) {
        set->checkpoints[process.number - 1] = checkpoint.number;
    }
}

/* Tests whether the set is consistent, which needs the whole book; if not, `fault` becomes the first pair at fault. */
RECOVERY_LINE_NODISCARD static inline uint32_t rline_test_set(const rline_tables *tables, const rline_set *set,
                                                              rline_fault *fault) {
    uint64_t pair[RECOVERY_LINE_PAIR_WORDS] = {0};
    uint32_t answer = recovery_line_test_set(RLINE_TABLES(tables), RLINE_ARRAY(set->checkpoints), RLINE_ARRAY(pair));
    if (answer == RECOVERY_LINE_ACCEPTED) {
        fault->receiver = rline_process_number(pair[0]);
        fault->sender = rline_process_number(pair[1]);
    }
    return answer;
}

/* Of nobody anything is known, which permits everything. */
RECOVERY_LINE_NODISCARD static inline rline_known rline_nothing_known(void) {
    rline_known known = {{0}};
    for (int p = 0; p < RECOVERY_LINE_PROCESSES; p++) {
        known.sent[p] = RECOVERY_LINE_NOT_KNOWN;
    }
    return known;
}

/* Does nothing for a process that is not from 1 to 16. */
static inline void rline_known_put(rline_known *known, rline_process sender, recovery_line_counter sent) {
    if (rline_is_process(sender)) {
        known->sent[sender.number - 1] = sent;
    }
}

/* Tests a checkpoint of a process against what is known; `partner` becomes the lowest process from which it received more, or
 * none. */
RECOVERY_LINE_NODISCARD static inline uint32_t rline_test_checkpoint(const rline_tables *tables, rline_process process,
                                                                     rline_checkpoint checkpoint,
                                                                     const rline_known *known, rline_process *partner) {
    uint64_t found = 0;
    uint32_t answer = recovery_line_test_checkpoint(RLINE_TABLES(tables), process.number, checkpoint.number,
                                                    RLINE_ARRAY(known->sent), &found);
    if (answer == RECOVERY_LINE_ACCEPTED) {
        partner->number = found;
    }
    return answer;
}

/* Finds the line, which needs the whole book, not a worker's own tables. */
RECOVERY_LINE_NODISCARD static inline uint32_t rline_find(const rline_tables *tables, rline_line *line) {
    uint64_t set[RECOVERY_LINE_SET_WORDS] = {0}, passed = 0;
    uint32_t answer = recovery_line_find(RLINE_TABLES(tables), RLINE_ARRAY(set), &passed);
    if (answer == RECOVERY_LINE_ACCEPTED) {
        memcpy(line->set.checkpoints, set, sizeof set);
        line->passed = passed;
    }
    return answer;
}

/* Finds it by messages, all machines in this one call, on the whole book; purpose 2 ends on checkpoint 1 everywhere. */
RECOVERY_LINE_NODISCARD static inline uint32_t rline_search(const rline_tables *tables, rline_process initiator,
                                                            uint64_t purpose, rline_search_result *result) {
    uint64_t set[RECOVERY_LINE_SET_WORDS] = {0}, newer = 0, rounds = 0, messages = 0;
    uint32_t answer = recovery_line_search(RLINE_TABLES(tables), initiator.number, purpose, RLINE_ARRAY(set), &newer,
                                           &rounds, &messages);
    if (answer == RECOVERY_LINE_ACCEPTED) {
        memcpy(result->set.checkpoints, set, sizeof set);
        result->newer = newer;
        result->rounds = rounds;
        result->messages = messages;
    }
    return answer;
}

/* Restarts. */

/* Moves the line in the tables, which needs the whole book, not a worker's own tables, and gives the restart order. On the
 * channel from a to b, what b's line checkpoint (with purpose 2 checkpoint 1, so nothing) had received is taken off at both
 * ends: off what a has sent to b, and off what b has received from a. Who keeps counters beside the tables does the same. */
RECOVERY_LINE_NODISCARD static inline uint32_t rline_move(rline_tables *tables, uint64_t purpose, rline_order *order) {
    return recovery_line_move(RLINE_TABLES(tables), purpose, RLINE_ARRAY(order->words));
}

/* Gives the order that rline_move would give, and moves nothing. */
RECOVERY_LINE_NODISCARD static inline uint32_t rline_restart_order(const rline_tables *tables, uint64_t purpose,
                                                                   rline_order *order) {
    return recovery_line_restart_order(RLINE_TABLES(tables), purpose, RLINE_ARRAY(order->words));
}

/* What the order says of a process. */
RECOVERY_LINE_NODISCARD static inline rline_restart rline_order_get(const rline_order *order, rline_process process) {
    rline_restart restart = {rline_checkpoint_number(rline_word(order->words, process)),
                             rline_word(order->words + RECOVERY_LINE_ORDER_BEFORE_AT, process),
                             rline_word(order->words + RECOVERY_LINE_ORDER_AFTER_AT, process)};
    return restart;
}

/* The word of a channel in a matrix that has a row for each sender; 0 for none. */
RECOVERY_LINE_NODISCARD static inline uint64_t rline_channel_word(const uint64_t *matrix, rline_process sender,
                                                                  rline_process receiver) {
    return rline_is_process(sender) ? rline_word(matrix + (sender.number - 1) * RECOVERY_LINE_PROCESSES, receiver) : 0;
}

/* What the words of a list say of a channel. */
RECOVERY_LINE_NODISCARD static inline rline_repeat rline_repeat_in(const uint64_t *words, rline_process sender,
                                                                   rline_process receiver) {
    rline_repeat repeat = {rline_channel_word(words, sender, receiver),
                           rline_channel_word(words + RECOVERY_LINE_RESEND_LAST_AT, sender, receiver)};
    return repeat;
}

/* What a sender sends a receiver again by an order. */
RECOVERY_LINE_NODISCARD static inline rline_repeat rline_order_repeat(const rline_order *order, rline_process sender,
                                                                      rline_process receiver) {
    return rline_repeat_in(order->words + RECOVERY_LINE_ORDER_RESEND_AT, sender, receiver);
}

/* And by a list. */
RECOVERY_LINE_NODISCARD static inline rline_repeat rline_resend_repeat(const rline_resend *resend, rline_process sender,
                                                                       rline_process receiver) {
    return rline_repeat_in(resend->words, sender, receiver);
}

/* Writes the list of the order that rline_move would give to the start of `out`, and its length;
 * RECOVERY_LINE_MOST_RESEND_BYTES bytes always suffice. */
RECOVERY_LINE_NODISCARD static inline uint32_t rline_write_resend(const rline_tables *tables, uint64_t purpose, uint8_t *out,
                                                                  size_t room, size_t *length) {
    uint64_t written = 0;
    uint32_t answer = recovery_line_write_resend(RLINE_TABLES(tables), purpose, out, room, &written);
    if (answer == RECOVERY_LINE_ACCEPTED) {
        *length = (size_t)written;
    }
    return answer;
}

/* Reads the bytes of a list, among n processes. */
RECOVERY_LINE_NODISCARD static inline uint32_t rline_read_resend(rline_resend *resend, uint64_t n, const uint8_t *list,
                                                                 size_t length) {
    return recovery_line_read_resend(n, list, length, RLINE_ARRAY(resend->words));
}

#include "rline_machines.h"
#include "rline_worker.h"

#undef RLINE_ARRAY
#undef RLINE_TABLES

#endif
