/*
 * The recovery line of up to sixteen worker processes: the library's functions for C and C++.
 *
 * Begin with rline.h: it includes this file, holds the tables in one struct and gives processes and checkpoints types of their
 * own. The functions below are for who lays memory out himself: nothing here stops a caller who swaps `sent` and `received`.
 * From the repository's root:
 *
 *     tools/archive
 *     cc -I include examples/search_and_move.c target/staticlib/librecovery_line.a -o search_and_move
 *     c++ -std=c++17 -I include examples/first_book.cpp target/staticlib/librecovery_line.a -o first_book
 *
 * A program that may meet another archive than this header's asks first whether recovery_line_version() is RECOVERY_LINE_VERSION.
 *
 * Every call, recovery_line_version and the inline recovery_line_question aside,
 *   - returns 0 if it accepts, and else the number of the first question that fails: recovery_line_question gives the sentence;
 *   - changes nothing that was lent when it refuses: no table, state, buffer or number; and when it accepts, leaves the bytes of
 *     a buffer that it has nothing to write to;
 *   - leaves nothing open: for each input there is one answer, and one content of all that it writes;
 *   - ends on every input, allocates nothing, keeps nothing between calls, and calls nothing outside but C's memcpy, memmove,
 *     memset and memcmp.
 *
 * What C must keep to, since nothing can check it:
 *   - A slice is a pointer and the number of its elements. The pointer may be null only if that number is 0. It is aligned
 *     for its element, and points to as many elements, all of which are initialised, also those that are only written.
 *   - What a function writes to (a pointer without `const`) overlaps nothing else that is lent to the same call. What it
 *     only reads may overlap.
 *   - A pointer to a single number (`length`, `partner`, `passed`, `newer`, `rounds`, `messages`) is never null, is aligned, and
 *     points to a number that is initialised.
 *   - While a call runs, nobody else writes what is lent to it or reads what it writes. Calls that share only what they
 *     read may run at the same time, in any threads, and from signal handlers.
 *   - Stack: no call was measured to need more than RECOVERY_LINE_STACK_BYTES; on a signal handler's stack that comes on top of
 *     what the handler and the system take. What each was measured to need, rounded up, stands with it.
 *
 * Words. Shapes, sets, states, sessions, lengths, orders and lists cross as 64-bit words in slices of a fixed, named length,
 * with a name too for the place of each part, as RECOVERY_LINE_INITIATOR_ROUNDS_AT, and for each stage, flag and kind. A slice
 * of words of any other length is refused by RECOVERY_LINE_WRONG_LENGTH, before every question. The same holds of sixteen
 * counters that are lent beside the tables, as `known`; they have a table entry's type. Tables have another rule: question 2
 * asks their lengths.
 *   shape        n, then sixteen counts of checkpoints; 0 for absent processes.
 *   set, line    sixteen checkpoint numbers; 0 for absent processes.
 *   pair         two process numbers; 0 0 for none.
 *   lengths      how many bytes were written for each of sixteen processes; 0 for none.
 *   order        sixteen checkpoints restarted from (with purpose 1 the line's: nobody restarts), numbered as before the move;
 *                how many older ones are dropped, for each of sixteen; how many newer ones; and a list of what to send again.
 *   resend       a list of what to send again, as counted before the move: for each channel, sixteen rows of sixteen, a row for
 *                each sender, the first message that the checkpoints restarted from have sent and not received, 0 for none;
 *                then the last one, likewise. With purpose 1 nobody restarts: the list says what crosses the line.
 *   participant  n, process, initiator, purpose, stage, candidate; then sixteen counters of the row that it last reported, and
 *                sixteen of its column: what each other process is known to have sent to it.
 *   initiator    n, process, purpose, whether it has ended, candidate, rounds; then sixteen flags of who is awaited; the
 *                matrix, sixteen rows of sixteen counters, a row for each sender; and its copy, likewise.
 *   session      n, initiator, purpose; the initiator's words; a participant's words for each of sixteen processes (all zero
 *                for absent ones, and at the initiator's place); how many bytes wait on the strand of each of sixteen processes
 *                (0 for none, for absent ones and at the initiator's place); the count of messages delivered.
 * The names in a state (process, initiator, purpose) meet questions 10 and 11; in a session, those of the session, of the
 * initiator and of every participant's place that is not empty (all zero; of a counter the low 32 bits). A state that does
 * not decode for another reason (a stage above 2, a flag above 1, a counter or a count of rounds or deliveries of 2^32 or
 * more) fails question 13, as one does that does not fit the tables.
 *
 * Tables. `sent` and `received` have RECOVERY_LINE_TABLE_ENTRIES counters each: a row of sixteen for each checkpoint,
 * processes in order, oldest checkpoint first; place p - 1 of a row, counted from 0, is partner p. What is unused is zero.
 * Messages are counted from the present line, which is of the oldest checkpoints: these have received nothing, and have sent
 * what was on its way when the line became theirs.
 *
 * Books, journals, messages and lists are bytes: numbers in groups of seven bits, lowest first, the top bit of a byte set when
 * another group follows.
 *   message      kind, purpose, sender, count of pairs, then the pairs (process, counter), rising by process.
 *   journal      n, then the events in the order in which they happened: kind, process, and of what is sent or received the
 *                partner. It may end after any event, or after n.
 *   list         count of entries, then the entries (sender, receiver, first, last), rising by sender, then receiver.
 */
#ifndef RECOVERY_LINE_H
#define RECOVERY_LINE_H

#include <stddef.h>
#include <stdint.h>

/* Before what returns an answer: a caller who drops it is warned. */
#if (defined(__cplusplus) && __cplusplus >= 201703L) || (defined(__STDC_VERSION__) && __STDC_VERSION__ > 201710L)
#define RECOVERY_LINE_NODISCARD [[nodiscard]]
#elif defined(__GNUC__)
#define RECOVERY_LINE_NODISCARD __attribute__((__warn_unused_result__))
#else
#define RECOVERY_LINE_NODISCARD
#endif

#ifdef __cplusplus
extern "C" {
#endif

/* The version of this interface: it changes when a declaration, a layout or what a call means does, not when one is added. */
#define RECOVERY_LINE_VERSION 5

/* Bounds. */
#define RECOVERY_LINE_PROCESSES 16
#define RECOVERY_LINE_CHECKPOINTS 256
#define RECOVERY_LINE_BOOK_BYTES 65536
#define RECOVERY_LINE_JOURNAL_BYTES 65536
#define RECOVERY_LINE_GROUPS 5
#define RECOVERY_LINE_TABLE_ENTRIES (RECOVERY_LINE_CHECKPOINTS * RECOVERY_LINE_PROCESSES)
#define RECOVERY_LINE_MATRIX_ENTRIES (RECOVERY_LINE_PROCESSES * RECOVERY_LINE_PROCESSES)

/* Slices of words: how many each has, and where its parts begin. What stands in them is said above; every part begins where the
 * one before it ends. The first word of a shape, a participant, an initiator and a session is n. */
#define RECOVERY_LINE_N_AT 0
#define RECOVERY_LINE_SHAPE_COUNTS_AT 1
#define RECOVERY_LINE_SHAPE_WORDS (RECOVERY_LINE_SHAPE_COUNTS_AT + RECOVERY_LINE_PROCESSES)
#define RECOVERY_LINE_SET_WORDS RECOVERY_LINE_PROCESSES
#define RECOVERY_LINE_PAIR_WORDS 2
#define RECOVERY_LINE_LENGTHS_WORDS RECOVERY_LINE_PROCESSES

#define RECOVERY_LINE_RESEND_LAST_AT RECOVERY_LINE_MATRIX_ENTRIES
#define RECOVERY_LINE_RESEND_WORDS (RECOVERY_LINE_RESEND_LAST_AT + RECOVERY_LINE_MATRIX_ENTRIES)
#define RECOVERY_LINE_ORDER_BEFORE_AT RECOVERY_LINE_SET_WORDS
#define RECOVERY_LINE_ORDER_AFTER_AT (RECOVERY_LINE_ORDER_BEFORE_AT + RECOVERY_LINE_PROCESSES)
#define RECOVERY_LINE_ORDER_RESEND_AT (RECOVERY_LINE_ORDER_AFTER_AT + RECOVERY_LINE_PROCESSES)
#define RECOVERY_LINE_ORDER_WORDS (RECOVERY_LINE_ORDER_RESEND_AT + RECOVERY_LINE_RESEND_WORDS)

#define RECOVERY_LINE_PARTICIPANT_PROCESS_AT 1
#define RECOVERY_LINE_PARTICIPANT_INITIATOR_AT (RECOVERY_LINE_PARTICIPANT_PROCESS_AT + 1)
#define RECOVERY_LINE_PARTICIPANT_PURPOSE_AT (RECOVERY_LINE_PARTICIPANT_INITIATOR_AT + 1)
#define RECOVERY_LINE_PARTICIPANT_STAGE_AT (RECOVERY_LINE_PARTICIPANT_PURPOSE_AT + 1)
#define RECOVERY_LINE_PARTICIPANT_CANDIDATE_AT (RECOVERY_LINE_PARTICIPANT_STAGE_AT + 1)
#define RECOVERY_LINE_PARTICIPANT_ROW_AT (RECOVERY_LINE_PARTICIPANT_CANDIDATE_AT + 1)
#define RECOVERY_LINE_PARTICIPANT_COLUMN_AT (RECOVERY_LINE_PARTICIPANT_ROW_AT + RECOVERY_LINE_PROCESSES)
#define RECOVERY_LINE_PARTICIPANT_WORDS (RECOVERY_LINE_PARTICIPANT_COLUMN_AT + RECOVERY_LINE_PROCESSES)

#define RECOVERY_LINE_INITIATOR_PROCESS_AT 1
#define RECOVERY_LINE_INITIATOR_PURPOSE_AT (RECOVERY_LINE_INITIATOR_PROCESS_AT + 1)
#define RECOVERY_LINE_INITIATOR_ENDED_AT (RECOVERY_LINE_INITIATOR_PURPOSE_AT + 1)
#define RECOVERY_LINE_INITIATOR_CANDIDATE_AT (RECOVERY_LINE_INITIATOR_ENDED_AT + 1)
#define RECOVERY_LINE_INITIATOR_ROUNDS_AT (RECOVERY_LINE_INITIATOR_CANDIDATE_AT + 1)
#define RECOVERY_LINE_INITIATOR_AWAITED_AT (RECOVERY_LINE_INITIATOR_ROUNDS_AT + 1)
#define RECOVERY_LINE_INITIATOR_MATRIX_AT (RECOVERY_LINE_INITIATOR_AWAITED_AT + RECOVERY_LINE_PROCESSES)
#define RECOVERY_LINE_INITIATOR_COPY_AT (RECOVERY_LINE_INITIATOR_MATRIX_AT + RECOVERY_LINE_MATRIX_ENTRIES)
#define RECOVERY_LINE_INITIATOR_WORDS (RECOVERY_LINE_INITIATOR_COPY_AT + RECOVERY_LINE_MATRIX_ENTRIES)

/* The machine is the initiator's words. Those of the participant with number p begin (p - 1) * RECOVERY_LINE_PARTICIPANT_WORDS
 * after RECOVERY_LINE_SESSION_PARTICIPANTS_AT. */
#define RECOVERY_LINE_SESSION_INITIATOR_AT 1
#define RECOVERY_LINE_SESSION_PURPOSE_AT (RECOVERY_LINE_SESSION_INITIATOR_AT + 1)
#define RECOVERY_LINE_SESSION_MACHINE_AT (RECOVERY_LINE_SESSION_PURPOSE_AT + 1)
#define RECOVERY_LINE_SESSION_PARTICIPANTS_AT (RECOVERY_LINE_SESSION_MACHINE_AT + RECOVERY_LINE_INITIATOR_WORDS)
#define RECOVERY_LINE_SESSION_LENGTHS_AT \
    (RECOVERY_LINE_SESSION_PARTICIPANTS_AT + RECOVERY_LINE_PROCESSES * RECOVERY_LINE_PARTICIPANT_WORDS)
#define RECOVERY_LINE_SESSION_DELIVERED_AT (RECOVERY_LINE_SESSION_LENGTHS_AT + RECOVERY_LINE_PROCESSES)
#define RECOVERY_LINE_SESSION_WORDS (RECOVERY_LINE_SESSION_DELIVERED_AT + 1)

/* A participant's stage; whether an initiator has ended; whether it awaits a process. */
#define RECOVERY_LINE_STAGE_BEFORE 0 /* the invitation */
#define RECOVERY_LINE_STAGE_SEARCHING 1
#define RECOVERY_LINE_STAGE_ENDED 2
#define RECOVERY_LINE_NOT_ENDED 0
#define RECOVERY_LINE_ENDED 1
#define RECOVERY_LINE_NOT_AWAITED 0
#define RECOVERY_LINE_AWAITED 1

/* The most bytes of the four numbers before a message's pairs, and of a pair: a process of one byte, and a counter. */
#define RECOVERY_LINE_HEAD_SIZE 4
#define RECOVERY_LINE_PAIR_SIZE (1 + RECOVERY_LINE_GROUPS)

/* For n from 1 to 16: the longest message among n processes, and the bytes that always suffice for the messages of one step
 * of the initiator, and for a session's strands. */
#define RECOVERY_LINE_MESSAGE_BYTES(n) (RECOVERY_LINE_HEAD_SIZE + ((n) - 1) * RECOVERY_LINE_PAIR_SIZE)
#define RECOVERY_LINE_STRAND_BYTES(n) (((n) - 1) * RECOVERY_LINE_MESSAGE_BYTES(n))

/* The longest list: a count of two bytes, and for each channel two processes of one byte each and two numbers. */
#define RECOVERY_LINE_MOST_RESEND_BYTES \
    (2 + RECOVERY_LINE_PROCESSES * (RECOVERY_LINE_PROCESSES - 1) * (2 + 2 * RECOVERY_LINE_GROUPS))

/* The stack that suffices for every call: a tenth more than the most that was measured, rounded up. */
#define RECOVERY_LINE_STACK_BYTES 77824

/* An entry of a table: a counter. */
typedef uint32_t recovery_line_counter;

/* A counter that is not known, in a state's rows, columns and matrices and in a lent column; never in tables or messages. */
#define RECOVERY_LINE_NOT_KNOWN 4294967295u

/* Purposes.
 * 1: the line's checkpoints become the oldest; older ones are dropped, newer ones are kept.
 * 2: no search: everybody goes back to checkpoint 1, and newer ones are dropped.
 * 3: both: only the line's checkpoints are kept, and everybody restarts from them. */
#define RECOVERY_LINE_ADVANCE 1
#define RECOVERY_LINE_RESTART 2
#define RECOVERY_LINE_ADVANCE_AND_RESTART 3

/* Kinds of messages. */
#define RECOVERY_LINE_INVITATION 1
#define RECOVERY_LINE_OTHER_MESSAGE 2

/* Kinds of events in a journal. */
#define RECOVERY_LINE_EVENT_SENT 1 /* by the process to the partner */
#define RECOVERY_LINE_EVENT_RECEIVED 2 /* by the process from the partner */
#define RECOVERY_LINE_EVENT_CHECKPOINT 3

/* The answer of a call that accepts, and of one that is lent a slice of words, or of sixteen counters, of the wrong length. */
#define RECOVERY_LINE_ACCEPTED 0
#define RECOVERY_LINE_WRONG_LENGTH 100

/* Gives the version of the archive, which is to be RECOVERY_LINE_VERSION.
 * Questions: none.
 * Stack: 1024 bytes. */
RECOVERY_LINE_NODISCARD uint32_t recovery_line_version(void);

/* Gives the sentence of a question, by the number that a call has answered. */
static inline const char *recovery_line_question(uint32_t question) {
    switch (question) {
    case RECOVERY_LINE_ACCEPTED: return "Accepted.";
    case 1: return "Are there at most 65,536 book bytes?";
    case 2: return "Has each table 4,096 entries?";
    case 3: return "Is the number whole, shortest, at most 5 bytes and 4,294,967,295?";
    case 4: return "Is n from 1 to 16?";
    case 5: return "Is the count at least 1 and the sum so far at most 256?";
    case 6: return "Is the counter other than 4,294,967,295?";
    case 7: return "Of a received counter: is it zero, in an oldest checkpoint?";
    case 8: return "Is it no lower than the same counter one checkpoint before?";
    case 9: return "Does nothing follow, and in tables, is everything unused zero?";
    case 10: return "Is each process named from 1 to n (a participant: other than the initiator)?";
    case 11: return "Is the purpose 1, 2 or 3?";
    case 12: return "Does each named checkpoint exist?";
    case 13: return "Does the state fit the tables?";
    case 14: return "Is the message formed (purposes 1 to 3, processes 1 to n), purpose 2 only in an invitation?";
    case 15: return "Is it awaited here: right sender, purpose, kind, and in a first report (the sender's row all "
                    "\"not known\") n - 1 pairs?";
    case 16: return "Is each counter lower than the entry now held (by the initiator, in its matrix)?";
    case 17: return "Do the bytes to be written fit the buffer?";
    case 18: return "Is a message waiting on that strand?";
    case 19: return "Is the event formed: its kind 1, 2 or 3, its numbers, and a partner other than the process?";
    case 20: return "Of a receipt: is a message underway from the partner to the process?";
    case 21: return "Does the list rise by sender, then receiver, with two processes and a first message from 1 to the last "
                    "in each entry, and nothing after it?";
    case RECOVERY_LINE_WRONG_LENGTH: return "A slice of words, or of sixteen counters, has the wrong length.";
    default: return "The specification has no such question.";
    }
}

/* Reads a checkpoint book: its counters into the two tables, every entry of both, and its shape.
 * Questions: 1, 2, then along the book, number by number, 3 to 9.
 * Stack: 36864 bytes. */
RECOVERY_LINE_NODISCARD uint32_t recovery_line_read(
    const uint8_t *bytes, size_t bytes_len, uint64_t *shape, size_t shape_len,
    recovery_line_counter *sent, size_t sent_len, recovery_line_counter *received, size_t received_len);

/* Reads a journal: the counters of the book that it builds into the two tables, every entry of both, and its shape. Checkpoint 1
 * of every process is there from the start; what a process does after its last checkpoint is in no counter.
 * Questions: 1, 2, of n 3 and 4, then event by event 19, 10, 20, 5.
 * Stack: 5120 bytes. */
RECOVERY_LINE_NODISCARD uint32_t recovery_line_journal(
    const uint8_t *bytes, size_t bytes_len, uint64_t *shape, size_t shape_len,
    recovery_line_counter *sent, size_t sent_len, recovery_line_counter *received, size_t received_len);

/* Checks lent tables, and changes nothing.
 * Questions of tables, which every call below puts first: 2, 4, all of 5, then 6 to 8 in book order, then 9.
 * Stack: 1024 bytes. */
RECOVERY_LINE_NODISCARD uint32_t recovery_line_check(
    const uint64_t *shape, size_t shape_len, const recovery_line_counter *sent, size_t sent_len,
    const recovery_line_counter *received, size_t received_len);

/* Writes the book of the tables to the start of `out`, and its length; the bytes after it stay. RECOVERY_LINE_BOOK_BYTES
 * bytes always suffice.
 * Questions: the tables', 17.
 * Stack: 5120 bytes. */
RECOVERY_LINE_NODISCARD uint32_t recovery_line_write(
    const uint64_t *shape, size_t shape_len, const recovery_line_counter *sent, size_t sent_len,
    const recovery_line_counter *received, size_t received_len, uint8_t *out, size_t out_len, uint64_t *length);

/* Tests a set: `pair` becomes 0 0 if it is consistent, and else the first pair (j, p) at fault, of the lowest j and for it the
 * lowest p: j's checkpoint received more from p than p's sent to j.
 * Questions: the tables', 12.
 * Stack: 2048 bytes. */
RECOVERY_LINE_NODISCARD uint32_t recovery_line_test_set(
    const uint64_t *shape, size_t shape_len, const recovery_line_counter *sent, size_t sent_len,
    const recovery_line_counter *received, size_t received_len, const uint64_t *set, size_t set_len,
    uint64_t *pair, size_t pair_len);

/* Tests one checkpoint of a process against a column, `known`: what each of sixteen processes is known to have sent to that
 * process. `partner` becomes the lowest process from which the checkpoint received more than that, and 0 exactly if there is
 * none. What is RECOVERY_LINE_NOT_KNOWN permits everything; the entries of the process itself and of absent ones do not matter.
 * Questions: the tables', 10, 12.
 * Stack: 2048 bytes. */
RECOVERY_LINE_NODISCARD uint32_t recovery_line_test_checkpoint(
    const uint64_t *shape, size_t shape_len, const recovery_line_counter *sent, size_t sent_len,
    const recovery_line_counter *received, size_t received_len, uint64_t process, uint64_t checkpoint,
    const recovery_line_counter *known, size_t known_len, uint64_t *partner);

/* Finds the line, and how many checkpoints are newer than the line's.
 * Questions: the tables'.
 * Stack: 2048 bytes. */
RECOVERY_LINE_NODISCARD uint32_t recovery_line_find(
    const uint64_t *shape, size_t shape_len, const recovery_line_counter *sent, size_t sent_len,
    const recovery_line_counter *received, size_t received_len, uint64_t *line, size_t line_len, uint64_t *passed);

/* Makes a participant's first state, before its invitation. Beyond the check, the calls of the machines go by n and the rows of
 * their own process: who has no others lends one checkpoint of zeros for each other process. (On such tables a set is not
 * tested, no line found or moved and no session run: those need the whole book.) A checkpoint that the worker takes while its
 * machine runs is lent after the search: before, question 13 refuses it where what the machine knows, an initiator when its
 * present wait began, permits that checkpoint; so it always does before a participant is invited, and in an initiator's first
 * wait. Messages are carried as rline_machines.h says: each to its receiver, once and whole.
 * Questions: the tables', 10, 11.
 * Stack: 2048 bytes. */
RECOVERY_LINE_NODISCARD uint32_t recovery_line_participant_first(
    const uint64_t *shape, size_t shape_len, const recovery_line_counter *sent, size_t sent_len,
    const recovery_line_counter *received, size_t received_len, uint64_t me, uint64_t initiator, uint64_t purpose,
    uint64_t *state, size_t state_len);

/* A participant receives a message: its state after the step, its report at the start of `out`, and the length for each
 * process; what ends it is not answered, and all lengths are 0 then. RECOVERY_LINE_MESSAGE_BYTES(n) bytes always suffice.
 * Questions: the tables', 10, 11, 13, 14, 15, 16, 17.
 * Stack: 6144 bytes. */
RECOVERY_LINE_NODISCARD uint32_t recovery_line_participant_receive(
    uint64_t *state, size_t state_len, const uint64_t *shape, size_t shape_len,
    const recovery_line_counter *sent, size_t sent_len, const recovery_line_counter *received, size_t received_len,
    const uint8_t *message, size_t message_len, uint8_t *out, size_t out_len, uint64_t *lengths, size_t lengths_len);

/* Process `me` begins a search, or with purpose 2 a bare restart: its first state, and the invitations at the start of
 * `out`, one after another, rising by receiver, with the length for each process. RECOVERY_LINE_STRAND_BYTES(n) bytes always
 * suffice.
 * Questions: the tables', 10, 11, 17.
 * Stack: 17408 bytes. */
RECOVERY_LINE_NODISCARD uint32_t recovery_line_initiator_begin(
    const uint64_t *shape, size_t shape_len, const recovery_line_counter *sent, size_t sent_len,
    const recovery_line_counter *received, size_t received_len, uint64_t me, uint64_t purpose,
    uint64_t *state, size_t state_len, uint8_t *out, size_t out_len, uint64_t *lengths, size_t lengths_len);

/* An initiator receives a report: its state after the step, and what it sends (nothing, polls or terminations) as
 * `recovery_line_initiator_begin` writes invitations. RECOVERY_LINE_STRAND_BYTES(n) bytes always suffice.
 * Questions: the tables', 10, 11, 13, 14, 15, 16, 17.
 * Stack: 21504 bytes. */
RECOVERY_LINE_NODISCARD uint32_t recovery_line_initiator_receive(
    uint64_t *state, size_t state_len, const uint64_t *shape, size_t shape_len,
    const recovery_line_counter *sent, size_t sent_len, const recovery_line_counter *received, size_t received_len,
    const uint8_t *message, size_t message_len, uint8_t *out, size_t out_len, uint64_t *lengths, size_t lengths_len);

/* Starts a session: all machines of one search in one place. Each invitation waits at the start of its strand's slot in
 * `strands`: RECOVERY_LINE_MESSAGE_BYTES(n) bytes for each participant, in rising order, none for the initiator; every other
 * byte stays. RECOVERY_LINE_STRAND_BYTES(n) bytes always suffice.
 * Questions: the tables', 10, 11, 17.
 * Stack: 40960 bytes. */
RECOVERY_LINE_NODISCARD uint32_t recovery_line_session_start(
    const uint64_t *shape, size_t shape_len, const recovery_line_counter *sent, size_t sent_len,
    const recovery_line_counter *received, size_t received_len, uint64_t initiator, uint64_t purpose,
    uint64_t *session, size_t session_len, uint8_t *strands, size_t strands_len);

/* A turn: the message that waits on process p's strand is delivered, and the replies wait then. Session, strands and tables are
 * as the start or the turn before left them. RECOVERY_LINE_STRAND_BYTES(n) bytes always suffice. What then holds after every
 * list of turns, in whatever order, is proved of these words: docs/PROVED.md, "Demand 3 for callers from C, C++ and Rust".
 * Questions: the tables', 10, 11, 13, 17, 18.
 * Stack: 69632 bytes. */
RECOVERY_LINE_NODISCARD uint32_t recovery_line_session_turn(
    uint64_t *session, size_t session_len, const uint64_t *shape, size_t shape_len,
    const recovery_line_counter *sent, size_t sent_len, const recovery_line_counter *received, size_t received_len,
    uint64_t p, uint8_t *strands, size_t strands_len);

/* A search from its start to its end, lowest waiting strand first: the set on which everybody ended, how many checkpoints are
 * newer than it, and the rounds and messages that it took. With purpose 1 or 3 `set` is the line; with purpose 2 checkpoint 1
 * everywhere. It needs the whole book.
 * Questions: the tables', 10, 11.
 * Stack: 55296 bytes. */
RECOVERY_LINE_NODISCARD uint32_t recovery_line_search(
    const uint64_t *shape, size_t shape_len, const recovery_line_counter *sent, size_t sent_len,
    const recovery_line_counter *received, size_t received_len, uint64_t initiator, uint64_t purpose,
    uint64_t *set, size_t set_len, uint64_t *newer, uint64_t *rounds, uint64_t *messages);

/* Moves the line in the tables, every entry of both, with their shape, and gives the restart order. For every two processes a
 * and b, what b's line checkpoint (with purpose 2 checkpoint 1, so nothing) had received from a is taken off both a's counters
 * of what it sent to b and b's counters of what it received from a.
 * Questions: the tables', 11.
 * Stack: 29696 bytes. */
RECOVERY_LINE_NODISCARD uint32_t recovery_line_move(
    uint64_t *shape, size_t shape_len, recovery_line_counter *sent, size_t sent_len,
    recovery_line_counter *received, size_t received_len, uint64_t purpose, uint64_t *order, size_t order_len);

/* Gives the restart order that `recovery_line_move` would give, and moves nothing.
 * Questions: the tables', 11.
 * Stack: 30720 bytes. */
RECOVERY_LINE_NODISCARD uint32_t recovery_line_restart_order(
    const uint64_t *shape, size_t shape_len, const recovery_line_counter *sent, size_t sent_len,
    const recovery_line_counter *received, size_t received_len, uint64_t purpose, uint64_t *order, size_t order_len);

/* Writes the list of the restart order for a purpose to the start of `out`, and its length; the bytes after it stay.
 * RECOVERY_LINE_MOST_RESEND_BYTES bytes always suffice.
 * Questions: the tables', 11, 17.
 * Stack: 30720 bytes. */
RECOVERY_LINE_NODISCARD uint32_t recovery_line_write_resend(
    const uint64_t *shape, size_t shape_len, const recovery_line_counter *sent, size_t sent_len,
    const recovery_line_counter *received, size_t received_len, uint64_t purpose, uint8_t *out, size_t out_len,
    uint64_t *length);

/* Reads a list of what to send again among n processes into `resend`, every word of it.
 * Questions: 4 of n, 3 of the count, then entry by entry 3 of all four numbers, 10, 21, and 21 of the end.
 * Stack: 5120 bytes. */
RECOVERY_LINE_NODISCARD uint32_t recovery_line_read_resend(
    uint64_t n, const uint8_t *bytes, size_t bytes_len, uint64_t *resend, size_t resend_len);

#ifdef __cplusplus
}
#endif

#endif
