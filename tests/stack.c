/*
 * Measures how many bytes of stack each call uses: it runs the call on a stack of its own that was painted before, and looks
 * how far down the paint is gone. Prints a line for each function: its name, and the most that any of its calls took.
 */
#define _GNU_SOURCE
#include "stack_calls.h"

#include <stdbool.h>
#include <stdio.h>
#include <stdlib.h>
#include <string.h>
#include <sys/mman.h>
#include <ucontext.h>
#include <unistd.h>

/* The painted stack; below it lies a page that cannot be touched. */
enum { STACK = 1 << 20 };
static uint64_t *stack;
static uint64_t paint;
static ucontext_t caller;
static uint32_t (*running)(void);
static uint32_t answer;
static uint8_t *top;

static void stop(const char *why) {
    fprintf(stderr, "stack: %s\n", why);
    exit(2);
}

static void make_stack(void) {
    size_t page = (size_t)sysconf(_SC_PAGESIZE);
    uint8_t *start = (uint8_t *)mmap(NULL, STACK + page, PROT_READ | PROT_WRITE, MAP_PRIVATE | MAP_ANONYMOUS, -1, 0);
    if (start == MAP_FAILED || mprotect(start, page, PROT_NONE) != 0) {
        stop("no memory for a stack");
    }
    stack = (uint64_t *)(void *)(start + page);
}

static void paint_from(size_t word) {
    for (size_t i = word; i < STACK / sizeof *stack; i++) {
        stack[i] = paint;
    }
}

static void enter(void) {
    top = (uint8_t *)__builtin_frame_address(0);
    answer = running();
}

/* Runs a call on the painted stack; how far down it has written, in bytes from where it was called. */
static size_t run_painted(uint32_t (*run)(void)) {
    ucontext_t painted;
    if (getcontext(&painted) != 0) {
        stop("no context");
    }
    painted.uc_stack.ss_sp = stack;
    painted.uc_stack.ss_size = STACK;
    painted.uc_link = &caller;
    makecontext(&painted, enter, 0);
    running = run;
    if (swapcontext(&caller, &painted) != 0) {
        stop("no change of context");
    }
    size_t lowest = 0;
    while (stack[lowest] == paint) {
        lowest++;
    }
    paint_from(lowest);
    return (size_t)(top - (uint8_t *)&stack[lowest]);
}

/* Makes a call, measured, and gives its answer. */
static uint32_t measure(enum call call) {
    size_t used = run_painted(calls[call].run);
    calls[call].times++;
    if (used > calls[call].most) {
        calls[call].most = used;
    }
    return answer;
}

static void accepted(enum call call) {
    if (measure(call) != RECOVERY_LINE_ACCEPTED) {
        fprintf(stderr, "stack: %s is refused by %u\n", calls[call].name, (unsigned)answer);
        exit(2);
    }
}

/* Tables of n processes with that many checkpoints each, whose counters rise by `step`. Where they fall, each checkpoint has
 * received more from the process before than that one's checkpoint of the same number sent: all go back to the oldest. */
static void make_tables(unsigned n, unsigned each, recovery_line_counter step, bool fall) {
    memset(shape, 0, sizeof shape);
    memset(sent, 0, sizeof sent);
    memset(received, 0, sizeof received);
    shape[0] = n;
    for (unsigned j = 0; j < n; j++) {
        shape[RECOVERY_LINE_SHAPE_COUNTS_AT + j] = each;
        for (unsigned r = 1; r < each; r++) {
            for (unsigned p = 0; p < n; p++) {
                unsigned entry = (j * each + r) * PROCESSES + p;
                if (p != j) {
                    sent[entry] = r * step;
                    received[entry] = fall && p == (j + n - 1) % n ? r * step + 1 : r * step / 2;
                }
            }
        }
    }
}

static void log_event(unsigned kind, unsigned process, unsigned partner) {
    const uint8_t event[] = {(uint8_t)kind, (uint8_t)process, (uint8_t)partner};
    size_t size = kind == RECOVERY_LINE_EVENT_CHECKPOINT ? 2 : 3;
    memcpy(journal + journal_length, event, size);
    journal_length += size;
}

/* A journal of n processes: `checkpoints` events of each, then, among several processes, messages up to that many bytes. */
static void make_journal(unsigned n, unsigned checkpoints, size_t bytes) {
    journal[0] = (uint8_t)n;
    journal_length = 1;
    for (unsigned event = 0; event < n * checkpoints; event++) {
        log_event(RECOVERY_LINE_EVENT_CHECKPOINT, event % n + 1, 0);
    }
    for (unsigned j = 1; n > 1 && journal_length + 6 <= bytes; j = j % n + 1) {
        log_event(RECOVERY_LINE_EVENT_SENT, j, j % n + 1);
        log_event(RECOVERY_LINE_EVENT_RECEIVED, j % n + 1, j);
    }
}

/* A journal, and the same with an event after it that 19, 10, 20 or 5 refuses. */
static void measure_journal(unsigned n, unsigned checkpoints, size_t bytes) {
    const uint8_t refused[][3] = {{4, 1, 1}, {3, 17, 1}, {2, 1, 2}, {3, 1, 3}};
    make_journal(n, checkpoints, bytes);
    accepted(JOURNAL);
    size_t length = (size_t)journal_length;
    for (size_t i = 0; i < sizeof refused / sizeof refused[0] && length + 3 <= sizeof journal; i++) {
        memcpy(journal + length, refused[i], 3);
        journal_length = length + 3;
        measure(JOURNAL);
    }
}

static void measure_journals(void) {
    measure_journal(1, 0, 1);
    measure_journal(1, 255, 1);
    measure_journal(2, 127, 2000);
    measure_journal(16, 15, 2000);
    measure_journal(16, 15, RECOVERY_LINE_JOURNAL_BYTES);
}

/* The calls on books and sets, refused ones too. */
static void measure_books(void) {
    accepted(CHECK);
    accepted(WRITE);
    accepted(READ);
    book_length--;
    measure(READ);
    book_length++;
    for (unsigned p = 0; p < PROCESSES; p++) {
        set[p] = shape[RECOVERY_LINE_SHAPE_COUNTS_AT + p];
    }
    accepted(TEST_SET);
    accepted(FIND);
    memcpy(set, line, sizeof set);
    accepted(TEST_SET);
    set[0] = 0;
    measure(TEST_SET);
}

/* The newest checkpoints of the first and the last process, against nothing known and nothing sent, and one that there is not. */
static void measure_checkpoints(void) {
    for (me = 1; me <= shape[0]; me += shape[0] > 1 ? shape[0] - 1 : 1) {
        checkpoint = shape[RECOVERY_LINE_SHAPE_COUNTS_AT + me - 1];
        for (unsigned p = 0; p < PROCESSES; p++) {
            known[p] = RECOVERY_LINE_NOT_KNOWN;
        }
        accepted(TEST_CHECKPOINT);
        memset(known, 0, sizeof known);
        accepted(TEST_CHECKPOINT);
        checkpoint++;
        measure(TEST_CHECKPOINT);
    }
    measure(TEST_CHECKPOINT);
}

/* The list of the order, in its room and in less, and read, whole and damaged. */
static void measure_lists(void) {
    list_room = sizeof list;
    if (measure(WRITE_RESEND) == RECOVERY_LINE_ACCEPTED) {
        list_n = shape[0];
        accepted(READ_RESEND);
        list[list_length++] = 0;
        measure(READ_RESEND);
        list_length -= 2;
        measure(READ_RESEND);
        list_n = 0;
        measure(READ_RESEND);
    }
    list_room = 0;
    measure(WRITE_RESEND);
}

static void measure_moves(void) {
    for (purpose = 1; purpose <= 4; purpose++) {
        measure_lists();
        measure(RESTART_ORDER);
        measure(MOVE);
        accepted(READ);
    }
}

/* A session's turns to its end, lowest or highest waiting strand first, with a refused turn before each. */
static void measure_session(bool highest) {
    const uint64_t *waiting = session + RECOVERY_LINE_SESSION_LENGTHS_AT;
    accepted(SESSION_START);
    for (;;) {
        unsigned chosen = 0;
        for (unsigned p = 1; p <= PROCESSES; p++) {
            if (waiting[p - 1] != 0 && (highest || chosen == 0)) {
                chosen = p;
            }
        }
        if (chosen == 0) {
            return;
        }
        me = chosen % shape[0] + 1;
        if (waiting[me - 1] == 0) {
            measure(SESSION_TURN);
        }
        me = chosen;
        accepted(SESSION_TURN);
    }
}

/* Delivers a participant's message and then its report; whether the initiator has answered. */
static bool measure_exchange(uint64_t p, const uint8_t *bytes, size_t length) {
    me = p;
    message = bytes;
    message_length = length - 1;
    measure(PARTICIPANT_RECEIVE);
    message_length = length;
    accepted(PARTICIPANT_RECEIVE);
    size_t reported = (size_t)lengths[first - 1];
    if (reported == 0) {
        return false;
    }
    uint8_t report[sizeof out];
    memcpy(report, out, sizeof report);
    message = report;
    message_length = reported - 1;
    measure(INITIATOR_RECEIVE);
    message_length = reported;
    accepted(INITIATOR_RECEIVE);
    for (unsigned q = 0; q < PROCESSES; q++) {
        if (lengths[q] != 0) {
            return true;
        }
    }
    return false;
}

/* The machines by themselves, from the invitations to the end. */
static void measure_machines(void) {
    for (me = 1; me <= shape[0]; me++) {
        if (me != first) {
            accepted(PARTICIPANT_FIRST);
        }
    }
    accepted(INITIATOR_BEGIN);
    for (bool more = true; more;) {
        uint8_t sending[sizeof out];
        uint64_t sending_lengths[PROCESSES];
        memcpy(sending, out, sizeof out);
        memcpy(sending_lengths, lengths, sizeof lengths);
        const uint8_t *next = sending;
        more = false;
        for (uint64_t p = 1; p <= PROCESSES; p++) {
            size_t length = (size_t)sending_lengths[p - 1];
            if (length != 0) {
                more = measure_exchange(p, next, length);
                next += length;
            }
        }
    }
}

static void measure_all(void) {
    accepted(WRITE);
    measure_books();
    measure_checkpoints();
    for (purpose = 1; purpose <= 3; purpose++) {
        for (first = 1; first <= shape[0]; first += shape[0] > 1 ? shape[0] - 1 : 1) {
            accepted(SEARCH);
            measure_session(purpose == 1);
            measure_machines();
        }
    }
    measure_moves();
}

int main(void) {
    const uint64_t paints[] = {0xA5A5A5A55A5A5A5Au, 0x0123456789ABCDEFu};
    make_stack();
    for (int i = 0; i < 2; i++) {
        paint = paints[i];
        paint_from(0);
        measure(VERSION);
        measure_journals();
        make_tables(1, 1, 0, false);
        measure_all();
        make_tables(1, 256, 0, false);
        measure_all();
        make_tables(3, 2, 5, true);
        measure_all();
        make_tables(2, 128, 33000000, true);
        measure_all();
        make_tables(16, 16, 286331152, false);
        measure_all();
        make_tables(16, 16, 286331152, true);
        measure_all();
    }
    for (int c = 0; c < CALLS; c++) {
        printf("recovery_line_%s %zu %lu\n", calls[c].name, calls[c].most, calls[c].times);
    }
    return 0;
}
