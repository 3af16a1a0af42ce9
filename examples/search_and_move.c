/*
 * Workers look for their recovery line by messages, and then move it.
 *
 *     cc -std=c11 -I include examples/search_and_move.c target/staticlib/librecovery_line.a -o search_and_move
 *     ./search_and_move
 *
 * `./search_and_move BOOK` takes the checkpoint book in the file BOOK, and without it the example takes a small one of its own.
 * Each worker has its own machine, which it lends its own checkpoints alone. Messages wait in one list, and the newest is
 * delivered first: any other order ends on the same line.
 */
#include "rline.h"

#include <inttypes.h>
#include <stdio.h>
#include <stdlib.h>

#define PURPOSE RECOVERY_LINE_ADVANCE_AND_RESTART

/* A message on its way. */
struct letter {
    rline_process from, to;
    rline_message message;
};

/* Three processes with two checkpoints each: process 1's newest has received 4 messages from process 2, of whose sending
 * process 2's newest has recorded only 3. */
static const uint8_t own_book[] = {
    3,                         /* processes */
    2, 0, 0, 0, 0, 0, 0, 4, 5, /* process 1: its checkpoints, and for each what it sent and received */
    2, 0, 0, 0, 0, 3, 0, 0, 0, /* process 2 */
    2, 0, 0, 0, 0, 7, 0, 0, 0, /* process 3 */
};

/* The whole book in memory. A real worker has no such thing: here it gives the workers their checkpoints, and in the end it
 * shows that they have found the line. */
static rline_tables book;

/* What a worker has: its own checkpoints, and once it is invited a machine. */
struct worker {
    rline_tables own;
    rline_participant machine;
    int invited;
};

/* Process p is workers[p - 1]. The first begins, with another kind of machine. */
static struct worker workers[RECOVERY_LINE_PROCESSES];
static const rline_process first = {1};
static rline_initiator initiator;

/* The messages on their way: at most one between the initiator and each other worker. */
static struct letter letters[RECOVERY_LINE_PROCESSES];
static size_t waiting;

static void stop(const char *why) {
    fprintf(stderr, "%s\n", why);
    exit(EXIT_FAILURE);
}

static void accepted(uint32_t answer) {
    if (answer != RECOVERY_LINE_ACCEPTED) {
        fprintf(stderr, "refused by question %" PRIu32 ": %s\n", answer, recovery_line_question(answer));
        exit(EXIT_FAILURE);
    }
}

static void print_bytes(const uint8_t *bytes, size_t length) {
    for (size_t i = 0; i < length; i++) {
        printf(" %02X", (unsigned)bytes[i]);
    }
    printf("\n");
}

/* Reads the book that a file holds, or the example's own. */
static void read_book(const char *file) {
    static uint8_t bytes[RECOVERY_LINE_BOOK_BYTES + 1]; /* one more, so that a longer book is refused */
    if (file == NULL) {
        accepted(rline_read(&book, own_book, sizeof own_book));
        return;
    }
    FILE *opened = fopen(file, "rb");
    if (opened == NULL) {
        stop("the book cannot be opened");
    }
    size_t length = fread(bytes, 1, sizeof bytes, opened);
    int failed = ferror(opened);
    fclose(opened);
    if (failed) {
        stop("the book cannot be read");
    }
    accepted(rline_read(&book, bytes, length));
}

/* Gives a worker its own checkpoints: a real one has kept them itself, with rline_count_sent and rline_count_received. */
static void give_own(rline_process worker) {
    static rline_counts checkpoints[RECOVERY_LINE_CHECKPOINTS];
    size_t count = (size_t)rline_checkpoints(&book, worker);
    for (size_t i = 0; i < count; i++) {
        checkpoints[i] = rline_counts_at(&book, worker, rline_checkpoint_number(i + 1));
    }
    accepted(rline_own_tables(&workers[worker.number - 1].own, rline_processes(&book), worker, checkpoints, count));
}

/* Sends what a step has written. */
static void send_all(rline_process from, const rline_messages *out) {
    for (uint64_t p = 1; p <= rline_processes(&book); p++) {
        struct letter letter = {from, {p}, rline_message_to(out, rline_process_number(p))};
        if (letter.message.length != 0) {
            letters[waiting++] = letter;
        }
    }
}

/* The first worker begins: it sends the invitations. */
static void begin(void) {
    static rline_messages invitations;
    accepted(rline_initiator_begin(&initiator, &workers[first.number - 1].own, first, PURPOSE, &invitations));
    send_all(first, &invitations);
}

/* Another worker receives a message. The first is its invitation, which says who begins and for what. */
static void participate(rline_process me, const rline_message *message, rline_messages *out) {
    struct worker *worker = &workers[me.number - 1];
    if (!worker->invited) {
        accepted(rline_participant_first(&worker->machine, &worker->own, me, rline_message_sender(message),
                                         rline_message_purpose(message)));
        worker->invited = 1;
    }
    accepted(rline_participant_receive(&worker->machine, &worker->own, *message, out));
}

/* Delivers a message to its receiver, and sends what that answers with. */
static void deliver(const struct letter *letter) {
    static rline_messages out;
    if (letter->to.number == first.number) {
        accepted(rline_initiator_receive(&initiator, &workers[first.number - 1].own, letter->message, &out));
    } else {
        participate(letter->to, &letter->message, &out);
    }
    send_all(letter->to, &out);
}

/* Delivers messages until none waits, and counts them. */
static unsigned search(void) {
    unsigned delivered = 0;
    begin();
    while (waiting > 0) {
        struct letter letter = letters[--waiting];
        printf("%" PRIu64 " to %" PRIu64 ":", letter.from.number, letter.to.number);
        print_bytes(letter.message.bytes, letter.message.length);
        deliver(&letter);
        delivered++;
    }
    return delivered;
}

/* Whether a worker has ended, and stands on that checkpoint. */
static int has_ended_on(rline_process worker, rline_checkpoint checkpoint) {
    if (worker.number == first.number) {
        return rline_initiator_ended(&initiator) && rline_initiator_candidate(&initiator).number == checkpoint.number;
    }
    const rline_participant *machine = &workers[worker.number - 1].machine;
    return rline_participant_ended(machine) && rline_participant_candidate(machine).number == checkpoint.number;
}

/* Finds the line, which needs the whole book, holds every worker against it, and prints it. */
static void compare_with_line(void) {
    rline_line line;
    accepted(rline_find(&book, &line));
    printf("line");
    for (uint64_t p = 1; p <= rline_processes(&book); p++) {
        rline_checkpoint checkpoint = rline_set_get(&line.set, rline_process_number(p));
        if (!has_ended_on(rline_process_number(p), checkpoint)) {
            stop("some worker has not ended on the line");
        }
        printf(" %" PRIu64, checkpoint.number);
    }
    printf("\npassed %" PRIu64 "\n", line.passed);
}

/* Prints what everybody sends again: messages that crossed the line. */
static void print_repeats(const rline_order *order) {
    for (uint64_t p = 1; p <= rline_processes(&book); p++) {
        for (uint64_t q = 1; q <= rline_processes(&book); q++) {
            rline_repeat repeat = rline_order_repeat(order, rline_process_number(p), rline_process_number(q));
            if (repeat.first != 0) {
                printf("process %" PRIu64 " sends process %" PRIu64 " messages ", p, q);
                printf("%" PRIu64 " to %" PRIu64 " again\n", repeat.first, repeat.last);
            }
        }
    }
}

/* Moves the line, which needs the whole book, and prints from where everybody restarts, what is sent again and the new book. */
static void move_line(void) {
    static uint8_t bytes[RECOVERY_LINE_BOOK_BYTES];
    static rline_order order;
    size_t length;
    accepted(rline_move(&book, PURPOSE, &order));
    for (uint64_t p = 1; p <= rline_processes(&book); p++) {
        rline_restart restart = rline_order_get(&order, rline_process_number(p));
        printf("process %" PRIu64 " restarts from checkpoint %" PRIu64, p, restart.from.number);
        printf("; before it %" PRIu64 " go, after it %" PRIu64 "\n", restart.before, restart.after);
    }
    print_repeats(&order);
    accepted(rline_write(&book, bytes, sizeof bytes, &length));
    printf("new book");
    print_bytes(bytes, length);
}

int main(int argc, char **argv) {
    if (!rline_version_fits()) {
        stop("rline.h and librecovery_line.a have different versions");
    }
    read_book(argc > 1 ? argv[1] : NULL);
    printf("processes %" PRIu64 "\n", rline_processes(&book));
    for (uint64_t p = 1; p <= rline_processes(&book); p++) {
        give_own(rline_process_number(p));
    }
    unsigned delivered = search();
    compare_with_line();
    printf("rounds %" PRIu64 "\nmessages %u\n", rline_initiator_rounds(&initiator), delivered);
    move_line();
    return EXIT_SUCCESS;
}
