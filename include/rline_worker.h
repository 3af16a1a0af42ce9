/*
 * The part of rline.h on what a worker keeps of its own: include that file.
 */
#ifndef RLINE_H
#error "include rline.h"
#endif
#ifndef RLINE_WORKER_H
#define RLINE_WORKER_H

/* What a process has sent to and received from each other one, counted from the present line (rline_move says what a move
 * takes off); place p - 1 is partner p. A copy of it is a checkpoint. Its own place and those of absent processes stay 0: tables
 * in which they are not are refused by 9. */
typedef struct rline_counts {
    recovery_line_counter sent[RECOVERY_LINE_PROCESSES], received[RECOVERY_LINE_PROCESSES];
} rline_counts;

/* The questions that are put before the check. */
#define RLINE_WRONG_N 4
#define RLINE_WRONG_COUNT 5
#define RLINE_WRONG_PROCESS 10

/* Counts one more. RECOVERY_LINE_NOT_KNOWN is no counter: what has come to it stays there, and tables that hold it are refused
 * by 6. */
static inline void rline_count(recovery_line_counter *counters, rline_process partner) {
    if (rline_is_process(partner) && counters[partner.number - 1] != RECOVERY_LINE_NOT_KNOWN) {
        counters[partner.number - 1]++;
    }
}

/* One message more was sent to the partner. Does nothing for one that is not from 1 to 16. */
static inline void rline_count_sent(rline_counts *counts, rline_process partner) {
    rline_count(counts->sent, partner);
}

/* One message more was received from the partner. Does nothing for one that is not from 1 to 16. */
static inline void rline_count_received(rline_counts *counts, rline_process partner) {
    rline_count(counts->received, partner);
}

/* The row of a checkpoint in the tables, which is after all rows of the processes before. Where there is no such checkpoint, or
 * the shape has more than there may be, RECOVERY_LINE_CHECKPOINTS: one more than the last row. */
RECOVERY_LINE_NODISCARD static inline size_t rline_row(const rline_tables *tables, rline_process process,
                                                       rline_checkpoint checkpoint) {
    const uint64_t rows = RECOVERY_LINE_CHECKPOINTS;
    uint64_t row = 0;
    if (checkpoint.number < 1 || checkpoint.number > rline_checkpoints(tables, process)) {
        return RECOVERY_LINE_CHECKPOINTS;
    }
    for (uint64_t p = 1; p < process.number; p++) {
        uint64_t count = rline_checkpoints(tables, rline_process_number(p));
        row = count < rows - row ? row + count : rows;
    }
    return (size_t)(checkpoint.number <= rows - row ? row + checkpoint.number - 1 : rows);
}

/* The counters of a checkpoint; all zero where there is none. */
RECOVERY_LINE_NODISCARD static inline rline_counts rline_counts_at(const rline_tables *tables, rline_process process,
                                                                   rline_checkpoint checkpoint) {
    rline_counts counts;
    size_t row = rline_row(tables, process, checkpoint);
    memset(&counts, 0, sizeof counts);
    if (row < RECOVERY_LINE_CHECKPOINTS) {
        memcpy(counts.sent, tables->sent + row * RECOVERY_LINE_PROCESSES, sizeof counts.sent);
        memcpy(counts.received, tables->received + row * RECOVERY_LINE_PROCESSES, sizeof counts.received);
    }
    return counts;
}

/* Puts the number of checkpoints of each of n processes, if it can be one; the check asks for all of them together. */
RECOVERY_LINE_NODISCARD static inline uint32_t rline_put_shape(rline_tables *tables, uint64_t n, const size_t *counts) {
    if (n < 1 || n > RECOVERY_LINE_PROCESSES) {
        return RLINE_WRONG_N;
    }
    tables->shape[RECOVERY_LINE_N_AT] = n;
    for (uint64_t p = 0; p < n; p++) {
        if (counts[p] > RECOVERY_LINE_CHECKPOINTS) {
            return RLINE_WRONG_COUNT;
        }
        tables->shape[RECOVERY_LINE_SHAPE_COUNTS_AT + p] = counts[p];
    }
    return RECOVERY_LINE_ACCEPTED;
}

/* Puts a process's checkpoints, as many as the shape says. */
static inline void rline_put_rows(rline_tables *tables, rline_process process, const rline_counts *checkpoints) {
    for (uint64_t r = 1; r <= rline_checkpoints(tables, process); r++) {
        size_t row = rline_row(tables, process, rline_checkpoint_number(r));
        if (row < RECOVERY_LINE_CHECKPOINTS) {
            memcpy(tables->sent + row * RECOVERY_LINE_PROCESSES, checkpoints[r - 1].sent, sizeof checkpoints->sent);
            memcpy(tables->received + row * RECOVERY_LINE_PROCESSES, checkpoints[r - 1].received,
                   sizeof checkpoints->received);
        }
    }
}

/* Makes the tables of the whole book of n processes: process p has the counts[p - 1] checkpoints at checkpoints[p - 1], oldest
 * first (which has received nothing).
 * Questions: 4, 5 (of all checkpoints together), then those of tables. Stack: that of the check, and an rline_tables. */
RECOVERY_LINE_NODISCARD static inline uint32_t rline_whole_tables(rline_tables *tables, uint64_t n,
                                                                  const rline_counts *const *checkpoints,
                                                                  const size_t *counts) {
    rline_tables made;
    memset(&made, 0, sizeof made);
    uint32_t answer = rline_put_shape(&made, n, counts);
    for (uint64_t p = 1; answer == RECOVERY_LINE_ACCEPTED && p <= n; p++) {
        rline_put_rows(&made, rline_process_number(p), checkpoints[p - 1]);
    }
    if (answer == RECOVERY_LINE_ACCEPTED) {
        answer = rline_check(&made);
    }
    if (answer == RECOVERY_LINE_ACCEPTED) {
        memcpy(tables, &made, sizeof made);
    }
    return answer;
}

/* Makes the tables of worker `me`, one of n, that knows its own checkpoints alone: `count` of them, oldest first (which has
 * received nothing); each other process gets one of zeros. The worker's machine goes by them as by the whole book.
 * rline_find, rline_test_set, rline_restart_order, rline_move, rline_write_resend, rline_search and rline_session_start do not:
 * for them these are a book in which the others have sent nothing, and so they go back too far. They need the whole book.
 * Questions: 4, 10, 5 (of all checkpoints together), then those of tables. Stack: as for rline_whole_tables. */
RECOVERY_LINE_NODISCARD static inline uint32_t rline_own_tables(rline_tables *tables, uint64_t n, rline_process me,
                                                                const rline_counts *checkpoints, size_t count) {
    const rline_counts *all[RECOVERY_LINE_PROCESSES];
    size_t counts[RECOVERY_LINE_PROCESSES];
    rline_counts zeros;
    memset(&zeros, 0, sizeof zeros);
    if (n >= 1 && n <= RECOVERY_LINE_PROCESSES && (me.number < 1 || me.number > n)) {
        return RLINE_WRONG_PROCESS;
    }
    for (uint64_t p = 1; p <= RECOVERY_LINE_PROCESSES; p++) {
        all[p - 1] = p == me.number ? checkpoints : &zeros;
        counts[p - 1] = p == me.number ? count : 1;
    }
    return rline_whole_tables(tables, n, all, counts);
}

#endif
