/*
 * From what three workers did to where they restart, and what they send again.
 *
 *     cc -std=c11 -I include examples/first_book.c target/staticlib/librecovery_line.a -o first_book
 *     ./first_book
 */
#include "rline.h"

#include <inttypes.h>
#include <stdio.h>

int main(void) {
    static rline_tables tables;
    static rline_order order;
    static uint8_t buffer[100];
    const rline_process one = {1}, two = {2}, three = {3};

    /* What happened, in order. Every worker began on its checkpoint 1. */
    rline_journal journal = rline_journal_begin(buffer, sizeof buffer, 3);
    rline_journal_sent(&journal, one, two);
    rline_journal_checkpoint(&journal, one);
    rline_journal_received(&journal, two, one);
    rline_journal_checkpoint(&journal, two);
    rline_journal_sent(&journal, two, three);
    rline_journal_checkpoint(&journal, two);
    rline_journal_received(&journal, three, two);
    rline_journal_sent(&journal, one, three); /* after worker 1's newest checkpoint, */
    rline_journal_received(&journal, three, one);
    rline_journal_checkpoint(&journal, three); /* and so this one does not fit that */

    uint32_t refused = rline_read_journal(&tables, &journal);
    if (!refused) refused = rline_restart_order(&tables, RECOVERY_LINE_ADVANCE_AND_RESTART, &order);
    if (refused) {
        fprintf(stderr, "refused by question %" PRIu32 ": %s\n", refused, recovery_line_question(refused));
        return 1;
    }
    uint64_t n = rline_processes(&tables);
    for (uint64_t p = 1; p <= n; p++) {
        rline_restart restart = rline_order_get(&order, rline_process_number(p));
        printf("worker %" PRIu64 " restarts from checkpoint %" PRIu64 "\n", p, restart.from.number);
    }
    for (uint64_t p = 1; p <= n; p++) {
        for (uint64_t q = 1; q <= n; q++) {
            rline_repeat repeat = rline_order_repeat(&order, rline_process_number(p), rline_process_number(q));
            for (uint64_t k = repeat.first; k != 0 && k <= repeat.last; k++) {
                printf("worker %" PRIu64 " sends worker %" PRIu64 " message %" PRIu64 " again\n", p, q, k);
            }
        }
    }
    return 0;
}
