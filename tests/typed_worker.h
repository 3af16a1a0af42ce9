/*
 * The part of tests/typed.c on what a worker keeps of its own: counts, and tables with its own rows alone.
 */

static const rline_process no_process[] = {{0}, {PROCESSES + 1}, {UINT64_MAX}};

static void counting(void) {
    static rline_counts counts, expected;
    const rline_process last = {PROCESSES};
    for (int i = 0; i < 3; i++) {
        rline_count_sent(&counts, no_process[i]);
        rline_count_received(&counts, no_process[i]);
        rline_count_sent(&counts, second);
        rline_count_received(&counts, last);
    }
    rline_count_received(&counts, first);
    expected.sent[1] = expected.received[PROCESSES - 1] = 3;
    expected.received[0] = 1;
    expect(memcmp(&counts, &expected, sizeof counts) == 0, "count", "counts for the partner, and for no other");
    counts.sent[2] = counts.received[2] = RECOVERY_LINE_NOT_KNOWN - 2;
    rline_count_sent(&counts, third);
    rline_count_received(&counts, third);
    expect(counts.sent[2] == RECOVERY_LINE_NOT_KNOWN - 1, "count_sent", "counts up to the largest counter");
    expect(counts.received[2] == RECOVERY_LINE_NOT_KNOWN - 1, "count_received", "counts up to the largest counter");
    for (int i = 0; i < 2; i++) {
        rline_count_sent(&counts, third);
        rline_count_received(&counts, third);
        expect(counts.sent[2] == RECOVERY_LINE_NOT_KNOWN, "count_sent", "stays where no counter is");
        expect(counts.received[2] == RECOVERY_LINE_NOT_KNOWN, "count_received", "stays where no counter is");
    }
    end_group("messages are counted");
}

/* Looks at checkpoints. */

static bool is_row(const rline_tables *tables, uint64_t p, uint64_t r, size_t row) {
    rline_counts counts = rline_counts_at(tables, rline_process_number(p), rline_checkpoint_number(r));
    return memcmp(counts.sent, tables->sent + row * PROCESSES, sizeof counts.sent) == 0 &&
           memcmp(counts.received, tables->received + row * PROCESSES, sizeof counts.received) == 0;
}

static bool is_none(const rline_tables *tables, uint64_t p, uint64_t r) {
    static rline_counts zeros;
    rline_counts counts = rline_counts_at(tables, rline_process_number(p), rline_checkpoint_number(r));
    return memcmp(&counts, &zeros, sizeof zeros) == 0;
}

/* Tables without a zero, no two counters of which are the same, with that many checkpoints of each process. */
static void number_all(rline_tables *tables, uint64_t each) {
    for (uint32_t i = 0; i < RECOVERY_LINE_TABLE_ENTRIES; i++) {
        tables->sent[i] = i + 1;
        tables->received[i] = RECOVERY_LINE_TABLE_ENTRIES + i + 1;
    }
    tables->shape[RECOVERY_LINE_N_AT] = PROCESSES;
    for (int p = 0; p < PROCESSES; p++) {
        tables->shape[RECOVERY_LINE_SHAPE_COUNTS_AT + p] = each;
    }
}

static void counts_are_seen(void) {
    static rline_tables tables;
    uint64_t *counts = tables.shape + RECOVERY_LINE_SHAPE_COUNTS_AT;
    const uint64_t each = RECOVERY_LINE_CHECKPOINTS / PROCESSES;
    number_all(&tables, each);
    counts[1] = each + 3;
    counts[2] = each - 3;
    size_t row = 0;
    for (uint64_t p = 1; p <= PROCESSES; row += counts[p - 1], p++) {
        expect(is_row(&tables, p, 1, row), "counts_at", "is the oldest's");
        expect(is_row(&tables, p, counts[p - 1], row + counts[p - 1] - 1), "counts_at", "is the newest's");
        expect(is_none(&tables, p, 0) && is_none(&tables, p, counts[p - 1] + 1), "counts_at", "none of no checkpoint");
        expect(is_none(&tables, p, UINT64_MAX), "counts_at", "none of no checkpoint");
        expect(is_none(&tables, no_process[p % 3].number, 1), "counts_at", "none of no process");
    }
    end_group("the counters of a checkpoint are seen");
}

/* Whatever the shape holds, nothing but rows is read. */
static void shapes_are_no_places(void) {
    static rline_tables tables;
    uint64_t *counts = tables.shape + RECOVERY_LINE_SHAPE_COUNTS_AT;
    number_all(&tables, UINT64_MAX);
    expect(is_row(&tables, 1, RECOVERY_LINE_CHECKPOINTS, RECOVERY_LINE_CHECKPOINTS - 1), "counts_at", "is the last row");
    expect(is_none(&tables, 1, RECOVERY_LINE_CHECKPOINTS + 1), "counts_at", "none after the last row");
    expect(is_none(&tables, 1, UINT64_MAX), "counts_at", "none after the last row");
    for (uint64_t p = 2; p <= PROCESSES; p++) { /* the sum before would be 0 again, or little more */
        expect(is_none(&tables, p, 1) && is_none(&tables, p, p) && is_none(&tables, p, UINT64_MAX), "counts_at",
               "none after too many");
    }
    counts[0] = RECOVERY_LINE_CHECKPOINTS - 1;
    expect(is_row(&tables, 2, 1, RECOVERY_LINE_CHECKPOINTS - 1), "counts_at", "is the last row");
    expect(is_none(&tables, 2, 2) && is_none(&tables, 3, 1), "counts_at", "none after the last row");
    counts[0] = RECOVERY_LINE_CHECKPOINTS;
    expect(is_none(&tables, 2, 1), "counts_at", "none after the last row");
    end_group("a shape that is none leads nowhere");
}

/* Own tables. */

static rline_counts own_counts[RECOVERY_LINE_CHECKPOINTS + 1];

/* The worker's checkpoints in a book, and its tables from them. */
static void make_own(rline_tables *own, const rline_tables *whole, rline_process me) {
    size_t count = (size_t)rline_checkpoints(whole, me);
    for (size_t i = 0; i < count; i++) {
        own_counts[i] = rline_counts_at(whole, me, rline_checkpoint_number(i + 1));
    }
    memset(own, PATTERN, sizeof *own);
    expect(rline_own_tables(own, rline_processes(whole), me, own_counts, count) == 0, "own_tables", "accepts");
}

/* The same, row by row: before the worker's and after them nothing but zeros. */
static void has_own_rows(const rline_tables *own, const rline_tables *whole, rline_process me) {
    static rline_tables expected;
    const uint64_t *counts = whole->shape + RECOVERY_LINE_SHAPE_COUNTS_AT;
    size_t start = 0, at = (size_t)(me.number - 1) * PROCESSES;
    memset(&expected, 0, sizeof expected);
    expected.shape[RECOVERY_LINE_N_AT] = rline_processes(whole);
    for (uint64_t p = 1; p <= rline_processes(whole); p++) {
        start += p < me.number ? (size_t)counts[p - 1] * PROCESSES : 0;
        expected.shape[RECOVERY_LINE_SHAPE_COUNTS_AT + p - 1] = p == me.number ? counts[p - 1] : 1;
    }
    size_t size = (size_t)counts[me.number - 1] * PROCESSES * sizeof(recovery_line_counter);
    memcpy(expected.sent + at, whole->sent + start, size);
    memcpy(expected.received + at, whole->received + start, size);
    expect(memcmp(own, &expected, sizeof expected) == 0, "own_tables", "has the worker's rows, and zeros of others");
}

/* The machines of a search, on the whole book and each on its worker's own tables. */
static rline_tables own_tables[PROCESSES];
static struct machines_of_all {
    rline_initiator initiator;
    rline_participant participants[PROCESSES];
    rline_messages out;
} on_whole, on_own;

static void same_step(uint32_t answer, uint32_t own_answer, const char *call) {
    expect(answer == 0 && own_answer == 0, call, "accepts on own tables as on the whole book");
    expect(memcmp(&on_whole, &on_own, sizeof on_whole) == 0, call, "does on own tables what it does on the whole book");
}

static void send_from_own(uint64_t n) {
    for (uint64_t p = 1; p <= n; p++) {
        letters[waiting].to = rline_process_number(p);
        letters[waiting].message = rline_message_to(&on_own.out, letters[waiting].to);
        waiting += letters[waiting].message.length != 0;
    }
}

/* A participant's machine is made from its first message. */
static void receive_on_own(const rline_tables *whole, rline_process me, rline_message message) {
    const rline_tables *own = &own_tables[me.number - 1];
    rline_participant *one = &on_whole.participants[me.number - 1], *other = &on_own.participants[me.number - 1];
    if (me.number == first.number) {
        same_step(rline_initiator_receive(&on_whole.initiator, whole, message, &on_whole.out),
                  rline_initiator_receive(&on_own.initiator, own, message, &on_own.out), "initiator_receive");
        return;
    }
    if (other->words[RECOVERY_LINE_N_AT] == 0) {
        const rline_process sender = rline_message_sender(&message);
        same_step(rline_participant_first(one, whole, me, first, PURPOSE),
                  rline_participant_first(other, own, me, sender, rline_message_purpose(&message)), "participant_first");
    }
    same_step(rline_participant_receive(one, whole, message, &on_whole.out),
              rline_participant_receive(other, own, message, &on_own.out), "participant_receive");
}

static void begin_on_own(const rline_tables *whole) {
    memset(&on_whole, 0, sizeof on_whole);
    memset(&on_own, 0, sizeof on_own);
    for (uint64_t p = 1; p <= rline_processes(whole); p++) {
        make_own(&own_tables[p - 1], whole, rline_process_number(p));
        has_own_rows(&own_tables[p - 1], whole, rline_process_number(p));
    }
    same_step(rline_initiator_begin(&on_whole.initiator, whole, first, PURPOSE, &on_whole.out),
              rline_initiator_begin(&on_own.initiator, &own_tables[0], first, PURPOSE, &on_own.out), "initiator_begin");
    send_from_own(rline_processes(whole));
}

/* Whether all have ended, on the line of the whole book. */
static bool own_ended_on(const rline_set *set, uint64_t n) {
    bool all = rline_initiator_ended(&on_own.initiator) &&
               rline_initiator_candidate(&on_own.initiator).number == rline_set_get(set, first).number;
    for (uint64_t p = 2; p <= n; p++) {
        const rline_participant *machine = &on_own.participants[p - 1];
        all = all && rline_participant_ended(machine) &&
              rline_participant_candidate(machine).number == rline_set_get(set, rline_process_number(p)).number;
    }
    return all;
}

/* Searches; the line and the rounds are known otherwise. */
static void search_on_own(const rline_tables *whole, const rline_set *expected) {
    rline_line found;
    rline_search_result search;
    begin_on_own(whole);
    while (waiting > 0 && !group_failed) {
        waiting--;
        receive_on_own(whole, letters[waiting].to, letters[waiting].message);
        send_from_own(rline_processes(whole));
    }
    expect(own_ended_on(expected, rline_processes(whole)), "own_tables", "the search ends on the line");
    expect(rline_find(whole, &found) == 0 && memcmp(&found.set, expected, sizeof found.set) == 0, "find", "finds the line");
    expect(rline_search(whole, first, PURPOSE, &search) == 0 &&
               rline_initiator_rounds(&on_own.initiator) == search.rounds,
           "own_tables", "the search takes its rounds");
}

/* Each sends to the next in the ring, which receives it; right before it may take a checkpoint. */
static void send_round(rline_journal *journal, bool checkpoint_before) {
    for (uint64_t p = 1; p <= processes; p++) {
        const rline_process from = {p}, to = {p % processes + 1};
        if (checkpoint_before) {
            rline_journal_checkpoint(journal, from);
        }
        rline_journal_sent(journal, from, to);
        rline_journal_received(journal, to, from);
    }
}

/* All are on checkpoint 2 when nothing is underway. After that each takes its checkpoints right before it sends, when it has
 * received what the one before it sent after its own: no two of these belong together, but for the first process's first,
 * before which nothing has happened. */
static void read_dominoes(rline_tables *tables) {
    static uint8_t buffer[1000];
    rline_journal journal = rline_journal_begin(buffer, sizeof buffer, processes);
    send_round(&journal, false);
    for (uint64_t p = 1; p <= processes; p++) {
        rline_journal_checkpoint(&journal, rline_process_number(p));
    }
    for (int i = 0; i < 20; i++) {
        send_round(&journal, true);
    }
    expect(rline_read_journal(tables, &journal) == 0, "read_journal", "accepts");
}

static void searches_on_own_tables(void) {
    static rline_tables whole;
    const rline_set book_line = {{line[0], line[1], line[2]}}, dominoes_line = {{3, 2, 2}};
    search_on_own(&typed.tables, &book_line);
    read_dominoes(&whole);
    search_on_own(&whole, &dominoes_line);
    end_group("machines on own tables do what they do on the whole book");
}

/* Refused, or not: then the tables pass the check. */
static void refuse_own(uint64_t n, uint64_t me, size_t count, uint32_t expected, const char *what) {
    static rline_tables tables, unchanged;
    memset(&tables, PATTERN, sizeof tables);
    memset(&unchanged, PATTERN, sizeof unchanged);
    expect(rline_own_tables(&tables, n, rline_process_number(me), own_counts, count) == expected, "own_tables", what);
    expect((memcmp(&tables, &unchanged, sizeof tables) == 0) == (expected != 0), "own_tables", "changes nothing if refused");
    expect(expected != 0 || rline_check(&tables) == 0, "own_tables", "makes tables that pass the check");
}

/* Changes one counter, and changes it back. */
static void refuse_counter(recovery_line_counter *counter, recovery_line_counter wrong, uint32_t expected) {
    recovery_line_counter right = *counter;
    *counter = wrong;
    refuse_own(processes, 2, 3, expected, "asks of each counter");
    *counter = right;
}

static void wrong_own_tables(void) {
    const size_t most = RECOVERY_LINE_CHECKPOINTS - (PROCESSES - 1);
    memset(own_counts, 0, sizeof own_counts);
    refuse_own(0, 0, 0, 4, "asks for n first");
    refuse_own(PROCESSES + 1, 1, 1, 4, "asks for n");
    refuse_own(UINT64_MAX, 1, 1, 4, "asks for n");
    refuse_own(processes, 0, 0, 10, "asks for the process before the count");
    refuse_own(processes, processes + 1, 1, 10, "asks for the process");
    refuse_own(processes, UINT64_MAX, 1, 10, "asks for the process");
    refuse_own(processes, processes, 0, 5, "asks for the count");
    refuse_own(PROCESSES, PROCESSES, most + 1, 5, "asks for the count");
    refuse_own(PROCESSES, 1, SIZE_MAX, 5, "asks for the count");
    refuse_own(PROCESSES, PROCESSES, most, 0, "accepts as many as there may be");
    refuse_own(1, 1, RECOVERY_LINE_CHECKPOINTS, 0, "accepts as many as there may be of one");
    refuse_own(1, 1, RECOVERY_LINE_CHECKPOINTS + 1, 5, "asks for the count of one");
    own_counts[1].sent[0] = own_counts[2].sent[0] = own_counts[1].received[2] = own_counts[2].received[2] = 5;
    refuse_own(processes, 2, 3, 0, "accepts");
    refuse_counter(&own_counts[2].sent[0], RECOVERY_LINE_NOT_KNOWN, 6);
    refuse_counter(&own_counts[2].received[2], RECOVERY_LINE_NOT_KNOWN, 6);
    refuse_counter(&own_counts[0].received[0], 1, 7);
    refuse_counter(&own_counts[0].sent[0], 5, 0);
    refuse_counter(&own_counts[0].sent[0], 6, 8);
    refuse_counter(&own_counts[2].sent[0], 4, 8);
    refuse_counter(&own_counts[2].received[2], 4, 8);
    refuse_counter(&own_counts[1].sent[1], 1, 9);
    refuse_counter(&own_counts[1].received[3], 1, 9);
    end_group("own tables are refused by each question, and nothing is changed");
}

/* Whole tables. */

/* The tables of a book made again from its checkpoints, gathered from every process. */
static void make_whole(rline_tables *made, const rline_tables *whole) {
    static rline_counts gathered[PROCESSES][RECOVERY_LINE_CHECKPOINTS];
    const rline_counts *checkpoints[PROCESSES];
    size_t counts[PROCESSES];
    for (uint64_t i = 0; i < PROCESSES * RECOVERY_LINE_CHECKPOINTS; i++) {
        const rline_process process = {i / RECOVERY_LINE_CHECKPOINTS + 1};
        const rline_checkpoint checkpoint = {i % RECOVERY_LINE_CHECKPOINTS + 1};
        checkpoints[process.number - 1] = gathered[process.number - 1];
        counts[process.number - 1] = (size_t)rline_checkpoints(whole, process);
        gathered[process.number - 1][checkpoint.number - 1] = rline_counts_at(whole, process, checkpoint);
    }
    memset(made, PATTERN, sizeof *made);
    expect(rline_whole_tables(made, rline_processes(whole), checkpoints, counts) == 0, "whole_tables", "accepts");
}

static void refuse_whole(uint64_t n, size_t first_count, size_t last_count, uint32_t expected, const char *what) {
    static rline_tables tables, unchanged;
    const rline_counts *checkpoints[PROCESSES];
    size_t counts[PROCESSES];
    for (int p = 0; p < PROCESSES; p++) {
        checkpoints[p] = own_counts;
        counts[p] = p == 0 ? first_count : p == PROCESSES - 1 ? last_count : 1;
    }
    memset(&tables, PATTERN, sizeof tables);
    memset(&unchanged, PATTERN, sizeof unchanged);
    expect(rline_whole_tables(&tables, n, checkpoints, counts) == expected, "whole_tables", what);
    expect((memcmp(&tables, &unchanged, sizeof tables) == 0) == (expected != 0), "whole_tables", "changes nothing if refused");
}

static void whole_tables_are_made(void) {
    static rline_tables whole, made;
    const size_t most = RECOVERY_LINE_CHECKPOINTS - (PROCESSES - 1);
    make_whole(&made, &typed.tables);
    expect(memcmp(&made, &typed.tables, sizeof made) == 0, "whole_tables", "makes the tables of a book");
    read_dominoes(&whole);
    make_whole(&made, &whole);
    expect(memcmp(&made, &whole, sizeof made) == 0, "whole_tables", "makes the tables of a longer book");
    memset(own_counts, 0, sizeof own_counts);
    refuse_whole(0, 0, 0, 4, "asks for n first");
    refuse_whole(PROCESSES + 1, 1, 1, 4, "asks for n");
    refuse_whole(PROCESSES, 0, 1, 5, "asks for each count");
    refuse_whole(PROCESSES, 1, 0, 5, "asks for each count");
    refuse_whole(PROCESSES, 1, most + 1, 5, "asks for all counts");
    refuse_whole(PROCESSES, SIZE_MAX, 2, 5, "asks for all counts");
    refuse_whole(PROCESSES, 1, most, 0, "accepts as many as there may be");
    refuse_whole(PROCESSES, most, 1, 0, "accepts as many as there may be");
    own_counts[0].received[1] = 1;
    refuse_whole(1, 1, 1, 9, "puts the questions of tables");
    refuse_whole(processes, 1, 1, 7, "puts the questions of tables");
    end_group("whole tables are made from counts, or refused");
}

/* Looks at messages. */
static void heads_are_seen(void) {
    uint8_t bytes[] = {RECOVERY_LINE_INVITATION, PURPOSE, 2, 1, 2, 0};
    for (size_t length = 0; length <= sizeof bytes; length++) {
        rline_message message = rline_message_of(bytes, sizeof bytes);
        message.length = length; /* what is after it does not count */
        expect(rline_message_purpose(&message) == (length > 1 ? PURPOSE : 0), "message_purpose", "is the second number");
        expect(rline_message_sender(&message).number == (length > 2 ? 2 : 0), "message_sender", "is the third number");
    }
    for (unsigned byte = 0; byte <= UINT8_MAX; byte++) {
        bytes[1] = (uint8_t)byte;
        bytes[2] = (uint8_t)(UINT8_MAX - byte);
        rline_message message = rline_message_of(bytes, sizeof bytes);
        expect(rline_message_purpose(&message) == (byte < 128 ? byte : 0), "message_purpose", "is a byte below 128");
        expect(rline_message_sender(&message).number == (byte < 128 ? 0 : UINT8_MAX - byte), "message_sender",
               "is a byte below 128");
    }
    end_group("a message says who sends it, and for what");
}
