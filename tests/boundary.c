/*
 * What C can do at the boundary, legally: null pointers with length 0, slices of words and tables one element too short or
 * too long, buffers of the exact size and one byte less, memory that ends where a slice does, and slices that are only read and
 * overlap.
 *
 *     boundary heap|end|start
 *
 * Where slices are lent in blocks of their own, these are of the heap, or end or start at a page that cannot be touched.
 */
#include "boundary_arena.h"

#include <sys/mman.h>
#include <unistd.h>

/* Fills what the calls read: tables, a set, a column, messages, a list and states; all else keeps its pattern. */
static void prepare(void) {
    const uint64_t set[RECOVERY_LINE_SET_WORDS] = {2, 2, 2};
    lay_out();
    lend_all();
    put(BYTES, book, sizeof book);
    put(EVENTS, journal, sizeof journal);
    put(SET, set, sizeof set);
    put(KNOWN, known, sizeof known);
    put(INVITATION, invitation, sizeof invitation);
    put(REPORT, report, sizeof report);
    put(LIST, list, sizeof list);
    expect(call_read() == 0, "read", "-", "the book is accepted");
    expect(call_participant_first() == 0, "participant_first", "-", "a state is made");
    expect(call_initiator_begin() == 0, "initiator_begin", "-", "a state is made");
    expect(call_session_start() == 0, "session_start", "-", "a session is made");
    memcpy(prepared, arena, arena_size);
    end_group("a book is read, and machines and a session are begun on it");
}

static void accepts_and_keeps_to_its_slices(void) {
    for (int c = 0; c < CALLS; c++) {
        lend_all();
        expect(calls[c].run() == 0, calls[c].name, "-", "is accepted");
        expect(rest_unchanged(&calls[c]), calls[c].name, "-", "changes only what it writes");
    }
    end_group("each call accepts, and changes nothing but what it writes");
}

/* Runs a call that must be refused and leave everything as it was. */
static void refused(const struct call *call, uint32_t answer, const char *slice, const char *what) {
    expect(call->run() == answer, call->name, slice, what);
    expect(unchanged(), call->name, slice, "a refused call changes nothing");
}

/* Lends a slice with another number of elements, or none at a null pointer. */
static void lend_with(enum slice s, size_t elements) {
    lent[s].elements = elements;
    if (elements == 0) {
        lent[s].start = NULL;
    }
}

static void wrong_words_come_first(void) {
    for (int c = 0; c < CALLS; c++) {
        for (int s = 0; s < SLICES; s++) {
            const size_t lengths[] = {0, kinds[s].elements - 1, kinds[s].elements + 1};
            if (!kinds[s].fixed || !((calls[c].reads | calls[c].writes) & OF(s))) {
                continue;
            }
            for (int i = 0; i < 3; i++) {
                lend_all();
                lend_with((enum slice)s, lengths[i]);
                refused(&calls[c], RECOVERY_LINE_WRONG_LENGTH, kinds[s].name, "a wrong length is refused");
                lend_nothing(SENT);
                lend_nothing(OUT);
                lend_nothing(STRANDS);
                lend_nothing(BYTES);
                lend_nothing(EVENTS);
                lend_nothing(LIST);
                refused(&calls[c], RECOVERY_LINE_WRONG_LENGTH, kinds[s].name, "a wrong length comes first");
            }
        }
    }
    end_group("a slice of words or a column that is missing, or one too short or too long, is refused first");
}

static void wrong_tables_come_second(void) {
    const enum slice tables[] = {SENT, RECEIVED};
    const size_t lengths[] = {0, RECOVERY_LINE_TABLE_ENTRIES - 1, RECOVERY_LINE_TABLE_ENTRIES + 1};
    for (int c = 0; c < CALLS; c++) {
        bool has_tables = (calls[c].reads | calls[c].writes) & OF(SENT);
        for (int t = 0; t < 2; t++) {
            for (int i = 0; has_tables && i < 3; i++) {
                lend_all();
                lend_with(tables[t], lengths[i]);
                refused(&calls[c], 2, kinds[tables[t]].name, "a table of another length is refused");
                lend_nothing(OUT);
                lend_nothing(STRANDS);
                lend_nothing(BYTES);
                lend_nothing(EVENTS);
                refused(&calls[c], 2, kinds[tables[t]].name, "a table of another length comes first");
            }
        }
    }
    end_group("a table that is missing, or one entry too short or too long, is refused by question 2");
}

static void nothing_at_all(void) {
    for (int c = 0; c < CALLS; c++) {
        lend_all();
        for (int s = 0; s < LENGTH; s++) {
            lend_nothing((enum slice)s);
        }
        refused(&calls[c], RECOVERY_LINE_WRONG_LENGTH, "all", "null everywhere is refused");
    }
    end_group("null pointers with length 0 everywhere are refused");
}

/* Calls with one slice of bytes at a null pointer. */
static void no_bytes(void) {
    const struct {
        int call;
        enum slice slice;
        uint32_t answer;
    } cases[] = {{READ, BYTES, 3}, {JOURNAL, EVENTS, 3}, {WRITE, OUT, 17}, {PARTICIPANT_RECEIVE, INVITATION, 14},
                 {PARTICIPANT_RECEIVE, OUT, 17}, {INITIATOR_BEGIN, OUT, 17}, {INITIATOR_RECEIVE, REPORT, 14},
                 {SESSION_START, STRANDS, 17}, {SESSION_TURN, STRANDS, 13}, {WRITE_RESEND, OUT, 17}, {READ_RESEND, LIST, 3}};
    for (size_t i = 0; i < sizeof cases / sizeof cases[0]; i++) {
        lend_all();
        lend_nothing(cases[i].slice);
        refused(&calls[cases[i].call], cases[i].answer, kinds[cases[i].slice].name, "null is refused by its question");
    }
    lend_all();
    lend_nothing(OUT);
    expect(call_initiator_receive() == 0, "initiator_receive", "out", "null suffices where nothing is written");
    expect(rest_unchanged(&calls[INITIATOR_RECEIVE]), "initiator_receive", "out", "nothing is written");
    end_group("null pointers with length 0 for bytes are refused where bytes are needed");
}

static void no_bytes_needed(void) {
    lend_all();
    put(BYTES, lonely_book, sizeof lonely_book);
    lent[BYTES].elements = sizeof lonely_book;
    expect(call_read() == 0, "read", "bytes", "one process is accepted");
    lend_nothing(OUT);
    lend_nothing(STRANDS);
    expect(call_initiator_begin() == 0, "initiator_begin", "out", "null suffices for one process");
    expect(call_session_start() == 0, "session_start", "strands", "null suffices for one process");
    expect(call_session_turn() == 10, "session_turn", "strands", "no other process has a turn");
    expect(call_search() == 0, "search", "-", "one process is accepted");
    end_group("one process needs no bytes for messages");
}

static uint64_t word(enum slice s, int at) { return ((uint64_t *)lent[s].start)[at]; }

/* K's example 1: R1,2,2 = 4 is more than S2,2,1 = 3. */
static void first_pair_is_shown(void) {
    lend_all();
    expect(call_test_set() == 0 && word(PAIR, 0) == 1 && word(PAIR, 1) == 2, "test_set", "pair", "is 1 2");
    expect(call_test_checkpoint() == 0 && word(PARTNER, 0) == 2, "test_checkpoint", "partner", "is 2");
    end_group("the first pair at fault is shown, and the lowest partner named");
}

/* The list of the order is what is written, and what is read of that. */
static void lists_are_the_same(void) {
    const int second = RECOVERY_LINE_PROCESSES, third = 2 * RECOVERY_LINE_PROCESSES; /* their channels to process 1 */
    lend_all();
    expect(call_restart_order() == 0, "restart_order", "order", "is given");
    expect(call_write_resend() == 0 && word(LENGTH, 0) == sizeof list, "write_resend", "length", "is the list's");
    expect(memcmp(lent[OUT].start, list, sizeof list) == 0, "write_resend", "out", "is the list");
    expect(call_read_resend() == 0, "read_resend", "list", "is accepted");
    const uint64_t *order = (uint64_t *)lent[ORDER].start + RECOVERY_LINE_ORDER_RESEND_AT;
    expect(memcmp(order, lent[RESEND].start, RECOVERY_LINE_RESEND_WORDS * 8) == 0, "read_resend", "resend", "is the order's");
    expect(order[second] == 1 && order[third] == 1, "restart_order", "order", "has the first messages");
    order += RECOVERY_LINE_RESEND_LAST_AT;
    expect(order[second] == 3 && order[third] == 7, "restart_order", "order", "has the last messages");
    end_group("an order has the list that is written, and that is read into the same words");
}

/* One table for both, and a row of it for the column: process 1's newest row permits itself, its oldest nothing. */
static void reads_may_overlap(void) {
    const uint64_t partners[] = {2, 0};
    for (int row = 0; row < 2; row++) {
        lend_all();
        lent[SENT] = lent[RECEIVED];
        lent[KNOWN].start = (recovery_line_counter *)lent[RECEIVED].start + row * RECOVERY_LINE_PROCESSES;
        expect(call_test_checkpoint() == 0, "test_checkpoint", "known", "may be a row of a table");
        expect(word(PARTNER, 0) == partners[row], "test_checkpoint", "partner", "goes by that row");
        expect(rest_unchanged(&calls[TEST_CHECKPOINT]), "test_checkpoint", "-", "changes only what it writes");
    }
    end_group("what is only read may overlap");
}

/* Blocks: each slice by itself, in memory that ends with it or starts with it. */

static enum { HEAP, END, START } blocks;
static struct {
    void *mapped;
    size_t size;
} block[SLICES];

/* Memory of that size; beside it are pages that cannot be touched. */
static void *map_block(enum slice s, size_t size) {
    size_t page = (size_t)sysconf(_SC_PAGESIZE), inside = (size + page - 1) / page * page;
    uint8_t *start = (uint8_t *)mmap(NULL, inside + 2 * page, PROT_NONE, MAP_PRIVATE | MAP_ANONYMOUS, -1, 0);
    if (start == MAP_FAILED || (inside != 0 && mprotect(start + page, inside, PROT_READ | PROT_WRITE) != 0)) {
        exit(2);
    }
    block[s].mapped = start;
    block[s].size = inside + 2 * page;
    return start + page + (blocks == END ? inside - size : 0);
}

static void give_back(enum slice s) {
    if (block[s].mapped == NULL) {
        return;
    }
    if (blocks == HEAP) {
        free(block[s].mapped);
    } else {
        munmap(block[s].mapped, block[s].size);
    }
    block[s].mapped = NULL;
}

/* Lends a slice of that many elements in a block of its own, with what was prepared. */
static void lend_block(enum slice s, size_t elements) {
    size_t size = elements * kinds[s].size;
    give_back(s);
    if (blocks == HEAP) {
        block[s].mapped = lent[s].start = malloc(size);
    } else {
        lent[s].start = map_block(s, size);
    }
    if (size != 0) {
        memcpy(lent[s].start, prepared + place[s], size);
    }
    lent[s].elements = elements;
}

static void lend_blocks(void) {
    for (int s = 0; s < SLICES; s++) {
        lend_block((enum slice)s, kinds[s].elements);
    }
}

static void give_all_back(void) {
    for (int s = 0; s < SLICES; s++) {
        give_back((enum slice)s);
    }
}

static bool block_unchanged(enum slice s) {
    return lent[s].elements == 0 || memcmp(lent[s].start, prepared + place[s], lent[s].elements * kinds[s].size) == 0;
}

/* Each call in blocks of exact sizes does what it does in the arena. */
static void exact_blocks(void) {
    for (int c = 0; c < CALLS; c++) {
        lend_all();
        uint32_t answer = calls[c].run();
        lend_blocks();
        expect(calls[c].run() == answer, calls[c].name, "-", "answers the same in blocks of their own");
        for (int s = 0; s < SLICES; s++) {
            size_t size = kinds[s].elements * kinds[s].size;
            expect(memcmp(lent[s].start, arena + place[s], size) == 0, calls[c].name, kinds[s].name, "holds the same");
        }
    }
    end_group("each call does the same where every slice is a block of its own");
}

/* A call with a buffer of exactly the bytes that it needs, and with fewer. */
static void exact_buffer(const struct call *call, enum slice s, size_t needed, uint32_t answer) {
    for (size_t elements = 0; elements <= needed; elements++) {
        lend_blocks();
        lend_block(s, elements);
        bool enough = elements == needed;
        expect(call->run() == (enough ? 0 : answer), call->name, kinds[s].name, "just the exact length is accepted");
        for (int other = 0; other < SLICES && !enough; other++) {
            expect(block_unchanged((enum slice)other), call->name, kinds[other].name, "a refused call changes nothing");
        }
    }
}

static void exact_buffers(void) {
    exact_buffer(&calls[READ], BYTES, sizeof book, 3);
    exact_buffer(&calls[WRITE], OUT, sizeof book, 17);
    exact_buffer(&calls[PARTICIPANT_RECEIVE], INVITATION, sizeof invitation, 14);
    exact_buffer(&calls[PARTICIPANT_RECEIVE], OUT, sizeof report, 17);
    exact_buffer(&calls[INITIATOR_BEGIN], OUT, 2 * sizeof invitation, 17);
    exact_buffer(&calls[INITIATOR_RECEIVE], REPORT, sizeof report, 14);
    exact_buffer(&calls[SESSION_START], STRANDS, SLOT + sizeof invitation, 17);
    exact_buffer(&calls[WRITE_RESEND], OUT, sizeof list, 17);
    exact_buffer(&calls[READ_RESEND], LIST, sizeof list, 3);
    end_group("buffers of the exact size are accepted, and all shorter ones refused");
}

/* The journal of a book fills what the book fills. */
static void same_tables(void) {
    const enum slice tables[] = {SHAPE, SENT, RECEIVED};
    lend_all();
    for (int t = 0; t < 3; t++) {
        memset(lent[tables[t]].start, 0xEE, kinds[tables[t]].elements * kinds[tables[t]].size);
    }
    expect(call_journal() == 0, "journal", "events", "is accepted");
    expect(unchanged(), "journal", "tables", "are those of the book");
    end_group("a journal fills the tables as the book that it builds");
}

/* A journal may end where an event does, and nowhere else. */
static void exact_events(void) {
    size_t event = 1, next = 1;
    for (size_t elements = 0; elements <= sizeof journal; elements++) {
        if (elements == next) {
            event = next;
            next += elements < sizeof journal && journal[elements] == RECOVERY_LINE_EVENT_CHECKPOINT ? 2 : 3;
        }
        uint32_t answer = elements == 0 ? 3 : elements == event ? 0 : 19;
        lend_blocks();
        lend_block(EVENTS, elements);
        expect(call_journal() == answer, "journal", "events", "just whole events are accepted");
        if (answer != 0) {
            expect(block_unchanged(SHAPE) && block_unchanged(SENT) && block_unchanged(RECEIVED), "journal", "tables",
                   "a refused call changes nothing");
        }
    }
    end_group("a journal is accepted where it ends with an event, and read no further");
}

/* The last report is answered with two polls of six bytes. */
static void exact_polls(void) {
    lend_all();
    expect(call_initiator_receive() == 0, "initiator_receive", "report", "the first report is accepted");
    put(REPORT, other_report, sizeof other_report);
    memcpy(prepared, arena, arena_size);
    exact_buffer(&calls[INITIATOR_RECEIVE], OUT, 12, 17);
    end_group("polls fit a buffer of their exact size, and no shorter one");
}

/* A report of eight bytes goes where an invitation of six was, in the last slot. */
static void exact_strands(void) {
    for (size_t elements = SLOT + sizeof invitation - 1; elements <= SLOT + sizeof report; elements++) {
        uint32_t answer = elements < SLOT + sizeof invitation ? 13 : elements < SLOT + sizeof report ? 17 : 0;
        lend_blocks();
        lend_block(STRANDS, elements);
        expect(call_session_turn() == answer, "session_turn", "strands", "needs room for what waits and for the reply");
        if (answer != 0) {
            expect(block_unchanged(STRANDS) && block_unchanged(SESSION), "session_turn", "strands", "is unchanged");
        }
    }
    end_group("a turn's reply fits strands of their exact size, and no shorter ones");
}

int main(int argc, char **argv) {
    const char *kind = argc == 2 ? argv[1] : "";
    blocks = strcmp(kind, "end") == 0 ? END : strcmp(kind, "start") == 0 ? START : HEAP;
    if (blocks == HEAP && strcmp(kind, "heap") != 0) {
        fprintf(stderr, "usage: boundary heap|end|start\n");
        return 2;
    }
    setvbuf(stdout, NULL, _IOLBF, 0); /* what was said is not lost with a crash */
    prepare();
    accepts_and_keeps_to_its_slices();
    wrong_words_come_first();
    wrong_tables_come_second();
    nothing_at_all();
    first_pair_is_shown();
    lists_are_the_same();
    reads_may_overlap();
    no_bytes();
    no_bytes_needed();
    exact_blocks();
    exact_buffers();
    same_tables();
    exact_events();
    exact_strands();
    exact_polls();
    give_all_back();
    free(arena);
    free(prepared);
    return any_failed ? 1 : 0;
}
