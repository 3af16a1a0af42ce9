/*
 * The functions of rline.h against those of recovery_line.h: the same answers, and the same in all that they write. Everything
 * that a call may write to is in one struct, of which the typed call is lent one copy and the plain call another; so it shows
 * too that a refused call changes nothing.
 */
#include "rline.h"

#include <stdbool.h>
#include <stdio.h>

enum { PROCESSES = RECOVERY_LINE_PROCESSES, PURPOSE = RECOVERY_LINE_ADVANCE_AND_RESTART, PATTERN = 0xA5 };
#define ARRAY(a) (a), sizeof(a) / sizeof((a)[0])
#define PLAIN_TABLES ARRAY(plain.tables.shape), ARRAY(plain.tables.sent), ARRAY(plain.tables.received)
#define PLAIN_MESSAGES ARRAY(plain.messages.bytes), ARRAY(plain.messages.lengths)

static struct memory {
    rline_tables tables;
    rline_line line;
    rline_fault fault;
    rline_process partner;
    rline_search_result search;
    rline_order order;
    rline_resend resend;
    rline_participant participants[PROCESSES];
    rline_initiator initiator;
    rline_messages messages;
    rline_session session;
    size_t length;
    uint8_t book[64];
} typed, plain, before;

/* K's example 1: its line is 1 2 2, found in 2 rounds and 10 messages. */
static const uint8_t book[] = {3, 2, 0, 0, 0, 0, 0, 0, 4, 5, 2, 0, 0, 0, 0, 3, 0, 0, 0, 2, 0, 0, 0, 0, 7, 0, 0, 0};
static const uint64_t line[] = {1, 2, 2};
static const uint64_t processes = 3, newest = 2;
static const rline_process first = {1}, second = {2}, third = {3};

static bool group_failed, any_failed;

static void expect(bool holds, const char *call, const char *what) {
    if (!holds) {
        printf("typed:   %s: %s\n", call, what);
        group_failed = true;
    }
}

static void end_group(const char *what) {
    printf("typed: %s: %s\n", group_failed ? "FAILED" : "ok", what);
    any_failed |= group_failed;
    group_failed = false;
}

/* What holds after every pair of calls. */
static void same(uint32_t answer, uint32_t plain_answer, uint32_t expected, const char *call) {
    expect(answer == expected, call, "answers what is expected");
    expect(answer == plain_answer, call, "answers as the plain call");
    expect(memcmp(&typed, &plain, sizeof typed) == 0, call, "writes what the plain call writes");
    bool unchanged = memcmp(&typed, &before, sizeof typed) == 0;
    expect(unchanged || answer == RECOVERY_LINE_ACCEPTED, call, "changes nothing when it refuses");
    memcpy(&before, &typed, sizeof before);
}

/* Reads. */

static void read_both(const uint8_t *bytes, size_t length, uint32_t expected) {
    uint32_t answer = rline_read(&typed.tables, bytes, length);
    same(answer, recovery_line_read(bytes, length, PLAIN_TABLES), expected, "read");
}

static void read_journal_both(const uint8_t *bytes, size_t length, uint32_t expected) {
    uint32_t answer = rline_read_journal_bytes(&typed.tables, bytes, length);
    same(answer, recovery_line_journal(bytes, length, PLAIN_TABLES), expected, "read_journal_bytes");
}

static void reads(void) {
    static const uint8_t longest[RECOVERY_LINE_BOOK_BYTES + 1] = {1, 1};
    const uint8_t no_checkpoint[] = {1, 0}, events[] = {2, 1, 1, 2, 3, 1, 2, 2, 1};
    read_both(NULL, 0, 3);
    read_both(no_checkpoint, sizeof no_checkpoint, 5);
    read_both(longest, sizeof longest, 1);
    read_journal_both(events, sizeof events, 0);
    read_journal_both(events, sizeof events - 1, 19);
    read_journal_both(events, 0, 3);
    read_both(book, sizeof book, 0);
    read_both(book, sizeof book - 1, 3);
    end_group("books and journals are read");
}

static void write_both(size_t room, uint32_t expected) {
    uint64_t length = plain.length;
    uint32_t answer = rline_write(&typed.tables, typed.book, room, &typed.length);
    uint32_t plain_answer = recovery_line_write(PLAIN_TABLES, plain.book, room, &length);
    plain.length = (size_t)length;
    same(answer, plain_answer, expected, "write");
}

static void writes(void) {
    for (size_t room = 0; room < sizeof book; room++) {
        write_both(room, RLINE_NO_ROOM);
    }
    write_both(sizeof book, 0);
    expect(typed.length == sizeof book && memcmp(typed.book, book, sizeof book) == 0, "write", "writes the book");
    same(rline_check(&typed.tables), recovery_line_check(PLAIN_TABLES), 0, "check");
    expect(rline_processes(&typed.tables) == processes, "processes", "is n");
    expect(rline_checkpoints(&typed.tables, third) == newest, "checkpoints", "is the count");
    const rline_set all_newest = {{newest, newest, newest}}, seen = rline_newest(&typed.tables);
    expect(memcmp(&seen, &all_newest, sizeof seen) == 0, "newest", "is the newest of each");
    end_group("tables are written and checked");
}

/* Sets and the line. */

static void test_set_both(const rline_set *set, uint32_t expected) {
    uint64_t pair[RECOVERY_LINE_PAIR_WORDS] = {plain.fault.receiver.number, plain.fault.sender.number};
    uint32_t answer = rline_test_set(&typed.tables, set, &typed.fault);
    uint32_t plain_answer = recovery_line_test_set(PLAIN_TABLES, ARRAY(set->checkpoints), ARRAY(pair));
    plain.fault.receiver.number = pair[0];
    plain.fault.sender.number = pair[1];
    same(answer, plain_answer, expected, "test_set");
}

static void sets(void) {
    rline_set set = {{0}};
    for (unsigned i = 0; i < 4 * 4 * 4; i++) {
        const rline_checkpoint a = {i / 16}, b = {i / 4 % 4}, c = {i % 4};
        rline_set_put(&set, first, a);
        rline_set_put(&set, second, b);
        rline_set_put(&set, third, c);
        expect(rline_set_get(&set, third).number == c.number, "set_get", "is what was put");
        bool there = a.number % 3 != 0 && b.number % 3 != 0 && c.number % 3 != 0;
        test_set_both(&set, there ? 0 : 12);
        bool at_fault = typed.fault.receiver.number == 1 && typed.fault.sender.number == 2;
        expect(!(there && a.number == 2 && b.number == 2) || at_fault, "test_set", "names receiver and sender");
    }
    end_group("sets are tested");
}

static void test_checkpoint_both(uint64_t p, uint64_t r, const rline_known *known, uint32_t expected) {
    uint32_t answer = rline_test_checkpoint(&typed.tables, rline_process_number(p), rline_checkpoint_number(r), known,
                                            &typed.partner);
    same(answer,
         recovery_line_test_checkpoint(PLAIN_TABLES, p, r, ARRAY(known->sent), &plain.partner.number), expected,
         "test_checkpoint");
}

static void checkpoints(void) {
    rline_known known = rline_nothing_known();
    test_checkpoint_both(1, 2, &known, 0);
    expect(typed.partner.number == 0, "test_checkpoint", "finds nobody where nothing is known");
    rline_known_put(&known, second, 3);
    rline_known_put(&known, third, 7);
    expect(known.sent[1] == 3 && known.sent[2] == 7, "known_put", "puts by sender");
    for (uint64_t i = 0; i < 5 * 4; i++) {
        uint64_t p = i / 4, r = i % 4;
        test_checkpoint_both(p, r, &known, p < 1 || p > processes ? 10 : r < 1 || r > newest ? 12 : 0);
    }
    test_checkpoint_both(1, 2, &known, 0);
    expect(typed.partner.number == 2, "test_checkpoint", "finds who has sent less");
    end_group("checkpoints are tested");
}

static void find_both(uint32_t expected) {
    uint32_t answer = rline_find(&typed.tables, &typed.line);
    same(answer, recovery_line_find(PLAIN_TABLES, ARRAY(plain.line.set.checkpoints), &plain.line.passed), expected, "find");
}

static void search_both(uint64_t p, uint64_t purpose, uint32_t expected) {
    rline_search_result *result = &plain.search;
    uint32_t answer = rline_search(&typed.tables, rline_process_number(p), purpose, &typed.search);
    uint32_t plain_answer = recovery_line_search(PLAIN_TABLES, p, purpose, ARRAY(result->set.checkpoints), &result->newer,
                                                 &result->rounds, &result->messages);
    same(answer, plain_answer, expected, "search");
}

static void searches(void) {
    for (uint64_t i = 0; i < 5 * 5; i++) {
        uint64_t p = i / 5, purpose = i % 5;
        search_both(p, purpose, p < 1 || p > processes ? 10 : purpose < 1 || purpose > PURPOSE ? 11 : 0);
    }
    search_both(1, PURPOSE, 0);
    find_both(0);
    expect(memcmp(&typed.line.set, &typed.search.set, sizeof typed.line.set) == 0, "search", "ends on the line");
    expect(memcmp(typed.line.set.checkpoints, line, sizeof line) == 0, "find", "finds the line");
    expect(typed.line.passed == 1 && typed.search.newer == 1, "find", "counts newer checkpoints");
    expect(typed.search.rounds == 2 && typed.search.messages == 10, "search", "counts rounds and messages");
    end_group("the line is found, and searched for");
}

static void move_both(uint64_t purpose, uint32_t expected) {
    uint32_t answer = rline_restart_order(&typed.tables, purpose, &typed.order);
    same(answer, recovery_line_restart_order(PLAIN_TABLES, purpose, ARRAY(plain.order.words)), expected, "restart_order");
    answer = rline_move(&typed.tables, purpose, &typed.order);
    same(answer, recovery_line_move(PLAIN_TABLES, purpose, ARRAY(plain.order.words)), expected, "move");
}

static void moves(void) {
    for (uint64_t purpose = 0; purpose <= PURPOSE + 1; purpose++) {
        move_both(purpose, purpose < 1 || purpose > PURPOSE ? 11 : 0);
        read_both(book, sizeof book, 0);
    }
    move_both(PURPOSE, 0);
    rline_restart one = rline_order_get(&typed.order, first), two = rline_order_get(&typed.order, second);
    expect(one.from.number == 1 && one.before == 0 && one.after == 1, "order_get", "is the first worker's");
    expect(two.from.number == 2 && two.before == 1 && two.after == 0, "order_get", "is the second worker's");
    expect(rline_checkpoints(&typed.tables, second) == 1, "move", "keeps the line's");
    read_both(book, sizeof book, 0);
    end_group("the line is moved, and restart orders are given");
}

#include "typed_journal.h"
#include "typed_machines.h"
#include "typed_resend.h"
#include "typed_worker.h"

/* Looks at a process after the last, and at numbers that no process has, where nothing is 0. */
static void absent_processes(void) {
    const rline_process none[] = {{0}, {RECOVERY_LINE_PROCESSES + 1}, {UINT64_MAX}}, absent = {4}, last = {PROCESSES};
    static struct memory full;
    memset(&full, PATTERN, sizeof full);
    rline_set set = full.line.set;
    rline_known known = rline_nothing_known(), nothing = known;
    for (int i = 0; i < 3; i++) {
        expect(rline_checkpoints(&full.tables, none[i]) == 0, "checkpoints", "none of no process");
        expect(rline_set_get(&full.line.set, none[i]).number == 0, "set_get", "none of no process");
        expect(rline_order_get(&full.order, none[i]).after == 0, "order_get", "none of no process");
        expect(rline_order_repeat(&full.order, none[i], first).last == 0, "order_repeat", "none of no process");
        expect(rline_order_repeat(&full.order, first, none[i]).first == 0, "order_repeat", "none to no process");
        expect(rline_resend_repeat(&full.resend, none[i], last).first == 0, "resend_repeat", "none of no process");
        expect(rline_resend_repeat(&full.resend, last, none[i]).last == 0, "resend_repeat", "none to no process");
        expect(rline_message_to(&full.messages, none[i]).length == 0, "message_to", "none to no process");
        expect(!rline_session_waits(&full.session, none[i]), "session_waits", "not for no process");
        expect(rline_session_candidate(&full.session, none[i]).number == 0, "session_candidate", "none of no process");
        rline_set_put(&set, none[i], rline_checkpoint_number(9));
        rline_known_put(&known, none[i], 9);
    }
    expect(memcmp(&set, &full.line.set, sizeof set) == 0, "set_put", "nothing for no process");
    expect(memcmp(&known, &nothing, sizeof known) == 0, "known_put", "nothing for no process");
    rline_set_put(&set, last, rline_checkpoint_number(9));
    expect(rline_set_get(&set, last).number == 9, "set_put", "the last process's");
    expect(rline_checkpoints(&typed.tables, absent) == 0, "checkpoints", "none of an absent process");
    expect(!rline_session_ended(&typed.session, absent), "session_ended", "not an absent process");
    end_group("of no process there is nothing");
}

/* Every call on tables of no process. */
static void no_tables(void) {
    const rline_set set = {{0}};
    const rline_known known = rline_nothing_known();
    typed.tables.shape[RECOVERY_LINE_N_AT] = plain.tables.shape[RECOVERY_LINE_N_AT] = 0;
    memcpy(&before, &typed, sizeof before);
    same(rline_check(&typed.tables), recovery_line_check(PLAIN_TABLES), 4, "check");
    write_both(sizeof typed.book, 4);
    test_set_both(&set, 4);
    test_checkpoint_both(1, 1, &known, 4);
    find_both(4);
    search_both(1, PURPOSE, 4);
    move_both(PURPOSE, 4);
    write_resend_both(PURPOSE, sizeof typed.book, 4);
    begin_both(first, PURPOSE, 4);
    first_both(second, first, PURPOSE, 4);
    start_both(first, PURPOSE, 4);
    end_group("what tables are refused by, all calls are refused by");
}

int main(void) {
    memset(&typed, PATTERN, sizeof typed);
    memcpy(&plain, &typed, sizeof plain);
    memcpy(&before, &typed, sizeof before);
    reads();
    writes();
    sets();
    checkpoints();
    searches();
    moves();
    lists_are_written();
    lists_are_read();
    channels_are_seen();
    journals_in_every_room();
    full_journals();
    wrong_journals();
    sentences();
    machines();
    longest_message();
    sessions();
    ended_sessions();
    counting();
    counts_are_seen();
    shapes_are_no_places();
    searches_on_own_tables();
    wrong_own_tables();
    whole_tables_are_made();
    heads_are_seen();
    absent_processes();
    no_tables();
    return any_failed ? 1 : 0;
}
