/*
 * The part of tests/typed.c on lists of what to send again.
 */

/* Of K's example 1 with its line 1 2 2: process 1 has received none of what 2 and 3 have sent it. */
static const uint8_t list[] = {2, 2, 1, 1, 3, 3, 1, 1, 7};

static void write_resend_both(uint64_t purpose, size_t room, uint32_t expected) {
    uint64_t length = plain.length;
    uint32_t answer = rline_write_resend(&typed.tables, purpose, typed.book, room, &typed.length);
    uint32_t plain_answer = recovery_line_write_resend(PLAIN_TABLES, purpose, plain.book, room, &length);
    plain.length = (size_t)length;
    same(answer, plain_answer, expected, "write_resend");
}

static void lists_are_written(void) {
    for (uint64_t purpose = 0; purpose <= PURPOSE + 1; purpose++) {
        bool there = purpose >= 1 && purpose <= PURPOSE;
        size_t needed = purpose == RECOVERY_LINE_RESTART ? 1 : sizeof list;
        for (size_t room = 0; room <= sizeof list; room++) {
            write_resend_both(purpose, room, !there ? 11 : room < needed ? RLINE_NO_ROOM : 0);
        }
    }
    expect(typed.length == sizeof list && memcmp(typed.book, list, sizeof list) == 0, "write_resend", "writes the list");
    write_resend_both(RECOVERY_LINE_RESTART, sizeof typed.book, 0);
    expect(typed.length == 1 && typed.book[0] == 0, "write_resend", "writes an empty list");
    end_group("lists are written");
}

static void read_resend_both(uint64_t n, const uint8_t *bytes, size_t length, uint32_t expected) {
    uint32_t answer = rline_read_resend(&typed.resend, n, bytes, length);
    same(answer, recovery_line_read_resend(n, bytes, length, ARRAY(plain.resend.words)), expected, "read_resend");
}

static void lists_are_read(void) {
    const uint8_t more[] = {0, 0}, itself[] = {1, 1, 1, 1, 1}, backwards[] = {1, 1, 2, 2, 1};
    read_resend_both(processes, NULL, 0, 3);
    for (size_t length = 1; length < sizeof list; length++) {
        read_resend_both(processes, list, length, 3);
    }
    read_resend_both(0, list, sizeof list, 4);
    read_resend_both(PROCESSES + 1, list, sizeof list, 4);
    read_resend_both(processes - 1, list, sizeof list, 10);
    read_resend_both(processes, more, sizeof more, 21);
    read_resend_both(processes, itself, sizeof itself, 21);
    read_resend_both(processes, backwards, sizeof backwards, 21);
    read_resend_both(PROCESSES, more, 1, 0);
    read_resend_both(processes, list, sizeof list, 0);
    end_group("lists are read");
}

static bool is_repeat(rline_repeat repeat, uint64_t first_message, uint64_t last_message) {
    return repeat.first == first_message && repeat.last == last_message;
}

/* What was read last, and an order with the same list. */
static void channels_are_seen(void) {
    uint32_t answer = rline_restart_order(&typed.tables, PURPOSE, &typed.order);
    same(answer, recovery_line_restart_order(PLAIN_TABLES, PURPOSE, ARRAY(plain.order.words)), 0, "restart_order");
    expect(is_repeat(rline_order_repeat(&typed.order, second, first), 1, 3), "order_repeat", "is what the second sends");
    expect(is_repeat(rline_order_repeat(&typed.order, third, first), 1, 7), "order_repeat", "is what the third sends");
    for (uint64_t i = 0; i < 18 * 18; i++) {
        const rline_process sender = {i / 18}, receiver = {i % 18};
        rline_repeat of_order = rline_order_repeat(&typed.order, sender, receiver);
        rline_repeat of_list = rline_resend_repeat(&typed.resend, sender, receiver);
        bool there = receiver.number == 1 && (sender.number == 2 || sender.number == 3);
        expect(is_repeat(of_list, of_order.first, of_order.last), "resend_repeat", "is the order's");
        expect(there || is_repeat(of_order, 0, 0), "order_repeat", "is none of another channel");
    }
    end_group("what is sent again is seen by its channel");
}
