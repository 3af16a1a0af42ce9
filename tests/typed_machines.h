/*
 * The part of tests/typed.c on machines and sessions.
 */

static void first_both(rline_process me, rline_process initiator, uint64_t purpose, uint32_t expected) {
    uint64_t at = (me.number + PROCESSES - 1) % PROCESSES;
    uint32_t answer = rline_participant_first(&typed.participants[at], &typed.tables, me, initiator, purpose);
    same(answer,
         recovery_line_participant_first(PLAIN_TABLES, me.number, initiator.number, purpose,
                                         ARRAY(plain.participants[at].words)),
         expected, "participant_first");
}

static void begin_both(rline_process me, uint64_t purpose, uint32_t expected) {
    uint32_t answer = rline_initiator_begin(&typed.initiator, &typed.tables, me, purpose, &typed.messages);
    same(answer,
         recovery_line_initiator_begin(PLAIN_TABLES, me.number, purpose, ARRAY(plain.initiator.words), PLAIN_MESSAGES),
         expected, "initiator_begin");
}

static void receive_both(rline_process me, rline_message message, uint32_t expected) {
    uint32_t answer, plain_answer;
    if (me.number == first.number) {
        answer = rline_initiator_receive(&typed.initiator, &typed.tables, message, &typed.messages);
        plain_answer = recovery_line_initiator_receive(ARRAY(plain.initiator.words), PLAIN_TABLES, message.bytes,
                                                       message.length, PLAIN_MESSAGES);
    } else {
        uint64_t *words = plain.participants[me.number - 1].words;
        answer = rline_participant_receive(&typed.participants[me.number - 1], &typed.tables, message, &typed.messages);
        plain_answer = recovery_line_participant_receive(words, RECOVERY_LINE_PARTICIPANT_WORDS, PLAIN_TABLES,
                                                         message.bytes, message.length, PLAIN_MESSAGES);
    }
    same(answer, plain_answer, expected, me.number == first.number ? "initiator_receive" : "participant_receive");
}

/* Messages on their way, the newest delivered first. */
static struct {
    rline_process to;
    rline_message message;
} letters[PROCESSES];
static size_t waiting, delivered;

static void send_all(void) {
    for (uint64_t p = 1; p <= processes; p++) {
        rline_message message = rline_message_to(&typed.messages, rline_process_number(p));
        expect(message.length == typed.messages.lengths[p - 1], "message_to", "has the length that was written");
        if (message.length != 0) {
            letters[waiting].to.number = p;
            letters[waiting++].message = message;
        }
    }
}

/* Delivers what is refused, and then the message itself. */
static void deliver(rline_process to, rline_message message) {
    uint8_t too_long[2 * sizeof message.bytes] = {0};
    memcpy(too_long, message.bytes, message.length);
    rline_message cut = rline_message_of(message.bytes, message.length - 1);
    expect(cut.length == message.length - 1 && memcmp(cut.bytes, message.bytes, cut.length) == 0, "message_of",
           "has the bytes that came in");
    receive_both(to, cut, 14);
    receive_both(to, rline_message_of(NULL, 0), 14);
    receive_both(to, rline_message_of(too_long, sizeof too_long), 14);
    receive_both(to, message, 0);
    delivered++;
}

static void machines_are_seen(void) {
    for (uint64_t p = 2; p <= processes; p++) {
        const rline_participant *machine = &typed.participants[p - 1];
        expect(rline_participant_ended(machine), "participant_ended", "has ended");
        expect(rline_participant_candidate(machine).number == line[p - 1], "participant_candidate", "is on the line");
    }
    expect(rline_initiator_ended(&typed.initiator), "initiator_ended", "has ended");
    expect(rline_initiator_candidate(&typed.initiator).number == line[0], "initiator_candidate", "is on the line");
    expect(rline_initiator_rounds(&typed.initiator) == 2 && delivered == 10, "initiator_rounds", "counts the rounds");
}

static void machines(void) {
    const uint8_t invitation[] = {RECOVERY_LINE_INVITATION, PURPOSE, 1, 1, 1, 0};
    begin_both(rline_process_number(0), PURPOSE, 10);
    begin_both(first, PURPOSE + 1, 11);
    begin_both(first, PURPOSE, 0);
    rline_message message = rline_message_to(&typed.messages, second);
    expect(message.length == sizeof invitation && memcmp(message.bytes, invitation, sizeof invitation) == 0, "message_to",
           "is the invitation");
    expect(!rline_initiator_ended(&typed.initiator), "initiator_ended", "has not ended");
    send_all();
    first_both(first, first, PURPOSE, 10);
    first_both(second, first, PURPOSE + 1, 11);
    first_both(second, first, PURPOSE, 0);
    first_both(third, first, PURPOSE, 0);
    expect(!rline_participant_ended(&typed.participants[1]), "participant_ended", "has not ended");
    expect(rline_participant_candidate(&typed.participants[1]).number == newest, "participant_candidate", "is the newest");
    while (waiting > 0) {
        waiting--;
        deliver(letters[waiting].to, letters[waiting].message);
        send_all();
    }
    machines_are_seen();
    end_group("machines search over a queue");
}

/* The longest message there can be is received, and with a byte more, which is not read, refused. */
static void longest_message(void) {
    const uint64_t longest = RECOVERY_LINE_MESSAGE_BYTES(PROCESSES);
    uint8_t bytes[2 * RECOVERY_LINE_MESSAGE_BYTES(PROCESSES)] = {0};
    memset(&typed.tables, 0, sizeof typed.tables);
    typed.tables.shape[RECOVERY_LINE_N_AT] = PROCESSES;
    for (int p = 0; p < PROCESSES; p++) {
        typed.tables.shape[RECOVERY_LINE_SHAPE_COUNTS_AT + p] = p == 1 ? 2 : 1;
        typed.tables.sent[2 * PROCESSES + p] = p == 1 ? 0 : RECOVERY_LINE_NOT_KNOWN - 1; /* second's newest */
    }
    memcpy(&plain.tables, &typed.tables, sizeof plain.tables);
    memcpy(&before, &typed, sizeof before);
    begin_both(first, PURPOSE, 0);
    first_both(second, first, PURPOSE, 0);
    receive_both(second, rline_message_to(&typed.messages, second), 0);
    rline_message report = rline_message_to(&typed.messages, first);
    expect(report.length == longest, "message_to", "has the longest message");
    memcpy(bytes, report.bytes, report.length);
    receive_both(first, rline_message_of(bytes, report.length + 1), 14);
    receive_both(first, rline_message_of(bytes, sizeof bytes), 14);
    receive_both(first, rline_message_of(bytes, report.length), 0);
    read_both(book, sizeof book, 0);
    end_group("the longest message fits, and none that is longer");
}

/* Sessions. */

static void start_both(rline_process initiator, uint64_t purpose, uint32_t expected) {
    uint32_t answer = rline_session_start(&typed.session, &typed.tables, initiator, purpose);
    same(answer,
         recovery_line_session_start(PLAIN_TABLES, initiator.number, purpose, ARRAY(plain.session.words),
                                     ARRAY(plain.session.strands)),
         expected, "session_start");
}

static void turn_both(rline_process participant, uint32_t expected) {
    uint32_t answer = rline_session_turn(&typed.session, &typed.tables, participant);
    same(answer,
         recovery_line_session_turn(ARRAY(plain.session.words), PLAIN_TABLES, participant.number,
                                    ARRAY(plain.session.strands)),
         expected, "session_turn");
}

/* What is seen of a session whose workers have all ended, or none. */
static void session_is_seen(bool ended, uint64_t rounds, uint64_t deliveries) {
    for (uint64_t p = 1; p <= processes; p++) {
        const rline_process worker = rline_process_number(p);
        uint64_t candidate = rline_session_candidate(&typed.session, worker).number;
        expect(rline_session_ended(&typed.session, worker) == ended, "session_ended", "is each worker's");
        expect(candidate == (ended ? line[p - 1] : newest), "session_candidate", "is each worker's");
        expect(rline_session_waits(&typed.session, worker) == (!ended && p != second.number), "session_waits",
               "is each participant's");
    }
    expect(rline_session_all_ended(&typed.session) == ended, "session_all_ended", "is all workers'");
    expect(rline_session_rounds(&typed.session) == rounds, "session_rounds", "counts the rounds");
    expect(rline_session_delivered(&typed.session) == deliveries, "session_delivered", "counts the deliveries");
}

static void sessions(void) {
    uint64_t turns = 0;
    start_both(rline_process_number(4), PURPOSE, 10);
    start_both(second, 0, 11);
    start_both(second, PURPOSE, 0);
    session_is_seen(false, 1, 0);
    turn_both(second, 10);
    turn_both(rline_process_number(4), 10);
    for (uint64_t p = 1; rline_session_waits(&typed.session, first) || rline_session_waits(&typed.session, third); p = 4 - p) {
        const rline_process worker = rline_process_number(p);
        bool waits = rline_session_waits(&typed.session, worker);
        expect(!rline_session_all_ended(&typed.session), "session_all_ended", "not while a message waits");
        turns += waits;
        turn_both(worker, waits ? 0 : 18);
    }
    turn_both(third, 18);
    expect(turns == 10, "session_turn", "ends after ten messages");
    session_is_seen(true, 2, turns);
    end_group("sessions take their turns");
}

/* Words in which whoever there can be has ended. */
static void ended_sessions(void) {
    static rline_session session;
    expect(!rline_session_all_ended(&session), "session_all_ended", "not where there is nobody");
    for (int i = 0; i < RECOVERY_LINE_SESSION_WORDS; i++) {
        session.words[i] = RECOVERY_LINE_STAGE_ENDED;
    }
    session.words[RECOVERY_LINE_SESSION_MACHINE_AT + RECOVERY_LINE_INITIATOR_ENDED_AT] = RECOVERY_LINE_ENDED;
    session.words[RECOVERY_LINE_N_AT] = PROCESSES;
    expect(rline_session_all_ended(&session), "session_all_ended", "is all sixteen workers'");
    session.words[RECOVERY_LINE_N_AT] = PROCESSES + 1;
    expect(!rline_session_all_ended(&session), "session_all_ended", "not of more workers than there can be");
    session.words[RECOVERY_LINE_N_AT] = UINT64_MAX;
    expect(!rline_session_all_ended(&session), "session_all_ended", "not of more workers than there can be");
    session.words[RECOVERY_LINE_N_AT] = PROCESSES;
    session.words[RECOVERY_LINE_SESSION_LENGTHS_AT - RECOVERY_LINE_PARTICIPANT_WORDS + RECOVERY_LINE_PARTICIPANT_STAGE_AT] =
        RECOVERY_LINE_STAGE_SEARCHING;
    expect(!rline_session_all_ended(&session), "session_all_ended", "not while the last worker searches");
    end_group("a session has ended when all workers have");
}
