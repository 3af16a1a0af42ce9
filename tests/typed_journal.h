/*
 * The part of tests/typed.c on the journal that rline.h writes, and on the sentences of questions.
 */

/* All kinds of events, with numbers of one, two, three and ten bytes; what must be written of them. */
static void write_events(rline_journal *journal) {
    rline_journal_sent(journal, first, second);
    rline_journal_received(journal, second, first);
    rline_journal_checkpoint(journal, third);
    rline_journal_checkpoint(journal, rline_process_number(127));
    rline_journal_sent(journal, rline_process_number(128), rline_process_number(16383));
    rline_journal_received(journal, rline_process_number(16384), rline_process_number(0));
    rline_journal_sent(journal, rline_process_number(UINT64_MAX), rline_process_number(UINT64_MAX));
}
#define LONGEST 0xFF, 0xFF, 0xFF, 0xFF, 0xFF, 0xFF, 0xFF, 0xFF, 0xFF, 1
static const uint8_t written[] = {LONGEST, 1, 1, 2, 2, 2, 1, 3, 3, 3, 127, 1, 0x80, 1, 0xFF, 0x7F, 2, 0x80, 0x80, 1, 0, 1,
                                  LONGEST, LONGEST};
/* Where n and each event end. */
static const size_t ends[] = {10, 13, 16, 18, 20, 25, 30, 51};
enum { ENDS = sizeof ends / sizeof ends[0] };

/* The same in every room: what fits is written up to the first that does not, and nothing else is touched. */
static void journals_in_every_room(void) {
    for (size_t room = 0; room <= sizeof written; room++) {
        uint8_t buffer[sizeof written + 8];
        size_t fits = 0;
        memset(buffer, PATTERN, sizeof buffer);
        rline_journal journal = rline_journal_begin(room == 0 ? NULL : buffer, room, UINT64_MAX);
        write_events(&journal);
        for (int i = 0; i < ENDS && ends[i] <= room; i++) {
            fits = ends[i];
        }
        expect(journal.length == fits, "journal", "is as long as what fits");
        expect(memcmp(buffer, written, fits) == 0, "journal", "has the bytes of its events");
        expect(journal.full == (room < sizeof written), "journal", "is full once something did not fit");
        for (size_t i = fits; i < sizeof buffer; i++) {
            expect(buffer[i] == PATTERN, "journal", "leaves what is after it");
        }
    }
    end_group("journals are written to the last byte of their room, and no further");
}

/* An event that does not fit fills the journal: one that would fit is not written after it, and it is refused. */
static void full_journals(void) {
    uint8_t buffer[5] = {0};
    rline_journal journal = rline_journal_begin(buffer, sizeof buffer, 2);
    rline_journal_checkpoint(&journal, first);
    uint32_t answer = rline_read_journal(&typed.tables, &journal);
    same(answer, recovery_line_journal(buffer, journal.length, PLAIN_TABLES), 0, "read_journal");
    rline_journal_sent(&journal, first, second);
    rline_journal_checkpoint(&journal, second);
    expect(journal.full && journal.length == 3, "journal", "is full where an event did not fit");
    same(rline_read_journal(&typed.tables, &journal), RLINE_NO_ROOM, RLINE_NO_ROOM, "read_journal");
    expect(rline_checkpoints(&typed.tables, first) == 2, "read_journal", "has filled the tables before");
    end_group("a full journal is refused");
}

/* What is no event is refused by the questions. */
static void wrong_journals(void) {
    uint8_t buffer[64];
    rline_journal journal = rline_journal_begin(buffer, sizeof buffer, 17);
    uint32_t answer = rline_read_journal(&typed.tables, &journal);
    same(answer, recovery_line_journal(buffer, journal.length, PLAIN_TABLES), 4, "read_journal");
    journal = rline_journal_begin(buffer, sizeof buffer, 2);
    rline_journal_received(&journal, first, second);
    answer = rline_read_journal(&typed.tables, &journal);
    same(answer, recovery_line_journal(buffer, journal.length, PLAIN_TABLES), 20, "read_journal");
    journal = rline_journal_begin(buffer, sizeof buffer, 2);
    rline_journal_checkpoint(&journal, third);
    answer = rline_read_journal(&typed.tables, &journal);
    same(answer, recovery_line_journal(buffer, journal.length, PLAIN_TABLES), 10, "read_journal");
    read_both(book, sizeof book, 0);
    end_group("journals of what is no event are refused");
}

/* Every question has a sentence of its own; other numbers have none. */
static void sentences(void) {
    const uint32_t others[] = {22, 99, 101, 256 + 1, UINT32_MAX};
    const char *none = recovery_line_question(others[0]);
    for (uint32_t q = 1; q <= 21; q++) {
        const char *sentence = recovery_line_question(q);
        expect(sentence[strlen(sentence) - 1] == '?', "question", "is a question");
        expect(strcmp(sentence, recovery_line_question(q % 21 + 1)) != 0, "question", "is that number's");
        expect(strcmp(recovery_line_question(others[q % 5]), none) == 0, "question", "is no question");
    }
    expect(strstr(none, "no such question") != NULL, "question", "says that there is none");
    expect(strstr(recovery_line_question(RECOVERY_LINE_WRONG_LENGTH), "wrong length") != NULL, "question", "is the length's");
    expect(strcmp(recovery_line_question(RECOVERY_LINE_ACCEPTED), "Accepted.") == 0, "question", "accepts");
    end_group("questions have sentences");
}
