//! The C interface as it is: the declarations and constants of `include/recovery_line.h`, whose rules hold here too.
//! The module [`raw`](crate::raw) has a safe function for each of these.

/// The version of this interface.
pub const RECOVERY_LINE_VERSION: u32 = 5;

/// The most processes.
pub const RECOVERY_LINE_PROCESSES: usize = 16;
/// The most checkpoints, of all processes together.
pub const RECOVERY_LINE_CHECKPOINTS: usize = 256;
/// The most bytes of a book.
pub const RECOVERY_LINE_BOOK_BYTES: usize = 65536;
/// The most bytes of a journal.
pub const RECOVERY_LINE_JOURNAL_BYTES: usize = 65536;
/// The most bytes of a number.
pub const RECOVERY_LINE_GROUPS: usize = 5;
/// The entries of each table.
pub const RECOVERY_LINE_TABLE_ENTRIES: usize = RECOVERY_LINE_CHECKPOINTS * RECOVERY_LINE_PROCESSES;
/// The entries of a matrix.
pub const RECOVERY_LINE_MATRIX_ENTRIES: usize = RECOVERY_LINE_PROCESSES * RECOVERY_LINE_PROCESSES;

/// Where n stands in a shape, a participant's state, an initiator's and a session.
pub const RECOVERY_LINE_N_AT: usize = 0;

/// Where the counts of checkpoints begin in a shape, after n.
pub const RECOVERY_LINE_SHAPE_COUNTS_AT: usize = 1;
/// The words of a shape.
pub const RECOVERY_LINE_SHAPE_WORDS: usize = RECOVERY_LINE_SHAPE_COUNTS_AT + RECOVERY_LINE_PROCESSES;
/// The words of a set or line.
pub const RECOVERY_LINE_SET_WORDS: usize = RECOVERY_LINE_PROCESSES;
/// The words of a pair at fault.
pub const RECOVERY_LINE_PAIR_WORDS: usize = 2;
/// The words that say how long the messages of one step are.
pub const RECOVERY_LINE_LENGTHS_WORDS: usize = RECOVERY_LINE_PROCESSES;

/// Where the last messages of a list of what to send again begin, after the first ones: a row of each for each sender.
pub const RECOVERY_LINE_RESEND_LAST_AT: usize = RECOVERY_LINE_MATRIX_ENTRIES;
/// The words of a list of what to send again.
pub const RECOVERY_LINE_RESEND_WORDS: usize = RECOVERY_LINE_RESEND_LAST_AT + RECOVERY_LINE_MATRIX_ENTRIES;

/// Where a restart order says how many older ones are dropped, after the checkpoints restarted from.
pub const RECOVERY_LINE_ORDER_BEFORE_AT: usize = RECOVERY_LINE_SET_WORDS;
/// Where it says how many newer ones are dropped.
pub const RECOVERY_LINE_ORDER_AFTER_AT: usize = RECOVERY_LINE_ORDER_BEFORE_AT + RECOVERY_LINE_PROCESSES;
/// Where its list of what to send again begins.
pub const RECOVERY_LINE_ORDER_RESEND_AT: usize = RECOVERY_LINE_ORDER_AFTER_AT + RECOVERY_LINE_PROCESSES;
/// The words of a restart order.
pub const RECOVERY_LINE_ORDER_WORDS: usize = RECOVERY_LINE_ORDER_RESEND_AT + RECOVERY_LINE_RESEND_WORDS;

/// Where a participant's own process stands in its state, after n.
pub const RECOVERY_LINE_PARTICIPANT_PROCESS_AT: usize = 1;
/// Where the initiator stands.
pub const RECOVERY_LINE_PARTICIPANT_INITIATOR_AT: usize = RECOVERY_LINE_PARTICIPANT_PROCESS_AT + 1;
/// Where the purpose stands.
pub const RECOVERY_LINE_PARTICIPANT_PURPOSE_AT: usize = RECOVERY_LINE_PARTICIPANT_INITIATOR_AT + 1;
/// Where the stage stands.
pub const RECOVERY_LINE_PARTICIPANT_STAGE_AT: usize = RECOVERY_LINE_PARTICIPANT_PURPOSE_AT + 1;
/// Where the candidate stands.
pub const RECOVERY_LINE_PARTICIPANT_CANDIDATE_AT: usize = RECOVERY_LINE_PARTICIPANT_STAGE_AT + 1;
/// Where the row that it last reported begins.
pub const RECOVERY_LINE_PARTICIPANT_ROW_AT: usize = RECOVERY_LINE_PARTICIPANT_CANDIDATE_AT + 1;
/// Where its column begins.
pub const RECOVERY_LINE_PARTICIPANT_COLUMN_AT: usize = RECOVERY_LINE_PARTICIPANT_ROW_AT + RECOVERY_LINE_PROCESSES;
/// The words of a participant's state.
pub const RECOVERY_LINE_PARTICIPANT_WORDS: usize = RECOVERY_LINE_PARTICIPANT_COLUMN_AT + RECOVERY_LINE_PROCESSES;

/// Where an initiator's own process stands in its state, after n.
pub const RECOVERY_LINE_INITIATOR_PROCESS_AT: usize = 1;
/// Where the purpose stands.
pub const RECOVERY_LINE_INITIATOR_PURPOSE_AT: usize = RECOVERY_LINE_INITIATOR_PROCESS_AT + 1;
/// Where it says whether it has ended.
pub const RECOVERY_LINE_INITIATOR_ENDED_AT: usize = RECOVERY_LINE_INITIATOR_PURPOSE_AT + 1;
/// Where the candidate stands.
pub const RECOVERY_LINE_INITIATOR_CANDIDATE_AT: usize = RECOVERY_LINE_INITIATOR_ENDED_AT + 1;
/// Where the count of rounds stands.
pub const RECOVERY_LINE_INITIATOR_ROUNDS_AT: usize = RECOVERY_LINE_INITIATOR_CANDIDATE_AT + 1;
/// Where it begins to say who is awaited.
pub const RECOVERY_LINE_INITIATOR_AWAITED_AT: usize = RECOVERY_LINE_INITIATOR_ROUNDS_AT + 1;
/// Where the matrix begins, a row for each sender.
pub const RECOVERY_LINE_INITIATOR_MATRIX_AT: usize = RECOVERY_LINE_INITIATOR_AWAITED_AT + RECOVERY_LINE_PROCESSES;
/// Where its copy begins.
pub const RECOVERY_LINE_INITIATOR_COPY_AT: usize = RECOVERY_LINE_INITIATOR_MATRIX_AT + RECOVERY_LINE_MATRIX_ENTRIES;
/// The words of an initiator's state.
pub const RECOVERY_LINE_INITIATOR_WORDS: usize = RECOVERY_LINE_INITIATOR_COPY_AT + RECOVERY_LINE_MATRIX_ENTRIES;

/// Where a session names its initiator, after n.
pub const RECOVERY_LINE_SESSION_INITIATOR_AT: usize = 1;
/// Where the purpose stands.
pub const RECOVERY_LINE_SESSION_PURPOSE_AT: usize = RECOVERY_LINE_SESSION_INITIATOR_AT + 1;
/// Where the initiator's words begin.
pub const RECOVERY_LINE_SESSION_MACHINE_AT: usize = RECOVERY_LINE_SESSION_PURPOSE_AT + 1;
/// Where the participants' words begin, those of one after those of another.
pub const RECOVERY_LINE_SESSION_PARTICIPANTS_AT: usize =
    RECOVERY_LINE_SESSION_MACHINE_AT + RECOVERY_LINE_INITIATOR_WORDS;
/// Where it begins to say how many bytes wait on each strand.
pub const RECOVERY_LINE_SESSION_LENGTHS_AT: usize =
    RECOVERY_LINE_SESSION_PARTICIPANTS_AT + RECOVERY_LINE_PROCESSES * RECOVERY_LINE_PARTICIPANT_WORDS;
/// Where the count of messages delivered stands.
pub const RECOVERY_LINE_SESSION_DELIVERED_AT: usize = RECOVERY_LINE_SESSION_LENGTHS_AT + RECOVERY_LINE_PROCESSES;
/// The words of a session.
pub const RECOVERY_LINE_SESSION_WORDS: usize = RECOVERY_LINE_SESSION_DELIVERED_AT + 1;

/// A participant's stage: before the invitation.
pub const RECOVERY_LINE_STAGE_BEFORE: u64 = 0;
/// A participant's stage: in a search.
pub const RECOVERY_LINE_STAGE_SEARCHING: u64 = 1;
/// A participant's stage: ended.
pub const RECOVERY_LINE_STAGE_ENDED: u64 = 2;
/// An initiator that has not ended.
pub const RECOVERY_LINE_NOT_ENDED: u64 = 0;
/// An initiator that has ended.
pub const RECOVERY_LINE_ENDED: u64 = 1;
/// A process of which no report is awaited.
pub const RECOVERY_LINE_NOT_AWAITED: u64 = 0;
/// A process of which a report is awaited.
pub const RECOVERY_LINE_AWAITED: u64 = 1;

/// The most bytes of the four numbers before a message's pairs.
pub const RECOVERY_LINE_HEAD_SIZE: usize = 4;
/// The most bytes of a pair: a process of one byte, and a counter.
pub const RECOVERY_LINE_PAIR_SIZE: usize = 1 + RECOVERY_LINE_GROUPS;
/// The bytes of the longest message among `n` processes, `n` at least 1.
#[allow(non_snake_case)]
pub const fn RECOVERY_LINE_MESSAGE_BYTES(n: usize) -> usize {
    RECOVERY_LINE_HEAD_SIZE + (n - 1) * RECOVERY_LINE_PAIR_SIZE
}
/// The bytes that always suffice for the messages of one step, and for a session's strands, `n` at least 1.
#[allow(non_snake_case)]
pub const fn RECOVERY_LINE_STRAND_BYTES(n: usize) -> usize {
    (n - 1) * RECOVERY_LINE_MESSAGE_BYTES(n)
}

/// The bytes of the longest list of what to send again.
pub const RECOVERY_LINE_MOST_RESEND_BYTES: usize =
    2 + RECOVERY_LINE_PROCESSES * (RECOVERY_LINE_PROCESSES - 1) * (2 + 2 * RECOVERY_LINE_GROUPS);

/// The stack that suffices for every call.
pub const RECOVERY_LINE_STACK_BYTES: usize = 77824;

/// An entry of a table, a counter; in C `recovery_line_counter`.
pub type Counter = u32;
/// A counter that is not known.
pub const RECOVERY_LINE_NOT_KNOWN: Counter = 4294967295;

/// The purpose that advances the line.
pub const RECOVERY_LINE_ADVANCE: u64 = 1;
/// The purpose that only restarts.
pub const RECOVERY_LINE_RESTART: u64 = 2;
/// The purpose that advances the line and restarts.
pub const RECOVERY_LINE_ADVANCE_AND_RESTART: u64 = 3;

/// The kind of a message: an invitation.
pub const RECOVERY_LINE_INVITATION: u64 = 1;
/// The kind of every other message.
pub const RECOVERY_LINE_OTHER_MESSAGE: u64 = 2;

/// The kind of an event: sent by the process to the partner.
pub const RECOVERY_LINE_EVENT_SENT: u64 = 1;
/// The kind of an event: received by the process from the partner.
pub const RECOVERY_LINE_EVENT_RECEIVED: u64 = 2;
/// The kind of an event: a checkpoint of the process.
pub const RECOVERY_LINE_EVENT_CHECKPOINT: u64 = 3;

/// The answer of a call that accepts.
pub const RECOVERY_LINE_ACCEPTED: u32 = 0;
/// The answer of a call that is lent a slice of words, or of sixteen counters, of the wrong length.
pub const RECOVERY_LINE_WRONG_LENGTH: u32 = 100;

extern "C" {
    /// The version of the archive, which is to be [`RECOVERY_LINE_VERSION`].
    pub fn recovery_line_version() -> u32;
}

macro_rules! declare {
    (($(#[$doc:meta])* $name:ident = $symbol:ident $lent:tt) ($($declared:tt)*) $handed:tt) => {
        extern "C" {
            $(#[$doc])*
            pub fn $symbol($($declared)*) -> u32;
        }
    };
}
interface!(declare);
