//! The calls of the interface, and which questions each may be refused by.

/// A call of the interface.
#[derive(Clone, Copy, PartialEq, Eq, Debug)]
pub enum Call {
    Read,
    Journal,
    Check,
    Write,
    TestSet,
    TestCheckpoint,
    Find,
    ParticipantFirst,
    ParticipantReceive,
    InitiatorBegin,
    InitiatorReceive,
    SessionStart,
    SessionTurn,
    Search,
    Move,
    RestartOrder,
    WriteResend,
    ReadResend,
}

/// All calls, in the order of the header.
pub const CALLS: [Call; 18] = [
    Call::Read,
    Call::Journal,
    Call::Check,
    Call::Write,
    Call::TestSet,
    Call::TestCheckpoint,
    Call::Find,
    Call::ParticipantFirst,
    Call::ParticipantReceive,
    Call::InitiatorBegin,
    Call::InitiatorReceive,
    Call::SessionStart,
    Call::SessionTurn,
    Call::Search,
    Call::Move,
    Call::RestartOrder,
    Call::WriteResend,
    Call::ReadResend,
];

/// The answer of a call that is lent a slice of words, or of sixteen counters, of the wrong length.
pub const WRONG_LENGTH: u32 = 100;

/// All answers: accepted, the questions, and the wrong length.
pub const ANSWERS: [u32; 23] = [
    0,
    1,
    2,
    3,
    4,
    5,
    6,
    7,
    8,
    9,
    10,
    11,
    12,
    13,
    14,
    15,
    16,
    17,
    18,
    19,
    20,
    21,
    WRONG_LENGTH,
];

impl Call {
    /// The function's name without its prefix.
    pub fn name(self) -> &'static str {
        match self {
            Call::Read => "read",
            Call::Journal => "journal",
            Call::Check => "check",
            Call::Write => "write",
            Call::TestSet => "test_set",
            Call::TestCheckpoint => "test_checkpoint",
            Call::Find => "find",
            Call::ParticipantFirst => "participant_first",
            Call::ParticipantReceive => "participant_receive",
            Call::InitiatorBegin => "initiator_begin",
            Call::InitiatorReceive => "initiator_receive",
            Call::SessionStart => "session_start",
            Call::SessionTurn => "session_turn",
            Call::Search => "search",
            Call::Move => "move",
            Call::RestartOrder => "restart_order",
            Call::WriteResend => "write_resend",
            Call::ReadResend => "read_resend",
        }
    }

    /// The questions that the call puts after those of the tables.
    fn own_questions(self) -> &'static [u32] {
        match self {
            Call::Read => &[1, 2, 3, 4, 5, 6, 7, 8, 9],
            Call::Journal => &[1, 2, 3, 4, 5, 10, 19, 20],
            Call::Check | Call::Find => &[],
            Call::Write => &[17],
            Call::TestSet => &[12],
            Call::TestCheckpoint => &[10, 12],
            Call::ParticipantFirst | Call::Search => &[10, 11],
            Call::ParticipantReceive | Call::InitiatorReceive => &[10, 11, 13, 14, 15, 16, 17],
            Call::InitiatorBegin | Call::SessionStart => &[10, 11, 17],
            Call::SessionTurn => &[10, 11, 13, 17, 18],
            Call::Move | Call::RestartOrder => &[11],
            Call::WriteResend => &[11, 17],
            Call::ReadResend => &[3, 4, 10, 21],
        }
    }

    /// Whether the call can give this answer.
    pub fn can_answer(self, answer: u32) -> bool {
        let of_tables = self.reads_tables() && [2, 4, 5, 6, 7, 8, 9].contains(&answer);
        answer == 0 || answer == WRONG_LENGTH || of_tables || self.own_questions().contains(&answer)
    }

    /// Whether the call reads bytes into tables, of which nothing but their lengths is asked.
    pub fn fills_tables(self) -> bool {
        matches!(self, Call::Read | Call::Journal)
    }

    /// Whether the call puts the questions of tables.
    pub fn reads_tables(self) -> bool {
        !self.fills_tables() && self != Call::ReadResend
    }

    /// How many of `Lent::names` the call is given.
    pub fn names(self) -> usize {
        match self {
            Call::ParticipantFirst => 3,
            Call::TestCheckpoint | Call::InitiatorBegin | Call::SessionStart | Call::Search => 2,
            Call::SessionTurn | Call::Move | Call::RestartOrder | Call::WriteResend | Call::ReadResend => 1,
            _ => 0,
        }
    }

    /// Whether the call is lent a buffer of bytes to write to.
    pub fn writes_bytes(self) -> bool {
        matches!(
            self,
            Call::Write
                | Call::WriteResend
                | Call::ParticipantReceive
                | Call::InitiatorBegin
                | Call::InitiatorReceive
                | Call::SessionStart
                | Call::SessionTurn
        )
    }

    /// Whether the call is given a state of a machine or a session.
    pub fn takes_state(self) -> bool {
        matches!(
            self,
            Call::ParticipantReceive | Call::InitiatorReceive | Call::SessionTurn
        )
    }

    /// Whether the call is given a message.
    pub fn takes_message(self) -> bool {
        matches!(self, Call::ParticipantReceive | Call::InitiatorReceive)
    }
}
