//! The library's calls, through its C interface, on what is lent.

use crate::call::Call;
use crate::lent::{Guarded, Lent, Pattern};
use recovery_line::{sys, Counter};

/// A slice as C passes it.
#[derive(Clone, Copy)]
struct Raw<T> {
    start: *mut T,
    length: usize,
}

/// A buffer as C passes it: null for an empty one, which C may pass.
fn raw<T: Pattern>(buffer: &mut Guarded<T>) -> Raw<T> {
    let lent = buffer.lent_mut();
    let length = lent.len();
    let start = if length == 0 {
        std::ptr::null_mut()
    } else {
        lent.as_mut_ptr()
    };
    Raw { start, length }
}

/// Everything that is lent, as C passes it.
struct Arguments {
    shape: Raw<u64>,
    sent: Raw<Counter>,
    received: Raw<Counter>,
    bytes: Raw<u8>,
    out: Raw<u8>,
    state: Raw<u64>,
    set: Raw<u64>,
    known: Raw<Counter>,
    result: Raw<u64>,
    names: [u64; 3],
    numbers: [*mut u64; 3],
}

impl Arguments {
    // Inlined, so that a measured call pays nothing for what it is not given.
    #[inline(always)]
    fn of(lent: &mut Lent) -> Self {
        let [first, second, third] = &mut lent.numbers;
        Arguments {
            shape: raw(&mut lent.shape),
            sent: raw(&mut lent.sent),
            received: raw(&mut lent.received),
            bytes: raw(&mut lent.bytes),
            out: raw(&mut lent.out),
            state: raw(&mut lent.state),
            set: raw(&mut lent.set),
            known: raw(&mut lent.known),
            result: raw(&mut lent.result),
            names: lent.names,
            numbers: [first, second, third],
        }
    }
}

/// Calls `$function`: each name in brackets is a slice of `$a`, passed as a pointer and a length; then plain arguments.
macro_rules! call {
    ($function:ident, $a:ident, [$($slice:ident)*] $(, $plain:expr)* $(; [$($last:ident)*] $(, $number:expr)*)?) => {
        sys::$function(
            $($a.$slice.start, $a.$slice.length,)*
            $($plain,)*
            $($($a.$last.start, $a.$last.length,)* $($number,)*)?
        )
    };
}

/// Runs a call; its answer.
pub fn run(call: Call, lent: &mut Lent) -> u32 {
    let writes_tables = call.fills_tables() || call == Call::Move;
    let one_table = !writes_tables && lent.sent == lent.received;
    let mut a = Arguments::of(lent);
    if one_table {
        // What is only read may overlap.
        a.received = a.sent;
    }
    // Each slice is a buffer of its own, initialised, of the length that goes with its pointer.
    unsafe {
        match call {
            Call::Read | Call::Journal | Call::Check | Call::Write | Call::Find => on_books(call, &a),
            Call::TestSet | Call::TestCheckpoint => on_sets(call, &a),
            Call::SessionStart | Call::SessionTurn | Call::Search => on_sessions(call, &a),
            Call::Move | Call::RestartOrder | Call::WriteResend | Call::ReadResend => on_moves(call, &a),
            _ => on_machines(call, &a),
        }
    }
}

unsafe fn on_books(call: Call, a: &Arguments) -> u32 {
    match call {
        Call::Read => call!(recovery_line_read, a, [bytes shape sent received]),
        Call::Journal => call!(recovery_line_journal, a, [bytes shape sent received]),
        Call::Check => call!(recovery_line_check, a, [shape sent received]),
        Call::Write => call!(recovery_line_write, a, [shape sent received out], a.numbers[0]),
        _ => call!(recovery_line_find, a, [shape sent received result], a.numbers[0]),
    }
}

unsafe fn on_sets(call: Call, a: &Arguments) -> u32 {
    let [process, checkpoint, _] = a.names;
    match call {
        Call::TestSet => call!(recovery_line_test_set, a, [shape sent received set result]),
        _ => {
            call!(recovery_line_test_checkpoint, a, [shape sent received], process, checkpoint; [known], a.numbers[0])
        }
    }
}

unsafe fn on_machines(call: Call, a: &Arguments) -> u32 {
    let [first, second, third] = a.names;
    match call {
        Call::ParticipantFirst => {
            call!(recovery_line_participant_first, a, [shape sent received], first, second, third; [state])
        }
        Call::ParticipantReceive => {
            call!(recovery_line_participant_receive, a, [state shape sent received bytes out result])
        }
        Call::InitiatorBegin => {
            call!(recovery_line_initiator_begin, a, [shape sent received], first, second; [state out result])
        }
        _ => call!(recovery_line_initiator_receive, a, [state shape sent received bytes out result]),
    }
}

unsafe fn on_sessions(call: Call, a: &Arguments) -> u32 {
    let [first, second, _] = a.names;
    let [newer, rounds, messages] = a.numbers;
    match call {
        Call::SessionStart => {
            call!(recovery_line_session_start, a, [shape sent received], first, second; [state out])
        }
        Call::SessionTurn => call!(recovery_line_session_turn, a, [state shape sent received], first; [out]),
        _ => {
            call!(recovery_line_search, a, [shape sent received], first, second; [result], newer, rounds, messages)
        }
    }
}

unsafe fn on_moves(call: Call, a: &Arguments) -> u32 {
    let purpose = a.names[0];
    match call {
        Call::Move => call!(recovery_line_move, a, [shape sent received], purpose; [result]),
        Call::WriteResend => {
            call!(recovery_line_write_resend, a, [shape sent received], purpose; [out], a.numbers[0])
        }
        Call::ReadResend => call!(recovery_line_read_resend, a, [], a.names[0]; [bytes result]),
        _ => call!(recovery_line_restart_order, a, [shape sent received], purpose; [result]),
    }
}
