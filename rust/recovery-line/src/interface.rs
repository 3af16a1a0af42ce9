//! The functions of the C interface that put questions: each argument list once, for the declarations of `sys` and the safe
//! functions of `raw`.

/// Hands `$make` every function, one after another: its comment, its names in Rust and in C, its arguments as Rust lends them,
/// as C declares them, and as they are handed over.
macro_rules! interface {
    ($make:ident) => { interface! { @each $make
        /// Reads a book: its counters into the two tables, every entry of both, and its shape.
        fn read = recovery_line_read(
            bytes: &[u8], shape: &mut [u64], sent: &mut [Counter], received: &mut [Counter],
        );
        /// Reads a journal: the counters of the book that it builds into the two tables, every entry of both, and its shape.
        fn read_journal = recovery_line_journal(
            bytes: &[u8], shape: &mut [u64], sent: &mut [Counter], received: &mut [Counter],
        );
        /// Checks lent tables, and changes nothing.
        fn check = recovery_line_check(shape: &[u64], sent: &[Counter], received: &[Counter],);
        /// Writes the book of the tables to the start of `out`, and its length.
        fn write = recovery_line_write(
            shape: &[u64], sent: &[Counter], received: &[Counter], out: &mut [u8], length: &mut u64,
        );
        /// Tests a set: `pair` becomes 0 0 if it is consistent, and else the first pair (j, p) at fault, of the lowest j and for
        /// it the lowest p.
        fn test_set = recovery_line_test_set(
            shape: &[u64], sent: &[Counter], received: &[Counter], set: &[u64], pair: &mut [u64],
        );
        /// Tests one checkpoint of a process against what each of sixteen is known to have sent to that process: `partner`
        /// becomes the lowest one from which it received more, and 0 exactly if there is none.
        fn test_checkpoint = recovery_line_test_checkpoint(
            shape: &[u64], sent: &[Counter], received: &[Counter], process: u64, checkpoint: u64, known: &[Counter],
            partner: &mut u64,
        );
        /// Finds the line, and how many checkpoints are newer than the line's.
        fn find_line = recovery_line_find(
            shape: &[u64], sent: &[Counter], received: &[Counter], line: &mut [u64], passed: &mut u64,
        );
        /// Makes a participant's first state, before its invitation.
        fn participant_first = recovery_line_participant_first(
            shape: &[u64], sent: &[Counter], received: &[Counter], me: u64, initiator: u64, purpose: u64,
            state: &mut [u64],
        );
        /// A participant receives a message: its state after the step, its report, and the length for each process.
        fn participant_receive = recovery_line_participant_receive(
            state: &mut [u64], shape: &[u64], sent: &[Counter], received: &[Counter], message: &[u8], out: &mut [u8],
            lengths: &mut [u64],
        );
        /// Process `me` begins: its first state, the invitations, and the length for each process.
        fn initiator_begin = recovery_line_initiator_begin(
            shape: &[u64], sent: &[Counter], received: &[Counter], me: u64, purpose: u64, state: &mut [u64],
            out: &mut [u8], lengths: &mut [u64],
        );
        /// An initiator receives a report: its state after the step, what it sends, and the length for each process.
        fn initiator_receive = recovery_line_initiator_receive(
            state: &mut [u64], shape: &[u64], sent: &[Counter], received: &[Counter], message: &[u8], out: &mut [u8],
            lengths: &mut [u64],
        );
        /// Starts a session: all machines of one search, with the invitations waiting in `strands`.
        fn session_start = recovery_line_session_start(
            shape: &[u64], sent: &[Counter], received: &[Counter], initiator: u64, purpose: u64, session: &mut [u64],
            strands: &mut [u8],
        );
        /// Delivers the message that waits on process `p`'s strand; the replies wait then.
        fn session_turn = recovery_line_session_turn(
            session: &mut [u64], shape: &[u64], sent: &[Counter], received: &[Counter], p: u64, strands: &mut [u8],
        );
        /// Searches from start to end, lowest waiting strand first: the set on which everybody ended, which is the line, or with
        /// purpose 2 checkpoint 1 everywhere; how many checkpoints are newer than those of the set; and the rounds and messages
        /// that it took.
        fn search = recovery_line_search(
            shape: &[u64], sent: &[Counter], received: &[Counter], initiator: u64, purpose: u64, set: &mut [u64],
            newer: &mut u64, rounds: &mut u64, messages: &mut u64,
        );
        /// Moves the line in the tables, and gives the restart order.
        fn move_line = recovery_line_move(
            shape: &mut [u64], sent: &mut [Counter], received: &mut [Counter], purpose: u64, order: &mut [u64],
        );
        /// Gives the restart order that a move would give, and moves nothing.
        fn restart_order = recovery_line_restart_order(
            shape: &[u64], sent: &[Counter], received: &[Counter], purpose: u64, order: &mut [u64],
        );
        /// Writes the list of what the restart order for a purpose has sent again to the start of `out`, and its length.
        fn write_resend = recovery_line_write_resend(
            shape: &[u64], sent: &[Counter], received: &[Counter], purpose: u64, out: &mut [u8], length: &mut u64,
        );
        /// Reads a list of what to send again among n processes.
        fn read_resend = recovery_line_read_resend(n: u64, bytes: &[u8], resend: &mut [u64],);
    } };

    (@each $make:ident $($(#[$doc:meta])* fn $name:ident = $symbol:ident($($lent:tt)*);)*) => {
        $(interface! { @cross $make ($(#[$doc])* $name = $symbol ($($lent)*)) () () $($lent)* })*
    };

    // Argument by argument: a slice crosses as a pointer and its length, where to write a number as a pointer.
    (@cross $make:ident $function:tt $declared:tt $handed:tt) => { $make! { $function $declared $handed } };
    (@cross $make:ident $function:tt ($($declared:tt)*) ($($handed:tt)*) $name:ident: &[$of:ty], $($rest:tt)*) => {
        interface! { @cross $make $function
            ($($declared)* $name: *const $of, len: usize,) ($($handed)* $name.as_ptr(), $name.len(),) $($rest)* }
    };
    (@cross $make:ident $function:tt ($($declared:tt)*) ($($handed:tt)*) $name:ident: &mut [$of:ty], $($rest:tt)*) => {
        interface! { @cross $make $function
            ($($declared)* $name: *mut $of, len: usize,) ($($handed)* $name.as_mut_ptr(), $name.len(),) $($rest)* }
    };
    (@cross $make:ident $function:tt ($($declared:tt)*) ($($handed:tt)*) $name:ident: &mut $of:ty, $($rest:tt)*) => {
        interface! { @cross $make $function ($($declared)* $name: *mut $of,) ($($handed)* $name,) $($rest)* }
    };
    (@cross $make:ident $function:tt ($($declared:tt)*) ($($handed:tt)*) $name:ident: $number:ty, $($rest:tt)*) => {
        interface! { @cross $make $function ($($declared)* $name: $number,) ($($handed)* $name,) $($rest)* }
    };
}
