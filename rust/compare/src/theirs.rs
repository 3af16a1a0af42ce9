//! The same calls by the independent implementation, on what is lent.

use crate::call::Call;
use crate::lent::Lent;
use reference::words;

/// Runs a call; its answer.
pub fn run(call: Call, lent: &mut Lent) -> u32 {
    match call {
        Call::Read => words::read(
            lent.bytes.lent(),
            lent.shape.lent_mut(),
            lent.sent.lent_mut(),
            lent.received.lent_mut(),
        ),
        Call::Journal => words::journal(
            lent.bytes.lent(),
            lent.shape.lent_mut(),
            lent.sent.lent_mut(),
            lent.received.lent_mut(),
        ),
        Call::Move => words::move_line(
            lent.shape.lent_mut(),
            lent.sent.lent_mut(),
            lent.received.lent_mut(),
            lent.names[0],
            lent.result.lent_mut(),
        ),
        Call::ReadResend => words::read_resend(lent.names[0], lent.bytes.lent(), lent.result.lent_mut()),
        Call::Check | Call::Write | Call::Find | Call::RestartOrder | Call::WriteResend => on_books(call, lent),
        Call::TestSet | Call::TestCheckpoint => on_sets(call, lent),
        Call::SessionStart | Call::SessionTurn | Call::Search => on_sessions(call, lent),
        _ => on_machines(call, lent),
    }
}

fn on_books(call: Call, lent: &mut Lent) -> u32 {
    let (shape, sent, received) = (lent.shape.lent(), lent.sent.lent(), lent.received.lent());
    let (result, number) = (lent.result.lent_mut(), &mut lent.numbers[0]);
    let (out, purpose) = (lent.out.lent_mut(), lent.names[0]);
    match call {
        Call::Check => words::check(shape, sent, received),
        Call::Write => words::write(shape, sent, received, out, number),
        Call::Find => words::find(shape, sent, received, result, number),
        Call::WriteResend => words::write_resend(shape, sent, received, purpose, out, number),
        _ => words::restart_order(shape, sent, received, purpose, result),
    }
}

fn on_sets(call: Call, lent: &mut Lent) -> u32 {
    let (shape, sent, received) = (lent.shape.lent(), lent.sent.lent(), lent.received.lent());
    let ([process, checkpoint, _], known) = (lent.names, lent.known.lent());
    let (pair, partner) = (lent.result.lent_mut(), &mut lent.numbers[0]);
    match call {
        Call::TestSet => words::test_set(shape, sent, received, lent.set.lent(), pair),
        _ => words::test_checkpoint(shape, sent, received, process, checkpoint, known, partner),
    }
}

fn on_machines(call: Call, lent: &mut Lent) -> u32 {
    let (shape, sent, received) = (lent.shape.lent(), lent.sent.lent(), lent.received.lent());
    let (state, out, lengths) = (lent.state.lent_mut(), lent.out.lent_mut(), lent.result.lent_mut());
    let (message, [first, second, third]) = (lent.bytes.lent(), lent.names);
    match call {
        Call::ParticipantFirst => words::participant_first(shape, sent, received, first, second, third, state),
        Call::ParticipantReceive => words::participant_receive(state, shape, sent, received, message, out, lengths),
        Call::InitiatorBegin => words::initiator_begin(shape, sent, received, first, second, state, out, lengths),
        _ => words::initiator_receive(state, shape, sent, received, message, out, lengths),
    }
}

fn on_sessions(call: Call, lent: &mut Lent) -> u32 {
    let (shape, sent, received) = (lent.shape.lent(), lent.sent.lent(), lent.received.lent());
    let (state, strands) = (lent.state.lent_mut(), lent.out.lent_mut());
    let ([first, second, _], set) = (lent.names, lent.result.lent_mut());
    let [newer, rounds, messages] = &mut lent.numbers;
    match call {
        Call::SessionStart => words::session_start(shape, sent, received, first, second, state, strands),
        Call::SessionTurn => words::session_turn(state, shape, sent, received, first, strands),
        _ => words::search(shape, sent, received, first, second, set, newer, rounds, messages),
    }
}
