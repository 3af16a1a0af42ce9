//! Sessions with any lists of turns, on which demand 3 is asserted, and sessions in made-up states.

use crate::book::Book;
use crate::books::{any_book, far_book, small_book};
use crate::call::Call;
use crate::claims::{waiting, Claims};
use crate::forged::ForgedSession;
use crate::layout::{message_bytes, session, strand_bytes};
use crate::lent::{Guarded, Lent};
use crate::random::Random;
use crate::runner::Runner;
use crate::scenarios::{lent_tables, one_participant};
use crate::tally::Kind;
use crate::variations::varied;

/// Turns after which most sessions are left; a list may end anywhere.
const MOST_TURNS: usize = 80;

/// In which order a list of turns takes the waiting strands.
#[derive(Clone, Copy)]
enum Order {
    Any,
    Lowest,
    Highest,
    /// One participant's messages wait as long as any other's do.
    Last(usize),
}

/// A session from its start along a list of turns, refused ones included.
pub fn search(runner: &mut Runner, random: &mut Random) -> Option<()> {
    let book = match random.below(8) {
        0 => far_book(random),
        1 | 2 => any_book(random),
        _ => small_book(random),
    };
    let n = book.n();
    let me = random.between(1, n);
    let purpose = random.one_of(&[1, 3, 1, 3, 2]);
    let room = room_for_strands(random, n);
    let mut lent = lent_tables(&book);
    lent.state = Guarded::fresh(session::WORDS);
    lent.out = Guarded::fresh(room);
    lent.names = [me as u64, purpose, 0];
    let (kind, other) = varied(random, Call::SessionStart, &lent);
    runner.case(kind, Call::SessionStart, other)?;
    let started = runner.case(Kind::RealTurn, Call::SessionStart, lent)?;
    if started.answer != 0 {
        let enough = room >= strand_bytes(n);
        return runner.demand(!enough, "a start with enough room is accepted", &started.left);
    }
    if purpose == 2 {
        return restart(runner, random, started.left, n);
    }
    search_turns(runner, random, &book, me, started.left)
}

/// Room for a session's strands: mostly enough, sometimes more, sometimes too little.
fn room_for_strands(random: &mut Random, n: usize) -> usize {
    let enough = strand_bytes(n);
    match random.below(6) {
        0 => enough + random.between(1, 50),
        1 if enough > 0 => enough - random.between(1, message_bytes(n)),
        _ => enough,
    }
}

/// The turns of a search, with every claim after every turn.
fn search_turns(runner: &mut Runner, random: &mut Random, book: &Book, me: usize, started: Lent) -> Option<()> {
    let claims = match Claims::new(book, me) {
        Ok(claims) => claims,
        Err(what) => return runner.claim(Err(what), &started),
    };
    runner.claimed_sessions += 1;
    runner.moves.add_session(book);
    runner.claim(claims.hold_after(started.state.lent(), 0), &started)?;
    let order = any_order(random, book.n(), me);
    let enough_room = started.out.lent().len() >= strand_bytes(book.n());
    let most = if enough_room && random.once_in(6) {
        usize::MAX
    } else {
        MOST_TURNS
    };
    let mut lent = started;
    let mut accepted = 0;
    for _ in 0..most {
        let strands = waiting(lent.state.lent());
        let Some(p) = next_turn(random, order, &strands, book.n()) else {
            runner.ended_sessions += 1;
            break;
        };
        lent.names = [p, 0, 0];
        lent = search_turn(runner, random, &claims, lent, &mut accepted)?;
    }
    Some(())
}

/// A turn, after some variations of it; what it leaves.
fn search_turn(
    runner: &mut Runner,
    random: &mut Random,
    claims: &Claims,
    lent: Lent,
    accepted: &mut u64,
) -> Option<Lent> {
    for _ in 0..random.below(3) {
        let (kind, other) = varied(random, Call::SessionTurn, &lent);
        runner.case(kind, Call::SessionTurn, other)?;
    }
    let (p, room) = (lent.names[0], lent.out.lent().len());
    let outcome = runner.case(Kind::RealTurn, Call::SessionTurn, lent.clone())?;
    runner.claim(claims.hold_of_turn(lent.state.lent(), p, room, outcome.answer), &lent)?;
    if outcome.answer == 0 {
        *accepted += 1;
        let (before, after) = (lent.state.lent(), outcome.left.state.lent());
        runner.claim(claims.hold_of_rounds(before, lent.out.lent(), p, after), &lent)?;
    }
    runner.claim(claims.hold_after(outcome.left.state.lent(), *accepted), &outcome.left)?;
    Some(outcome.left)
}

fn any_order(random: &mut Random, n: usize, me: usize) -> Order {
    match random.below(5) {
        0 => Order::Lowest,
        1 => Order::Highest,
        2 if n > 1 => Order::Last(one_participant(random, n, me)),
        _ => Order::Any,
    }
}

/// The process that the next turn names: a waiting strand in the list's order, or now and then anybody; `None` at the
/// end.
fn next_turn(random: &mut Random, order: Order, strands: &[usize], n: usize) -> Option<u64> {
    if random.once_in(6) {
        let anybody = random.between(1, n) as u64;
        return Some(random.one_of(&[0, anybody, anybody, n as u64 + 1, u64::MAX]));
    }
    let (&first, &last) = (strands.first()?, strands.last()?);
    let p = match order {
        Order::Any => random.one_of(strands),
        Order::Lowest => first,
        Order::Highest => last,
        Order::Last(slow) => strands.iter().copied().find(|&p| p != slow).unwrap_or(slow),
    };
    Some(p as u64)
}

/// The turns of a bare restart: n - 1 accepted turns, then everybody stands on checkpoint 1 and nothing waits.
fn restart(runner: &mut Runner, random: &mut Random, started: Lent, n: usize) -> Option<()> {
    let mut lent = started;
    for accepted in 0..n as u64 - 1 {
        let strands = waiting(lent.state.lent());
        runner.demand(!strands.is_empty(), "an invitation waits in a bare restart", &lent)?;
        lent.names = [random.one_of(&strands) as u64, 0, 0];
        let (kind, other) = varied(random, Call::SessionTurn, &lent);
        runner.case(kind, Call::SessionTurn, other)?;
        let outcome = runner.case(Kind::RealTurn, Call::SessionTurn, lent)?;
        lent = outcome.left;
        let counted = lent.state.lent()[session::DELIVERED] == accepted + 1;
        runner.demand(
            outcome.answer == 0 && counted,
            "a turn of a bare restart is accepted and counted",
            &lent,
        )?;
    }
    runner.demand(
        waiting(lent.state.lent()).is_empty(),
        "nothing waits after a bare restart",
        &lent,
    )
}

/// Sessions in made-up states that fit, each with turns and variations.
pub fn forged(runner: &mut Runner, random: &mut Random) -> Option<()> {
    let book = if random.once_in(2) {
        small_book(random)
    } else {
        any_book(random)
    };
    let n = book.n();
    if n < 2 {
        return Some(());
    }
    for _ in 0..3 {
        let me = random.between(1, n);
        let purpose = random.one_of(&[1, 3, 1, 3, 2]);
        let forged = ForgedSession::new(random, &book, me, purpose);
        let mut lent = lent_tables(&book);
        lent.state = Guarded::holding(&forged.words);
        lent.out = Guarded::holding(&forged.strands);
        for _ in 0..4 {
            let strands = waiting(lent.state.lent());
            let anybody = strands.is_empty() || random.once_in(6);
            let p = if anybody {
                random.between(0, n + 1)
            } else {
                random.one_of(&strands)
            };
            lent.names = [p as u64, 0, 0];
            let (kind, other) = varied(random, Call::SessionTurn, &lent);
            runner.case(kind, Call::SessionTurn, other)?;
            let outcome = runner.case(Kind::ForgedSession, Call::SessionTurn, lent)?;
            lent = outcome.left;
            if outcome.answer == 13 {
                break;
            }
        }
    }
    Some(())
}
