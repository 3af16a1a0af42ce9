//! The journals that measurements use: of exactly so many bytes, among at least two processes, with messages on all channels and
//! some 240 checkpoints spread over them.

use crate::journals::{checkpoint, messages_in, planned, Event, Journal, Plan, RECEIVED, SENT};
use crate::layout::CHECKPOINTS;
use crate::random::Random;

/// Checkpoints of a measured journal, or a few less.
const CHECKPOINT_EVENTS: usize = 240;

/// How many events are messages, and how many checkpoints.
fn parts(n: usize, bytes: usize) -> (usize, usize) {
    let most = CHECKPOINT_EVENTS.min(CHECKPOINTS - n);
    let fits = |checkpoints: &usize| 1 + 2 * checkpoints + 3 * messages_in(bytes, *checkpoints) == bytes;
    let checkpoints = (0..=most).rev().find(fits).expect("one of three in a row fits");
    (messages_in(bytes, checkpoints), checkpoints)
}

/// Messages are sent and received in any order, which no processor foresees; the same sizes give the same journal.
pub fn in_any_order(n: usize, bytes: usize) -> Vec<u8> {
    let (messages, checkpoints) = parts(n, bytes);
    let plan = Plan {
        n,
        messages,
        checkpoints,
        reach: n - 1,
        hold: 2,
    };
    planned(&mut Random::new(1), &plan).bytes()
}

/// Channel after channel, each message received right after it was sent: as foreseeable in a long journal as in a short one.
pub fn in_turn(n: usize, bytes: usize) -> Vec<u8> {
    let (messages, checkpoints) = parts(n, bytes);
    let all = messages + checkpoints;
    let mut events = Vec::with_capacity(all);
    for place in 0..all {
        let saved = place * checkpoints / all;
        if saved < (place + 1) * checkpoints / all {
            events.push(checkpoint(saved % n + 1));
        } else {
            events.push(message_in_turn(n, place - saved));
        }
    }
    Journal { n: n as u64, events }.bytes()
}

/// Every even one is sent on the next channel, and the one after it received there.
fn message_in_turn(n: usize, number: usize) -> Event {
    let channel = number / 2;
    let sender = channel % n;
    let receiver = (sender + 1 + channel / n % (n - 1)) % n;
    let (sender, receiver) = (sender as u64 + 1, receiver as u64 + 1);
    let (kind, process, partner) = if number % 2 == 0 {
        (SENT, sender, receiver)
    } else {
        (RECEIVED, receiver, sender)
    };
    Event { kind, process, partner }
}
