//! The recovery line of up to sixteen worker processes that checkpoint when it suits them.
//!
//! Which checkpoints there are, and what each had sent and received, stands in a checkpoint book. This crate reads, checks and
//! writes such books ([`Tables`]), makes one from a [`Journal`] of events or checkpoint by checkpoint ([`BookBuilder`]), finds
//! the recovery line, the consistent set of checkpoints that is nowhere earlier than any other, and moves it; an [`Order`] says
//! from where each process restarts, and what it sends again. Where no one has the whole book the workers find the line by
//! messages, with an [`Initiator`] and [`Participant`]s of their own ([Between machines](#between-machines)); a [`Session`] runs
//! all these in one place, for who has it.
//!
//! A call either accepts or is refused by the first of its questions that fails, and a refused call changes nothing. The
//! questions are listed in the repository's README, and [`Refusal::sentence`] has them too; with each method stand those that can
//! refuse it, in the order in which they are put. (The C header has 2, 11 and 17 with more calls: here types and buffers leave
//! nothing to ask.) No call needs another to have been made before, and none panics, but where the archive that is linked has
//! another [`version`] than this crate.
//!
//! Whatever is asked of an absent process (0, or above n) is `None`, 0 where checkpoints are counted, and false where it is asked
//! whether something is so. A counter of a process for itself is `None` too: nobody sends to himself.
//!
//! ```
//! use recovery_line::{Count, Process, Purpose, Session, Tables};
//!
//! # fn main() -> Result<(), recovery_line::Refusal> {
//! // Three processes with two checkpoints each; process 1's newest has received more from 2 than 2's newest had sent.
//! let (one, two, three) = (Process::new(1), Process::new(2), Process::new(3));
//! let mut book = Tables::builder(3);
//! for process in [one, two, three] {
//!     book.checkpoint(process); // the oldest, of zeros
//! }
//! book.checkpoint(one).received_from(two, Count::new(4)).received_from(three, Count::new(5));
//! book.checkpoint(two).sent_to(one, Count::new(3));
//! book.checkpoint(three).sent_to(one, Count::new(7));
//! let mut tables = book.build()?;
//! let line = tables.find_line()?;
//! assert_eq!(line.set.to_string(), "1 2 2");
//! assert_eq!(line.passed, 1);
//!
//! // The same by messages, which may come in any order.
//! let mut session = Session::start(&tables, one, Purpose::AdvanceAndRestart)?;
//! while let Some(participant) = session.waiting().next() {
//!     session.turn(&tables, participant)?;
//! }
//! assert!(session.all_ended());
//! assert_eq!(session.delivered(), 10);
//!
//! // The line becomes the oldest set, and everybody restarts from it; what crosses it is sent again.
//! let order = tables.move_line(Purpose::AdvanceAndRestart)?;
//! for restart in &order {
//!     println!("process {} restarts from checkpoint {}", restart.process, restart.from);
//! }
//! for repeat in order.sent_again() {
//!     println!("{} sends {} messages {} to {}", repeat.sender, repeat.receiver, repeat.first, repeat.last);
//! }
//!
//! // A book is stored as bytes; one that ends too early is refused.
//! let bytes = tables.write()?;
//! assert_eq!(Tables::read(&bytes)?, tables);
//! let refusal = Tables::read(&bytes[..8]).unwrap_err();
//! assert_eq!(refusal.question(), 3);
//! assert!(refusal.to_string().starts_with("refused by question 3: Is the number whole"));
//! # Ok(())
//! # }
//! ```
//!
//! # Between machines
//!
//! Where each worker knows only its own checkpoints, one begins a search, and the others learn of it by their invitations. A
//! machine receives a message and gives those that it sends, until every machine has ended, in whatever order messages come.
//! Here one queue stands for the network:
//!
//! ```
//! use recovery_line::{Checkpoint, Count, Participant, Process, Purpose, Tables};
//! use std::collections::VecDeque;
//!
//! # fn main() -> Result<(), recovery_line::Refusal> {
//! let (one, two) = (Process::new(1), Process::new(2));
//! // Each lends its machine its own rows, with zeros for everybody else.
//! let mut book = Tables::builder(2);
//! book.checkpoint(one);
//! book.checkpoint(one).received_from(two, Count::new(4));
//! let own_of_one = book.zeros_elsewhere().build()?;
//! let mut book = Tables::builder(2);
//! book.checkpoint(two);
//! book.checkpoint(two).sent_to(one, Count::new(3));
//! let own_of_two = book.zeros_elsewhere().build()?;
//!
//! let (mut first, invitations) = own_of_one.initiator(one, Purpose::AdvanceAndRestart)?;
//! let mut second: Option<Participant> = None; // until it is invited
//! let mut queue: VecDeque<(Process, Vec<u8>)> = invitations.into_iter().collect();
//! while let Some((receiver, message)) = queue.pop_front() {
//!     let replies = match &mut second {
//!         _ if receiver == one => first.receive(&own_of_one, &message)?,
//!         Some(machine) => machine.receive(&own_of_two, &message)?,
//!         None => {
//!             let (machine, report) = own_of_two.invited(two, &message)?;
//!             second = Some(machine);
//!             report
//!         }
//!     };
//!     queue.extend(replies);
//! }
//! let second = second.expect("it was invited");
//! assert!(first.ended() && second.ended());
//! assert_eq!((first.candidate(), second.candidate()), (Checkpoint::OLDEST, Checkpoint::new(2)));
//! # Ok(())
//! # }
//! ```
//!
//! What this asks of the program around the machines:
//! - A machine's own rows stay as they are while it searches: a checkpoint taken meanwhile is lent after the search.
//! - Each message is delivered once, whole, and to whom it was written. A second time it is refused by 15 or 16, but a report
//!   that says "no change" may be taken for the next one; and since a message does not name its receiver, one that is given to
//!   another worker may be accepted. The search may then end elsewhere, even on a set that is not consistent.
//! - What a step gives must be sent, since no step can be taken again. Who stores a machine's words stores with them the messages
//!   of its last step until they are sent.
//! - [`Tables::find_line`], [`Tables::test_set`], [`Tables::restart_order`], [`Tables::move_line`], [`Tables::write_resend`],
//!   [`Tables::search`] and [`Session`] need the whole book. Tables with one worker's own rows alone are accepted too, and say
//!   that the others have done nothing: the answer is for that book, and goes back too far.
//! - When all have ended, every worker goes by its machine's candidate, which becomes its oldest checkpoint: those before it go,
//!   and with [`Purpose::Restart`] and [`Purpose::AdvanceAndRestart`] the worker goes back to it, and those after it go too.
//! - With [`Purpose::Advance`] and [`Purpose::AdvanceAndRestart`] everything is counted from the new line: who has the whole book
//!   moves it ([`Tables::move_line`]). A worker that has its own rows alone takes off what it has received from each partner, in
//!   the rows that it keeps and in its running counters, what its candidate had received from that one, and off what it has sent
//!   to each partner what the partner's candidate had received from it. Only the partner can tell that: let each worker send this
//!   number to each other one. With [`Purpose::Restart`] nothing comes off.
//! - So the oldest checkpoint has received nothing, and what it has sent is what crosses the line: it is on its way, and after a
//!   restart it is the program's to send again. Who has the whole book knows which messages these are ([`Order::sent_again`]),
//!   and can send the list to everybody ([`Tables::write_resend`], [`Resend::read`]). The running counters go on from that
//!   checkpoint, which counts them already. A new [`Journal`] begins with zeros: who keeps one logs each repetition as sent.
//!
#![doc = include_str!("../README.md")]
#![deny(unsafe_code, missing_docs)]

#[macro_use]
mod interface;

mod builder;
mod by_process;
#[cfg(doctest)]
mod dropped;
mod head;
mod initiator;
mod journal;
mod looks;
mod messages;
mod names;
mod numbers;
mod order;
mod participant;
pub mod raw;
mod refusal;
mod resend;
mod session;
mod set;
#[allow(unsafe_code)]
pub mod sys;
mod tables;

pub use builder::{BookBuilder, NewCheckpoint};
pub use by_process::ByProcess;
pub use head::Head;
pub use initiator::Initiator;
pub use journal::Journal;
pub use messages::Messages;
pub use names::{Checkpoint, Count, Process, Purpose};
pub use order::{Order, Restart};
pub use participant::{Participant, Stage};
pub use raw::version;
pub use refusal::Refusal;
pub use resend::{Repeat, Repeats, Resend};
pub use session::Session;
pub use set::{Line, Search, Set};
pub use sys::Counter;
pub use tables::{Shape, Table, Tables};
