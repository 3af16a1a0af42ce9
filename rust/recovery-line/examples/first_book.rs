//! From what three workers did to where they restart, and what they send again.
use recovery_line::{Journal, Process, Purpose, Refusal};

fn main() -> Result<(), Refusal> {
    let (one, two, three) = (Process::new(1), Process::new(2), Process::new(3));
    let mut journal = Journal::new(3); // every worker begins on its checkpoint 1
    journal.sent(one, two).checkpoint(one);
    journal.received(two, one).checkpoint(two);
    journal.sent(two, three).checkpoint(two);
    journal.received(three, two);
    journal.sent(one, three); // after worker 1's newest checkpoint,
    journal.received(three, one).checkpoint(three); // and so this one does not fit that

    let order = journal.tables()?.restart_order(Purpose::AdvanceAndRestart)?;
    for restart in &order {
        println!("worker {} restarts from checkpoint {}", restart.process, restart.from);
    }
    for repeat in order.sent_again() {
        let (sender, receiver) = (repeat.sender, repeat.receiver);
        for message in repeat.messages() {
            println!("worker {sender} sends worker {receiver} message {message} again");
        }
    }
    Ok(())
}
