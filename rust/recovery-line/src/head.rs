//! What a message says of itself.

use crate::names::{Process, Purpose};
use crate::numbers::FOLLOWED;
use crate::sys::{RECOVERY_LINE_INVITATION, RECOVERY_LINE_OTHER_MESSAGE};

/// The first three numbers of a message. From its invitation a worker learns who begins, and for what.
///
/// Nothing after them is looked at: whether the message is formed, and awaited, the machine asks that receives it.
///
/// ```
/// use recovery_line::{Head, Process, Purpose, Tables};
///
/// # fn main() -> Result<(), recovery_line::Refusal> {
/// let (one, two) = (Process::new(1), Process::new(2));
/// let tables = Tables::builder(2).zeros_elsewhere().build()?;
/// let (_, invitations) = tables.initiator(one, Purpose::Advance)?;
/// let head = invitations.to(two).and_then(Head::of).expect("an invitation");
/// assert!(head.invitation);
/// assert_eq!((head.purpose, head.sender), (Purpose::Advance, one));
/// # Ok(())
/// # }
/// ```
#[derive(Clone, Copy, Debug, PartialEq, Eq, Hash)]
pub struct Head {
    /// Whether it is an invitation: for it [`Tables::invited`](crate::Tables::invited) makes a machine, and every other message
    /// goes to the machine that is there.
    pub invitation: bool,
    /// What the search is for.
    pub purpose: Purpose,
    /// Who has sent the message; of an invitation, who begins.
    pub sender: Process,
}

impl Head {
    /// The head of a message; `None` for bytes that begin as no message does. Each of its numbers is one byte.
    #[must_use]
    pub fn of(message: &[u8]) -> Option<Head> {
        let [kind, purpose, sender, ..] = *message else {
            return None;
        };
        let invitation = match u64::from(kind) {
            RECOVERY_LINE_INVITATION => true,
            RECOVERY_LINE_OTHER_MESSAGE => false,
            _ => return None,
        };
        let purpose = Purpose::from_number(purpose.into()).ok()?;
        (sender < FOLLOWED).then_some(Head {
            invitation,
            purpose,
            sender: Process::new(sender.into()),
        })
    }
}
