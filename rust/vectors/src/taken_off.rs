//! What a move takes off, and the checkpoints that it leaves.

use crate::moves::Order;
use crate::tables::Tables;

/// On the channel from a to b, what b's checkpoint restarted from had received from a comes off at both ends.
pub struct TakenOff<'a> {
    order: &'a Order,
    tables: &'a Tables,
}

impl<'a> TakenOff<'a> {
    /// By a move of tables, as they were before it.
    pub fn by(order: &'a Order, tables: &'a Tables) -> TakenOff<'a> {
        TakenOff { order, tables }
    }

    fn channel(&self, from: usize, to: usize) -> Option<u64> {
        self.tables.received(to, self.order.from(to), from)
    }

    /// Are `kept` the checkpoints of `whole` but those that the order drops, and their counters less what comes off?
    pub fn leaves(&self, whole: &Tables, kept: &Tables) -> bool {
        let n = whole.processes();
        let leaves_process = |j: usize| {
            let dropped = self.order.before(j).checked_add(self.order.after(j));
            dropped.and_then(|dropped| whole.count(j).checked_sub(dropped)) == Some(kept.count(j))
                && (1..=kept.count(j)).all(|r| self.leaves_row(whole, kept, j, r))
        };
        kept.processes() == n && (0..n).all(leaves_process)
    }

    /// Is the checkpoint r that is kept of process j what it was, less what comes off?
    fn leaves_row(&self, whole: &Tables, kept: &Tables, j: usize, r: u64) -> bool {
        let was = r + self.order.before(j);
        (0..whole.processes()).filter(|&p| p != j).all(|p| {
            is_less(kept.sent(j, r, p), self.channel(j, p), whole.sent(j, was, p))
                && is_less(kept.received(j, r, p), self.channel(p, j), whole.received(j, was, p))
        })
    }
}

/// Is a counter the whole one less what comes off?
fn is_less(kept: Option<u64>, off: Option<u64>, whole: Option<u64>) -> bool {
    matches!((kept, off, whole), (Some(kept), Some(off), Some(whole)) if kept + off == whole)
}

/// Has a book all checkpoints of another one, and perhaps later ones?
pub fn extends(longer: &Tables, book: &Tables) -> bool {
    let n = book.processes();
    let same = |j: usize, r: u64, p: usize| {
        longer.sent(j, r, p) == book.sent(j, r, p) && longer.received(j, r, p) == book.received(j, r, p)
    };
    let extends_process =
        |j: usize| book.count(j) <= longer.count(j) && (1..=book.count(j)).all(|r| (0..n).all(|p| same(j, r, p)));
    longer.processes() == n && (0..n).all(extends_process)
}
