//! Looking at a book in memory: which checkpoints there are, and their counters.

use crate::names::{Checkpoint, Count, Process};
use crate::set::Set;
use crate::sys::{RECOVERY_LINE_N_AT as N, RECOVERY_LINE_PROCESSES, RECOVERY_LINE_SHAPE_COUNTS_AT as COUNTS};
use crate::tables::Tables;

impl Tables {
    /// The number of processes, n.
    #[must_use]
    pub fn processes(&self) -> u64 {
        self.shape()[N]
    }

    /// How many checkpoints a process has; 0 for an absent one.
    #[must_use]
    pub fn checkpoints(&self, process: Process) -> u64 {
        let place = process.place_among(self.processes());
        place.map_or(0, |place| self.shape()[COUNTS + place])
    }

    /// The set of newest checkpoints.
    pub fn newest(&self) -> Set {
        Set::from_array(std::array::from_fn(|place| self.checkpoints(Process::at(place))))
    }

    /// How many messages a process had sent to a partner at a checkpoint; `None` if there is no such process, checkpoint or
    /// partner, which is another process: nobody sends to himself.
    #[must_use]
    pub fn sent_to(&self, process: Process, checkpoint: Checkpoint, partner: Process) -> Option<Count> {
        let entry = self.entry(process, checkpoint, partner)?;
        Some(Count::new(u64::from(*self.sent().get(entry)?)))
    }

    /// How many messages a process had received from a partner at a checkpoint; `None` where [`Tables::sent_to`] has none.
    #[must_use]
    pub fn received_from(&self, process: Process, checkpoint: Checkpoint, partner: Process) -> Option<Count> {
        let entry = self.entry(process, checkpoint, partner)?;
        Some(Count::new(u64::from(*self.received().get(entry)?)))
    }

    fn entry(&self, process: Process, checkpoint: Checkpoint, partner: Process) -> Option<usize> {
        let n = self.processes();
        let (place, column) = (process.place_among(n)?, partner.place_beside(process, n)?);
        let number = checkpoint.number();
        if number == 0 || number > self.shape()[COUNTS + place] {
            return None;
        }
        let earlier = self.shape()[COUNTS..COUNTS + place]
            .iter()
            .fold(0u64, |sum, count| sum.saturating_add(*count));
        let row = usize::try_from(earlier.checked_add(number - 1)?).ok()?;
        row.checked_mul(RECOVERY_LINE_PROCESSES)?.checked_add(column)
    }
}
