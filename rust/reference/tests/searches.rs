//! Demand 3, the inverses of demand 2 and the claims of E4, tried on random books with messages in random orders.

use reference::*;

/// A small generator of pseudo-random numbers (xorshift).
struct Random(u64);

impl Random {
    fn below(&mut self, limit: u64) -> u64 {
        self.0 ^= self.0 << 13;
        self.0 ^= self.0 >> 7;
        self.0 ^= self.0 << 17;
        self.0 % limit
    }
}

#[derive(Clone)]
struct Tables {
    shape: Shape,
    sent: Vec<Counter>,
    received: Vec<Counter>,
}

impl Tables {
    fn line(&self) -> [u64; PROCESSES] {
        let (line, _) = find_line(&self.shape, &self.sent, &self.received).unwrap();
        line
    }

    /// Where the row of process j's checkpoint r begins, j from 0.
    fn row(&self, j: usize, r: u64) -> usize {
        let before: u64 = self.shape.counts[..j].iter().sum();
        (before + r - 1) as usize * PROCESSES
    }

    fn sent(&self, j: usize, r: u64, p: usize) -> Counter {
        self.sent[self.row(j, r) + p]
    }

    fn received(&self, j: usize, r: u64, p: usize) -> Counter {
        self.received[self.row(j, r) + p]
    }

    /// Appends a checkpoint of process j; the last row of each table must be free.
    fn append(&mut self, j: usize, sent: &[Counter], received: &[Counter]) {
        let at = self.row(j, self.shape.counts[j] + 1);
        for (table, row) in [(&mut self.sent, sent), (&mut self.received, received)] {
            table.copy_within(at..ENTRIES - PROCESSES, at + PROCESSES);
            table[at..at + PROCESSES].copy_from_slice(row);
        }
        self.shape.counts[j] += 1;
    }
}

/// Tables of rising random counters, the oldest received ones zero: every accepted table can come out.
fn random_tables(random: &mut Random, most_processes: u64, most_checkpoints: u64) -> Tables {
    let n = 1 + random.below(most_processes) as usize;
    let mut counts = [0; PROCESSES];
    let (mut sent, mut received) = (vec![0; ENTRIES], vec![0; ENTRIES]);
    let mut row = 0;
    for (own, count) in counts.iter_mut().enumerate().take(n) {
        *count = 1 + random.below(most_checkpoints);
        for checkpoint in 0..*count {
            for partner in (0..n).filter(|&partner| partner != own) {
                let entry = PROCESSES * row + partner;
                sent[entry] = random.below(4) as Counter;
                if checkpoint > 0 {
                    sent[entry] += sent[entry - PROCESSES];
                    received[entry] = received[entry - PROCESSES] + random.below(4) as Counter;
                }
            }
            row += 1;
        }
    }
    Tables {
        shape: Shape { n: n as u64, counts },
        sent,
        received,
    }
}

/// The entry-wise latest of all consistent sets, by trying every set.
fn latest_consistent(t: &Tables) -> [u64; PROCESSES] {
    let n = t.shape.n as usize;
    let mut latest = [0; PROCESSES];
    let mut set = [0; PROCESSES];
    set[..n].fill(1);
    loop {
        if test_set(&t.shape, &t.sent, &t.received, &set) == Ok(None) {
            (0..n).for_each(|process| latest[process] = latest[process].max(set[process]));
        }
        let Some(next) = (0..n).find(|&process| set[process] < t.shape.counts[process]) else {
            return latest;
        };
        set[next] += 1;
        set[..next].fill(1);
    }
}

#[test]
fn the_line_is_the_latest_consistent_set() {
    let mut random = Random(2_463_534_242);
    for _ in 0..300 {
        let t = random_tables(&mut random, 4, 4);
        let (line, passed) = find_line(&t.shape, &t.sent, &t.received).unwrap();
        assert_eq!(line, latest_consistent(&t));
        assert_eq!(test_set(&t.shape, &t.sent, &t.received, &line), Ok(None));
        assert_eq!(passed, t.shape.counts.iter().sum::<u64>() - line.iter().sum::<u64>());
    }
}

#[test]
fn books_written_and_read_are_the_same() {
    let mut random = Random(88_172_645_463_325_252);
    for _ in 0..100 {
        let t = random_tables(&mut random, 16, 16);
        let mut out = vec![0; BOOK_BYTES];
        let length = write(&t.shape, &t.sent, &t.received, &mut out).unwrap();
        let (mut sent, mut received) = (vec![1; ENTRIES], vec![1; ENTRIES]);
        assert_eq!(read(&out[..length], &mut sent, &mut received), Ok(t.shape));
        assert_eq!((sent, received), (t.sent, t.received));
    }
}

/// The candidates of everybody, and whether each has ended.
fn standing(session: &Session) -> Vec<(u64, bool)> {
    let machine = &session.machine;
    let mut all: Vec<_> = session
        .participants
        .iter()
        .map(|p| (p.candidate, p.stage == ENDED))
        .collect();
    all[machine.me as usize - 1] = (machine.candidate, machine.ended);
    all.truncate(session.n as usize);
    all
}

/// Demand 3 after one call: "a message waits exactly when some worker has not ended", nobody is
/// before the line, who has ended is on it.
fn assert_demand_3(session: &Session, line: &[u64; PROCESSES], passed: u64) {
    let all = standing(session);
    let waits = session.lengths.iter().any(|&length| length > 0);
    assert_eq!(waits, all.iter().any(|&(_, ended)| !ended));
    for (&(candidate, ended), &on_line) in all.iter().zip(line) {
        assert!(candidate >= on_line && (!ended || candidate == on_line));
    }
    assert!(u64::from(session.delivered) <= (session.n - 1) * (2 * passed + 5));
    assert!(u64::from(session.machine.rounds) <= passed + 2);
}

#[test]
fn every_order_of_messages_ends_on_the_line() {
    let mut random = Random(1_181_783_497_276_652_981);
    for _ in 0..200 {
        let t = random_tables(&mut random, 6, 12);
        let (line, passed) = find_line(&t.shape, &t.sent, &t.received).unwrap();
        let initiator = 1 + random.below(t.shape.n);
        let purpose = 1 + 2 * random.below(2);
        let mut strands = vec![0; ((t.shape.n - 1) * (6 * t.shape.n - 2)) as usize];
        let mut session = session_start(&t.shape, &t.sent, &t.received, initiator, purpose, &mut strands).unwrap();
        let mut accepted = 0;
        assert_demand_3(&session, &line, passed);
        while standing(&session).iter().any(|&(_, ended)| !ended) {
            let p = random.below(t.shape.n + 2);
            let waits = (1..=t.shape.n).contains(&p) && session.lengths[p as usize - 1] > 0;
            let answer = session_turn(&mut session, &t.shape, &t.sent, &t.received, p, &mut strands);
            assert_eq!(answer.is_ok(), waits);
            accepted += u32::from(waits);
            assert_eq!(session.delivered, accepted);
            assert_demand_3(&session, &line, passed);
        }
    }
}

#[test]
fn moved_tables_have_their_line_on_checkpoint_1() {
    let mut random = Random(7_046_029_254_386_353_131);
    for _ in 0..200 {
        let mut t = random_tables(&mut random, 16, 16);
        let n = t.shape.n as usize;
        let purpose = 1 + 2 * random.below(2);
        let found = search(&t.shape, &t.sent, &t.received, 1, purpose).unwrap();
        let order = move_line(&mut t.shape, &mut t.sent, &mut t.received, purpose).unwrap();
        assert_eq!(order.from, found.set);
        assert!(t.line()[..n].iter().all(|&checkpoint| checkpoint == 1));
        let once = t.clone();
        move_line(&mut t.shape, &mut t.sent, &mut t.received, 1).unwrap();
        assert_eq!((once.shape, once.sent, once.received), (t.shape, t.sent, t.received));
    }
}

/// What the line's checkpoints had sent and not received on the channel from j to p.
fn in_flight(t: &Tables, line: &[u64; PROCESSES], j: usize, p: usize) -> Counter {
    t.sent(j, line[j], p) - t.received(p, line[p], j)
}

#[test]
fn an_oldest_sent_counter_is_what_is_on_its_way() {
    let mut random = Random(6_364_136_223_846_793_005);
    let mut above_zero = 0;
    for _ in 0..200 {
        let t = random_tables(&mut random, 8, 12);
        let line = t.line();
        for purpose in [1, 3] {
            let mut moved = t.clone();
            move_line(&mut moved.shape, &mut moved.sent, &mut moved.received, purpose).unwrap();
            let n = t.shape.n as usize;
            for (j, p) in (0..n).flat_map(|j| (0..n).map(move |p| (j, p))) {
                assert_eq!(moved.sent(j, 1, p), in_flight(&t, &line, j, p));
                assert_eq!(moved.received(j, 1, p), 0);
                above_zero += u32::from(moved.sent(j, 1, p) > 0);
            }
        }
    }
    assert!(above_zero > 1000, "{above_zero}");
}

/// A later checkpoint of process j in a book that was never moved: it has sent a little more, and received at most what was
/// sent, or one more.
fn later_row(random: &mut Random, t: &Tables, j: usize) -> (Vec<Counter>, Vec<Counter>) {
    let newest = t.shape.counts[j];
    let (mut sent, mut received) = (vec![0; PROCESSES], vec![0; PROCESSES]);
    for p in (0..t.shape.n as usize).filter(|&p| p != j) {
        sent[p] = t.sent(j, newest, p) + random.below(3) as Counter;
        let old = t.received(j, newest, p);
        let known = t.sent(p, t.shape.counts[p], j) + random.below(2) as Counter;
        received[p] = old + random.below(u64::from(known.saturating_sub(old)) + 1) as Counter;
    }
    (sent, received)
}

/// What went before, and what came off each channel from j to p, by all moves of a book so far.
struct Gone {
    before: [u64; PROCESSES],
    off: [[Counter; PROCESSES]; PROCESSES],
}

impl Gone {
    fn advance(&mut self, t: &mut Tables) {
        let line = t.line();
        let n = t.shape.n as usize;
        for (j, p) in (0..n).flat_map(|j| (0..n).map(move |p| (j, p))) {
            self.off[j][p] += t.received(p, line[p], j);
        }
        let order = move_line(&mut t.shape, &mut t.sent, &mut t.received, 1).unwrap();
        (0..n).for_each(|j| self.before[j] += order.before[j]);
    }

    /// Appends the checkpoint to a moved book, "their counters in the moved book less what the move took off".
    fn append_less(&self, t: &mut Tables, j: usize, sent: &[Counter], received: &[Counter]) {
        let less_sent: Vec<Counter> = (0..PROCESSES).map(|p| sent[p] - self.off[j][p]).collect();
        let less_received: Vec<Counter> = (0..PROCESSES).map(|p| received[p] - self.off[p][j]).collect();
        t.append(j, &less_sent, &less_received);
    }
}

/// "Finds the same physical checkpoints on the line of both", along chains of appends and moves.
#[test]
fn a_moved_book_has_the_line_of_the_whole_one() {
    let mut random = Random(1_442_695_040_888_963_407);
    let mut newer = 0;
    for _ in 0..150 {
        let mut whole = random_tables(&mut random, 6, 5);
        let n = whole.shape.n as usize;
        let mut moved = whole.clone();
        let mut gone = Gone {
            before: [0; PROCESSES],
            off: [[0; PROCESSES]; PROCESSES],
        };
        for _ in 0..6 {
            gone.advance(&mut moved);
            for _ in 0..random.below(12) {
                let j = random.below(n as u64) as usize;
                let (sent, received) = later_row(&mut random, &whole, j);
                whole.append(j, &sent, &received);
                gone.append_less(&mut moved, j, &sent, &received);
            }
            let line = moved.line();
            let renumbered: Vec<u64> = (0..n).map(|j| line[j] + gone.before[j]).collect();
            assert_eq!(renumbered, whole.line()[..n]);
            newer += u32::from(line[..n].iter().any(|&checkpoint| checkpoint > 1));
        }
    }
    assert!(newer > 300, "{newer}");
}
