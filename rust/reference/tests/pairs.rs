//! The first pair at fault and the lowest offending partner (E3), and the order of the questions.

use reference::*;

/// The tables of three processes with two checkpoints each, of which these counters of the newest are
/// not zero: (process, partner, counter).
fn newest_of_three(
    sent_to: &[(usize, usize, Counter)],
    received_from: &[(usize, usize, Counter)],
) -> (Shape, Vec<Counter>, Vec<Counter>) {
    let mut counts = [0; PROCESSES];
    counts[..3].fill(2);
    let table = |entries: &[(usize, usize, Counter)]| {
        let mut table = vec![0; ENTRIES];
        for &(process, partner, counter) in entries {
            table[(2 * process - 1) * PROCESSES + partner - 1] = counter;
        }
        table
    };
    (Shape { n: 3, counts }, table(sent_to), table(received_from))
}

/// K's example 1.
fn example_1() -> (Shape, Vec<Counter>, Vec<Counter>) {
    newest_of_three(&[(2, 1, 3), (3, 1, 7)], &[(1, 2, 4), (1, 3, 5)])
}

fn sixteen<T: Copy + Default>(first: &[T]) -> [T; PROCESSES] {
    let mut sixteen = [T::default(); PROCESSES];
    sixteen[..first.len()].copy_from_slice(first);
    sixteen
}

#[test]
fn the_lowest_j_and_for_it_the_lowest_p() {
    let everything = [(1, 2, 1), (1, 3, 1), (2, 1, 1), (2, 3, 1), (3, 1, 1), (3, 2, 1)];
    let shown = |received: &[(usize, usize, Counter)], set: &[u64; 3]| {
        let (shape, sent, received) = newest_of_three(&[], received);
        test_set(&shape, &sent, &received, &sixteen(set)).unwrap()
    };
    for (place, first) in everything.iter().enumerate() {
        let pair = Some((first.0 as u64, first.1 as u64));
        assert_eq!(shown(&everything[place..], &[2, 2, 2]), pair);
    }
    assert_eq!(shown(&everything, &[1, 2, 2]), Some((2, 1)));
    assert_eq!(shown(&everything, &[1, 1, 2]), Some((3, 1)));
    assert_eq!(shown(&everything, &[1, 1, 1]), None);
    // The lowest j, though a higher one is at fault with a lower p.
    assert_eq!(shown(&[(1, 3, 1), (2, 1, 1)], &[2, 2, 2]), Some((1, 3)));
}

#[test]
fn the_lowest_offending_partner() {
    let (shape, sent, received) = example_1();
    let named = |process, checkpoint, known: &[Counter; 3]| {
        test_checkpoint(&shape, &sent, &received, process, checkpoint, &sixteen(known)).unwrap()
    };
    assert_eq!(named(1, 2, &[0, 3, 7]), Some(2));
    assert_eq!(named(1, 2, &[0, 4, 7]), None);
    assert_eq!(named(1, 2, &[0, 4, 4]), Some(3));
    assert_eq!(named(1, 2, &[0, 0, 0]), Some(2));
    assert_eq!(named(1, 2, &[0, MARK, 0]), Some(3));
    assert_eq!(named(1, 2, &[0, MARK, MARK]), None);
    assert_eq!(named(1, 1, &[0, 0, 0]), None);
    assert_eq!(named(2, 2, &[0, 0, 0]), None);
}

/// The pair that is shown for a set is that of its first checkpoint with an offending partner.
#[test]
fn a_set_goes_by_its_columns() {
    let sent = [(1, 2, 2), (1, 3, 1), (2, 1, 1), (3, 1, 3), (3, 2, 1)];
    let received = [(1, 2, 1), (1, 3, 2), (2, 1, 2), (2, 3, 2), (3, 1, 1), (3, 2, 1)];
    let (shape, sent, received) = newest_of_three(&sent, &received);
    for number in 0..8 {
        let set = [0, 1, 2].map(|bit| 1 + (number >> bit) % 2);
        let by_columns = (1..=3u64).find_map(|j| {
            let sent_to_j = |p: usize| sent[(2 * p + set[p] as usize - 1) * PROCESSES + j as usize - 1];
            let known = sixteen(&[0, 1, 2].map(sent_to_j));
            let partner = test_checkpoint(&shape, &sent, &received, j, set[j as usize - 1], &known);
            partner.unwrap().map(|p| (j, p))
        });
        assert_eq!(
            test_set(&shape, &sent, &received, &sixteen(&set)),
            Ok(by_columns),
            "{set:?}"
        );
    }
}

#[test]
fn a_column_meets_10_then_12_after_the_tables() {
    let (shape, sent, received) = example_1();
    let known = [0; PROCESSES];
    let question = |shape: &Shape, sent: &[Counter], process, checkpoint| {
        test_checkpoint(shape, sent, &received, process, checkpoint, &known)
    };
    for process in [0, 4, 17, (1 << 32) + 1, u64::MAX] {
        assert_eq!(question(&shape, &sent, process, 0), Err(10));
    }
    for checkpoint in [0, 3, (1 << 32) + 1, u64::MAX] {
        assert_eq!(question(&shape, &sent, 3, checkpoint), Err(12));
    }
    let mut damaged = sent.clone();
    damaged[ENTRIES - 1] = 1;
    assert_eq!(question(&shape, &damaged, 0, 0), Err(9));
    let nobody = Shape { n: 0, ..shape };
    assert_eq!(question(&nobody, &damaged, 0, 0), Err(4));
    assert_eq!(question(&nobody, &sent[1..], 0, 0), Err(2));
}

#[test]
fn other_lengths_are_refused_first() {
    let (shape, sent, received) = example_1();
    let shape: Vec<u64> = std::iter::once(shape.n).chain(shape.counts).collect();
    let mut partner = 9;
    let mut answer = |shape: &[u64], sent: &[Counter], known: &[Counter], process| {
        words::test_checkpoint(shape, sent, &received, process, 2, known, &mut partner)
    };
    assert_eq!(answer(&shape[1..], &[], &[0; 16], 0), 100);
    for length in [0, 15, 17] {
        assert_eq!(answer(&shape, &[], &vec![0; length], 0), 100);
    }
    assert_eq!(answer(&shape, &[], &[0; 16], 0), 2);
    assert_eq!(answer(&shape, &sent, &[0; 16], 0), 10);
    assert_eq!(answer(&shape, &sent, &[0; 16], 1), 0);
    assert_eq!(partner, 2);
    assert_eq!(
        words::test_checkpoint(&shape, &sent, &received, 1, 3, &[0; 16], &mut partner),
        12
    );
    assert_eq!(partner, 2);
    assert_eq!(
        words::test_checkpoint(&shape, &sent, &received, 2, 2, &[0; 16], &mut partner),
        0
    );
    assert_eq!(partner, 0);
}
