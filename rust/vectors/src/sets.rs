//! Tests of sets.

use crate::tables::{Lent, Set, PROCESSES};
use crate::text::{self, Answer};
use crate::{calls, IN_WORDS};

/// What stands in a pair before a test.
const UNWRITTEN: [u64; 2] = [IN_WORDS; 2];

/// The sixteen numbers with which fields begin.
pub fn sixteen(fields: &str) -> Option<[u64; PROCESSES]> {
    let mut rest = fields;
    let mut numbers = [0; PROCESSES];
    for number in &mut numbers {
        let (field, behind) = text::first(rest);
        *number = text::decimal(field)?;
        rest = behind;
    }
    Some(numbers)
}

/// What a test of a set answers: `yes`, `no` and the pair that is shown, or the question that refuses.
pub fn try_set(lent: Lent, set: &Set) -> Answer {
    let mut answer = Answer::default();
    let mut pair = UNWRITTEN;
    let question = calls::test_set(lent, set, &mut pair);
    if question != 0 {
        answer.put(question);
        answer.expect(pair == UNWRITTEN, "pair");
    } else if pair == [0, 0] {
        answer.put("yes");
        answer.expect(is_below_line(lent, set), "line");
    } else {
        answer.put("no");
        pair.iter().for_each(|&process| answer.put_number(process));
    }
    answer.expect(
        lent.other_lengths().iter().all(|&other| is_refused(other, set)),
        "lengths",
    );
    answer
}

/// Is a consistent set nowhere later than the line?
fn is_below_line(lent: Lent, set: &Set) -> bool {
    lent.find_line()
        .is_ok_and(|(line, _)| set.iter().zip(&line).all(|(r, s)| r <= s))
}

/// Are tables of another length refused by question 2, and no pair is shown?
fn is_refused(lent: Lent, set: &Set) -> bool {
    let mut pair = UNWRITTEN;
    calls::test_set(lent, set, &mut pair) == 2 && pair == UNWRITTEN
}
