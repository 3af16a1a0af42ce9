//! What the messages of one step are, and what is printed of them.

use crate::given::Given;
use crate::tables::PROCESSES;
use crate::text::Answer;
use crate::{IN_BYTES, IN_WORDS};

/// More bytes than the messages of any step take.
const ROOM: usize = 2048;

/// What a call that writes messages answered and left.
pub struct Mail {
    pub question: u32,
    out: Vec<u8>,
    lengths: [u64; PROCESSES],
}

impl Mail {
    /// Makes a call that writes to the part of a buffer that is lent, and to lengths.
    pub fn of(given: &Given, call: impl FnOnce(&mut [u8], &mut [u64]) -> u32) -> Mail {
        let mut out = vec![IN_BYTES; ROOM];
        let mut lengths = [IN_WORDS; PROCESSES];
        let question = call(given.part(&mut out), &mut lengths);
        Mail { question, out, lengths }
    }

    /// The messages one after another, each with its process, and where they end, within the buffer.
    fn messages(&self) -> (Vec<(usize, &[u8])>, usize) {
        let mut messages = Vec::new();
        let mut at = 0;
        for (k, &length) in self.lengths.iter().enumerate() {
            let end = usize::try_from(length).map_or(ROOM, |length| at + length.min(ROOM - at));
            if at < end {
                messages.push((k + 1, &self.out[at..end]));
            }
            at = end;
        }
        (messages, at)
    }

    fn is_untouched_from(&self, from: usize) -> bool {
        self.out[from..].iter().all(|&b| b == IN_BYTES)
    }

    /// Beside a refusal no length and no byte is touched, and behind messages no byte is.
    pub fn expect_rest(&self, answer: &mut Answer) {
        if self.question == 0 {
            answer.expect(self.is_untouched_from(self.messages().1), "bytes");
        } else {
            answer.expect(self.lengths == [IN_WORDS; PROCESSES], "lengths");
            answer.expect(self.is_untouched_from(0), "bytes");
        }
    }

    /// The question, and if they are to be shown `wrote` and the messages.
    pub fn put(&self, answer: &mut Answer, shown: bool) {
        answer.put(self.question);
        if self.question == 0 && shown {
            answer.put(" wrote");
            for (p, message) in self.messages().0 {
                answer.put_message(p, message);
            }
        }
        self.expect_rest(answer);
    }
}
