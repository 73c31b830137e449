//! A round: calls for the child, the answers it must give, and the pairs that demand 3 speaks of.

use crate::generator::{Ask, Bundle, Generator};
use crate::lines::Lines;
use crate::spelling;

/// A round is not made much longer, so that it is soon answered.
const MOST_ROUND_BYTES: usize = 8_000_000;

/// Two calls of a round whose answers must agree, by their numbers in the round.
pub struct Pair {
    pub one: usize,
    pub other: usize,
    pub by_bytes: bool,
    /// Whether striking altered the message.
    pub struck: bool,
}

#[derive(Default)]
pub struct Round {
    pub calls: Lines,
    pub expected: Lines,
    pub pairs: Vec<Pair>,
}

impl Round {
    fn ask(&mut self, line: &[u8]) -> usize {
        self.calls.push(line);
        second::calls::answer(line, &mut self.expected.bytes);
        self.expected.end();
        self.calls.len() - 1
    }

    fn ask_struck(&mut self, ask: &Ask, one: usize, spelled: &[u8], struck: bool) {
        let other = self.ask(&ask.line(spelled));
        self.pairs.push(Pair { one, other, by_bytes: ask.entry == "look", struck });
    }

    pub fn add(&mut self, bundle: &Bundle) {
        let mut spelled = Vec::new();
        spelling::string(&bundle.message, &mut spelled);
        let mut spelled_struck = Vec::new();
        let struck = second::strike(&bundle.message);
        if let Some(message) = &struck {
            spelling::string(message, &mut spelled_struck);
        }
        for ask in &bundle.asks {
            let one = self.ask(&ask.line(&spelled));
            if ask.paired && struck.is_some() {
                self.ask_struck(ask, one, &spelled_struck, spelled != spelled_struck);
            }
        }
        for line in &bundle.others {
            self.ask(line);
        }
    }

    /// A round of about so many calls; fewer where they are long.
    pub fn make(generator: &mut Generator, calls: usize) -> Round {
        let mut round = Round::default();
        while round.calls.len() < calls && round.calls.bytes.len() < MOST_ROUND_BYTES {
            round.add(&generator.bundle());
        }
        round
    }
}

/// The sort of a look-up's answer and its string; the start and end may differ.
fn without_place(answer: &[u8]) -> Vec<&[u8]> {
    let words: Vec<&[u8]> = answer.split(|byte| *byte == b' ').collect();
    match words[..] {
        [sort, _, _, string] if sort == b"text" => vec![sort, string],
        _ => words,
    }
}

pub fn agree(pair: &Pair, one: &[u8], other: &[u8]) -> bool {
    one == other || (pair.by_bytes && without_place(one) == without_place(other))
}

#[cfg(test)]
mod tests {
    use super::*;

    #[test]
    fn look_ups_agree_by_their_bytes() {
        let looked = Pair { one: 0, other: 1, by_bytes: true, struck: true };
        assert!(agree(&looked, b"text 4 6 =ab", b"text 2 4 =ab"));
        assert!(!agree(&looked, b"text 4 6 =ab", b"text 4 6 =ac"));
        assert!(!agree(&looked, b"text 4 6 =ab", b"empty"));
        let judged = Pair { one: 0, other: 1, by_bytes: false, struck: true };
        assert!(!agree(&judged, b"fault PID 1 3 1 0 0 101 3", b"fault PID 1 3 1 1 1 101 3"));
    }
}
