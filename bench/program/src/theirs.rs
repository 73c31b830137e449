//! The entries of the second program.

use crate::{Core, NUMBER, STAMP};
use second::{file, judge, look_up, reply, Asked, Found, Refusal, Verdict};

pub struct Theirs;

fn told(answer: Result<u64, Refusal>) -> u64 {
    answer.unwrap_or_else(|refusal| u64::from(refusal.number()))
}

impl Core for Theirs {
    fn judge(message: &[u8]) -> u64 {
        told(judge(message).map(|verdict| match verdict {
            Verdict::Accepted => 0,
            Verdict::Fault(fault) => 100 * u64::from(fault.reason.number()),
        }))
    }

    fn look_up(message: &[u8], occurrence: u64) -> u64 {
        let asked = Asked {
            occurrence,
            field: 5,
            repetition: 1,
            component: 1,
            subcomponent: 1,
        };
        told(look_up(message, b"OBX", &asked).map(|found| match found {
            Found::Empty => 0,
            Found::Text(range) => range.len() as u64,
        }))
    }

    fn reply(message: &[u8], buffer: &mut [u8]) -> u64 {
        told(reply(message, STAMP, NUMBER, buffer).map(|size| size as u64))
    }

    fn file(message: &[u8], book: &mut [u8]) -> u64 {
        told(file(message, 1, 0, book).map(|()| 0))
    }
}
