//! The entries of the proved core.

use crate::{Core, NUMBER, STAMP};
use ithwyral::{file, judge, look_up, reply, Place, Refusal, Verdict};

pub struct Ours;

fn told(answer: Result<u64, Refusal>) -> u64 {
    answer.unwrap_or_else(|refusal| u64::from(refusal.number()))
}

impl Core for Ours {
    fn judge(message: &[u8]) -> u64 {
        told(judge(message).map(|verdict| match verdict {
            Verdict::Accepted => 0,
            Verdict::Fault(fault) => 100 * fault.reason,
        }))
    }

    fn look_up(message: &[u8], occurrence: u64) -> u64 {
        let place = Place {
            name: *b"OBX",
            occurrence,
            field: 5,
            repetition: 1,
            component: 1,
            subcomponent: 1,
        };
        told(look_up(message, &place).map(|text| text.map_or(0, |text| text.len() as u64)))
    }

    fn reply(message: &[u8], buffer: &mut [u8]) -> u64 {
        told(reply(message, STAMP, NUMBER, buffer).map(|reply| reply.len() as u64))
    }

    fn file(message: &[u8], book: &mut [u8]) -> u64 {
        told(file(message, 1, 0, book).map(|()| 0))
    }
}
