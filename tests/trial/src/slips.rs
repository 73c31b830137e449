//! Books with slips in them, good ones and damaged ones.

use crate::numbers::SLOT_BYTES;
use crate::random::Random;
use crate::spelling;
use crate::values::text;

type Fields = Vec<(u8, Vec<u8>)>;

/// The book that the second program leaves after filing, if it files.
pub fn filed(message: &[u8], group: u64, slot: u64, book: &[u8]) -> Option<Vec<u8>> {
    let mut line = b"file".to_vec();
    spelling::word(message, &mut line);
    spelling::number(group, &mut line);
    spelling::number(slot, &mut line);
    spelling::word(book, &mut line);
    let answer = spelling::answer(&line);
    if answer.starts_with(b"filed ") {
        spelling::last_string(&answer)
    } else {
        None
    }
}

/// The tagged fields of a good slip.
fn fields(slip: &[u8]) -> Fields {
    let mut out = Vec::new();
    let mut at = 0;
    while at + 3 <= slip.len() && slip[at] != 0 {
        let end = at + 3 + usize::from(slip[at + 1]) * 256 + usize::from(slip[at + 2]);
        if end > slip.len() {
            break;
        }
        out.push((slip[at], slip[at + 3..end].to_vec()));
        at = end;
    }
    out
}

/// A slot with these fields; longer than a slot where they are.
pub fn slip(fields: &[(u8, Vec<u8>)]) -> Vec<u8> {
    let mut out = Vec::new();
    for (tag, value) in fields {
        out.extend_from_slice(&[*tag, (value.len() >> 8) as u8, value.len() as u8]);
        out.extend_from_slice(value);
    }
    out.resize(out.len().max(SLOT_BYTES), 0);
    out
}

fn field_length(random: &mut Random, fields: &mut Fields) {
    let at = random.below(fields.len());
    let length = random.pick(&[0, 1, 2, 3, 19, 20, 21, 198, 199, 200, 255, 256, 257, 400]);
    fields[at].1 = text(random, length);
}

fn field_count(random: &mut Random, fields: &mut Fields) {
    let count = random.pick(&[0, 1, 255, 256, 508, 509, 510, 511, 512, 65_535, 0xFD01]);
    if let Some(last) = fields.last_mut() {
        last.1 = vec![(count >> 8) as u8, count as u8];
    }
}

fn field_byte(random: &mut Random, fields: &mut Fields) {
    let at = random.below(fields.len());
    if !fields[at].1.is_empty() {
        let place = random.below(fields[at].1.len());
        fields[at].1[place] = random.pick(&[0, 0x0D, 0x1F, 0x20, 0x7E, 0x7F, 0x80, 0xFF]);
    }
}

/// Tags left out, doubled, out of order, wrong, or put in: tag 3 may be there or not.
fn field_tags(random: &mut Random, fields: &mut Fields) {
    let at = random.below(fields.len());
    match random.below(6) {
        0 => {
            fields.remove(at);
        }
        1 => {
            let copy = fields[at].clone();
            fields.insert(at, copy);
        }
        2 => {
            let other = random.below(fields.len());
            fields.swap(at, other);
        }
        3 => fields[at].0 = random.pick(&[0, 1, 2, 3, 4, 5, 6, 7, 255]),
        4 => fields.retain(|field| field.0 != 3),
        _ => {
            fields.retain(|field| field.0 != 3);
            let place = fields.iter().position(|field| field.0 > 3).unwrap_or(fields.len());
            fields.insert(place, (3, b"P3".to_vec()));
        }
    }
}

/// One byte of the slot: of the lengths and tags, of the zeros after, or any.
fn slot_byte(random: &mut Random, slot: &mut [u8]) {
    let used = slot.iter().rposition(|byte| *byte != 0).map_or(0, |at| at + 1);
    let last = SLOT_BYTES - 1;
    let at = match random.below(6) {
        0 => last,
        1 => used.min(last),
        2 => random.below(SLOT_BYTES),
        3 => random.between(used.min(last), last),
        _ => random.below(used.max(1)),
    };
    slot[at] = match random.below(3) {
        0 => slot[at].wrapping_add(1),
        1 => slot[at].wrapping_sub(1),
        _ => random.pick(&[0, 1, 2, 6, 20, 32, 255]),
    };
}

/// A slot made of a good slip, damaged or not.
fn damaged(random: &mut Random, good: &[u8]) -> Vec<u8> {
    let mut fields = fields(good);
    if fields.is_empty() {
        fields.push((1, b"C7".to_vec()));
    }
    let damages = random.pick(&[0, 0, 0, 1, 1, 2]);
    for _ in 0..damages {
        match random.below(4) {
            _ if fields.is_empty() => (),
            0 => field_length(random, &mut fields),
            1 => field_count(random, &mut fields),
            2 => field_byte(random, &mut fields),
            _ => field_tags(random, &mut fields),
        }
    }
    let mut slot = slip(&fields);
    slot.truncate(SLOT_BYTES);
    if random.one_in(4) {
        slot_byte(random, &mut slot);
    }
    slot
}

/// The same book with some of its slots' slips damaged; the bytes beyond the slots too.
pub fn damaged_book(random: &mut Random, book: &[u8]) -> Vec<u8> {
    let mut out = Vec::with_capacity(book.len());
    for part in book.chunks(SLOT_BYTES) {
        if part.len() == SLOT_BYTES && part[0] == 1 {
            out.extend(damaged(random, part));
        } else {
            out.extend_from_slice(part);
        }
    }
    if random.one_in(12) {
        let kept = random.pick(&[0, 1_000, 1_023, 1_024, 1_025, 2_047]);
        out.truncate(kept);
    }
    out
}

pub const TAGS: &[u64] = &[0, 1, 2, 3, 4, 5, 6, 7, 8, 255, 256, 257, 262, 65_537, (1 << 32) + 1, u64::MAX];

#[cfg(test)]
mod tests {
    use super::*;

    #[test]
    fn fields_of_a_slip_go_there_and_back() {
        let list: Fields = vec![(1, b"C7".to_vec()), (2, vec![b'x'; 199]), (6, vec![0, 1])];
        let written = slip(&list);
        assert_eq!(written.len(), SLOT_BYTES);
        assert_eq!(fields(&written), list);
    }
}
