//! How a segment comes apart: fields, repetitions, components, subcomponents.
//!
//! One rule serves all four depths. A leaf runs up to the next separator of
//! any depth; which separator it is says how many parts end there. So a field
//! is read in one pass, its leaves coming in rising place order.

use crate::separators::{COMPONENT, FIELD, HEADER_HEAD, REPETITION, SUBCOMPONENT};

/// The part that ends at a byte, and with it all parts within.
#[derive(Clone, Copy, Debug, PartialEq, Eq)]
enum End {
    Nothing,
    Subcomponent,
    Component,
    Repetition,
    Field,
}

const ENDS: [End; 256] = ends();

const fn ends() -> [End; 256] {
    let mut ends = [End::Nothing; 256];
    ends[SUBCOMPONENT as usize] = End::Subcomponent;
    ends[COMPONENT as usize] = End::Component;
    ends[REPETITION as usize] = End::Repetition;
    ends[FIELD as usize] = End::Field;
    ends
}

/// What ends at a byte.
fn end_at(byte: u8) -> End {
    ENDS[usize::from(byte)]
}

/// One segment of a sound frame, without its CR.
#[derive(Clone, Copy, Debug)]
pub struct Segment<'m> {
    bytes: &'m [u8],
}

impl<'m> Segment<'m> {
    pub(crate) fn new(bytes: &'m [u8]) -> Self {
        Segment { bytes }
    }

    /// The segment as written.
    pub fn bytes(&self) -> &'m [u8] {
        self.bytes
    }

    /// The segment's name.
    pub fn name(&self) -> [u8; 3] {
        [self.bytes[0], self.bytes[1], self.bytes[2]]
    }

    /// The bytes before the separator of the first field that is split: the
    /// name, and in the header MSH-1 and MSH-2 too.
    pub fn head(&self) -> &'m [u8] {
        match self.is_header() {
            true => &self.bytes[..HEADER_HEAD],
            false => &self.bytes[..3],
        }
    }

    /// The number of the first field after the head.
    pub fn first_field(&self) -> u32 {
        match self.is_header() {
            true => 3,
            false => 1,
        }
    }

    /// The bytes of the fields after the head; none at all if the segment
    /// ends with its head.
    pub fn body(&self) -> Option<&'m [u8]> {
        self.bytes.get(self.head().len() + 1..)
    }

    fn is_header(&self) -> bool {
        // A frame has one MSH only, and that begins with the nine bytes.
        self.name() == *b"MSH"
    }
}

/// Stands before a field of a segment and only goes forward.
#[derive(Clone, Copy, Debug)]
pub struct Fields<'m> {
    number: u32,
    rest: &'m [u8],
}

impl<'m> Fields<'m> {
    /// Stands before the first field after the segment's head.
    pub fn of(segment: Segment<'m>) -> Self {
        Fields {
            number: segment.first_field(),
            rest: segment.body().unwrap_or_default(),
        }
    }

    /// Goes forward to a field. Past the segment's last field nothing is
    /// left, which reads as Empty: absent and zero-length are the same.
    pub fn go_to(&mut self, number: u32) {
        while self.number < number {
            self.rest = match self.rest.iter().position(|&byte| byte == FIELD) {
                Some(end) => &self.rest[end + 1..],
                None => &[],
            };
            self.number += 1;
        }
    }

    /// Whether the field here has no bytes, and so no repetitions.
    pub fn at_zero_bytes(&self) -> bool {
        matches!(self.rest, [] | [FIELD, ..])
    }

    /// How many repetitions the field here has.
    pub fn repetitions(&self) -> u32 {
        if self.at_zero_bytes() {
            return 0;
        }
        let field = self.rest.iter().take_while(|&&byte| byte != FIELD);
        field.fold(1, |count, &byte| count + u32::from(byte == REPETITION))
    }

    /// The field here, to be walked leaf by leaf.
    pub fn walk(&self) -> FieldWalk<'m> {
        FieldWalk::new(self.rest)
    }

    /// Goes on after a field that was walked to its end.
    pub fn leave(&mut self, walk: &FieldWalk<'m>) {
        self.rest = walk.rest;
        self.number += 1;
    }

    /// Goes forward to a field and gives its first leaf, of no bytes if
    /// Empty.
    pub fn first_leaf(&mut self, number: u32) -> &'m [u8] {
        self.go_to(number);
        self.walk().leaf
    }
}

/// Walks one field, leaf by leaf and only forward.
#[derive(Clone, Copy, Debug)]
pub struct FieldWalk<'m> {
    leaf: &'m [u8],
    /// Component and subcomponent of `leaf`.
    place: (u32, u32),
    /// What ended `leaf`.
    end: End,
    /// What follows that separator.
    rest: &'m [u8],
}

impl<'m> FieldWalk<'m> {
    fn new(rest: &'m [u8]) -> Self {
        let mut walk = FieldWalk {
            leaf: &[],
            place: (1, 1),
            end: End::Field,
            rest,
        };
        walk.cut_leaf();
        walk
    }

    /// The leaf of this repetition at a component and subcomponent; places
    /// must be asked in rising order.
    pub fn leaf(&mut self, place: (u32, u32)) -> &'m [u8] {
        while self.place < place && self.step() {}
        if self.place == place {
            self.leaf
        } else {
            &[]
        }
    }

    /// Goes to the next repetition, or says that the field has ended.
    pub fn next_repetition(&mut self) -> bool {
        while self.step() {}
        let more = self.end == End::Repetition;
        if more {
            self.place = (1, 1);
            self.cut_leaf();
        }
        more
    }

    /// Goes to the next leaf, unless the repetition has ended.
    fn step(&mut self) -> bool {
        self.place = match self.end {
            End::Subcomponent => (self.place.0, self.place.1 + 1),
            End::Component => (self.place.0 + 1, 1),
            _ => return false,
        };
        self.cut_leaf();
        true
    }

    /// Cuts the next leaf off the rest.
    fn cut_leaf(&mut self) {
        let whole = self.rest;
        match whole.iter().position(|&byte| end_at(byte) != End::Nothing) {
            Some(length) => {
                self.leaf = &whole[..length];
                self.end = end_at(whole[length]);
                self.rest = &whole[length + 1..];
            }
            // The segment's end ends its last field.
            None => {
                self.leaf = whole;
                self.end = End::Field;
                self.rest = &[];
            }
        }
    }
}
