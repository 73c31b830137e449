//! A message in parts that can be altered before it is written out.

/// The separators within a field, outermost first.
pub const WITHIN_FIELD: &[u8] = b"~^&";

#[derive(Clone)]
pub struct Segment {
    pub name: Vec<u8>,
    /// The written fields from field 1; of MSH from MSH-3.
    pub fields: Vec<Vec<u8>>,
}

impl Segment {
    pub fn new(name: &[u8]) -> Segment {
        Segment { name: name.to_vec(), fields: Vec::new() }
    }

    fn first(&self) -> usize {
        if self.name == b"MSH" {
            3
        } else {
            1
        }
    }

    /// A field by its number in the document; fields up to it come into being. MSH-1 and MSH-2 have no place of
    /// their own here, so MSH-3 is given for them.
    pub fn field(&mut self, number: usize) -> &mut Vec<u8> {
        let at = number.saturating_sub(self.first());
        while self.fields.len() <= at {
            self.fields.push(Vec::new());
        }
        &mut self.fields[at]
    }

    /// A copy of a field; nothing where there is none.
    pub fn text(&self, number: usize) -> Vec<u8> {
        self.fields.get(number.saturating_sub(self.first())).cloned().unwrap_or_default()
    }

    pub fn put(&mut self, number: usize, place: [usize; 3], value: &[u8]) {
        let text = self.text(number);
        *self.field(number) = put(&text, WITHIN_FIELD, &place, value);
    }

    pub fn write(&self, out: &mut Vec<u8>) {
        out.extend_from_slice(&self.name);
        if self.name == b"MSH" {
            out.extend_from_slice(b"|^~\\&");
        }
        for field in &self.fields {
            out.push(b'|');
            out.extend_from_slice(field);
        }
        out.push(b'\r');
    }
}

/// A text with the part at a place replaced: one step for each separator, outermost first.
pub fn put(text: &[u8], separators: &[u8], place: &[usize], value: &[u8]) -> Vec<u8> {
    if separators.is_empty() {
        return value.to_vec();
    }
    let mut parts: Vec<Vec<u8>> = text.split(|byte| *byte == separators[0]).map(|part| part.to_vec()).collect();
    while parts.len() < place[0] {
        parts.push(Vec::new());
    }
    let at = place[0] - 1;
    parts[at] = put(&parts[at], &separators[1..], &place[1..], value);
    parts.join(&separators[0])
}

#[derive(Clone)]
pub struct Draft {
    pub segments: Vec<Segment>,
}

impl Draft {
    pub fn write(&self) -> Vec<u8> {
        let mut out = Vec::with_capacity(1_024);
        for segment in &self.segments {
            segment.write(&mut out);
        }
        out
    }

    /// Where the segments of a name stand.
    pub fn named(&self, name: &[u8]) -> Vec<usize> {
        (0..self.segments.len()).filter(|at| self.segments[*at].name == name).collect()
    }
}

/// The names of a written message's segments: of each its first three bytes, or fewer.
pub fn names(message: &[u8]) -> Vec<&[u8]> {
    let whole = message.strip_suffix(b"\r").unwrap_or(message);
    whole.split(|byte| *byte == b'\r').map(|segment| &segment[..segment.len().min(3)]).collect()
}

#[cfg(test)]
mod tests {
    use super::*;

    #[test]
    fn a_part_is_put_at_its_place() {
        assert_eq!(put(b"a^b~c", WITHIN_FIELD, &[1, 2, 1], b"x"), b"a^x~c");
        assert_eq!(put(b"a", WITHIN_FIELD, &[2, 3, 2], b"x"), b"a~^^&x");
        assert_eq!(put(b"", WITHIN_FIELD, &[1, 1, 1], b""), b"");
    }

    #[test]
    fn header_fields_count_from_three() {
        let mut header = Segment::new(b"MSH");
        *header.field(4) = b"LAB".to_vec();
        let mut out = Vec::new();
        header.write(&mut out);
        assert_eq!(out, b"MSH|^~\\&||LAB\r");
        assert_eq!(header.text(4), b"LAB");
        assert_eq!(header.text(12), b"");
    }

    #[test]
    fn names_are_told_from_the_bytes() {
        assert_eq!(names(b"MSH|x\rPID\rA"), [&b"MSH"[..], b"PID", b"A"]);
    }
}
