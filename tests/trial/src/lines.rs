//! Lines with their ends, kept one after another as programs read and print them.

#[derive(Default)]
pub struct Lines {
    pub bytes: Vec<u8>,
    ends: Vec<usize>,
}

impl Lines {
    pub fn push(&mut self, line: &[u8]) {
        self.bytes.extend_from_slice(line);
        self.end();
    }

    /// Ends a line that was written to the bytes.
    pub fn end(&mut self) {
        self.bytes.push(b'\n');
        self.ends.push(self.bytes.len());
    }

    /// Lines of what a program printed; a last one without its end is no line.
    pub fn of(bytes: Vec<u8>) -> Lines {
        let ends = (0..bytes.len()).filter(|at| bytes[*at] == b'\n').map(|at| at + 1).collect();
        Lines { bytes, ends }
    }

    pub fn len(&self) -> usize {
        self.ends.len()
    }

    /// A line without its end.
    pub fn line(&self, at: usize) -> &[u8] {
        let start = if at == 0 { 0 } else { self.ends[at - 1] };
        &self.bytes[start..self.ends[at] - 1]
    }
}

#[cfg(test)]
mod tests {
    use super::Lines;

    #[test]
    fn lines_are_told_apart() {
        let lines = Lines::of(b"a\n\nbc\nd".to_vec());
        assert_eq!(lines.len(), 3);
        assert_eq!((lines.line(0), lines.line(1), lines.line(2)), (&b"a"[..], &b""[..], &b"bc"[..]));
    }
}
