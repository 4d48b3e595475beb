//! Input cut into lines in constant memory, however the bytes arrive and however long a line is.

use super::line::LINE_BYTES;

/// One byte more than can be read: a longer line is handed on cut to this, and is still too long.
const KEPT: usize = LINE_BYTES + 1;

/// The beginning of a line whose LF has not come yet.
pub struct Lines {
    kept: [u8; KEPT],
    length: usize,
}

impl Default for Lines {
    fn default() -> Lines {
        Lines { kept: [0; KEPT], length: 0 }
    }
}

impl Lines {
    /// Takes the next bytes and hands on each line that ends in them, without its LF.
    pub fn feed(&mut self, mut bytes: &[u8], mut each: impl FnMut(&[u8])) {
        while let Some(end) = bytes.iter().position(|byte| *byte == b'\n') {
            let line = &bytes[..end];
            bytes = &bytes[end + 1..];
            if self.length == 0 {
                each(&line[..line.len().min(KEPT)]);
            } else {
                self.keep(line);
                each(&self.kept[..self.length]);
                self.length = 0;
            }
        }
        self.keep(bytes);
    }

    /// Hands on an unended last line, if it has a byte.
    pub fn finish(&mut self, mut each: impl FnMut(&[u8])) {
        if self.length > 0 {
            each(&self.kept[..self.length]);
            self.length = 0;
        }
    }

    /// Keeps as much of the line as is needed.
    fn keep(&mut self, bytes: &[u8]) {
        let more = bytes.len().min(KEPT - self.length);
        self.kept[self.length..self.length + more].copy_from_slice(&bytes[..more]);
        self.length += more;
    }
}
