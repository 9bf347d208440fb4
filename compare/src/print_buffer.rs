//! The buffer that the compiled kernel prints a log into, held to the text that lib.rs's bodies give.
use crate::rattle;

/// The longest text: 65,536 lines of 9 bytes.
pub const MOST: usize = 9 * 65_536;
/// So many bytes stand behind the longest buffer.
const BEHIND: usize = 64;
/// A byte that no text has, which the buffer is full of before.
const UNTOUCHED: u8 = 0xA5;

pub struct Buffer(Vec<u8>);

/// What is wrong, in which line, and the rest of it on both sides.
pub struct Wrong {
    pub what: &'static str,
    pub line: usize,
    pub original: String,
    pub compiled: String,
}

impl Buffer {
    pub fn new() -> Buffer {
        Buffer(vec![UNTOUCHED; MOST + BEHIND])
    }

    /// Prints a log into a buffer of this length: the bytes written are the first of the text, as many as fit, their number
    /// is given, and nothing else is written.
    pub fn compare(&mut self, log: &[u8], text: &[u8], length: usize) -> Result<(), Wrong> {
        let count = rattle::print(log, &mut self.0[..length]);
        let fits = text.len().min(length);
        let (written, rest) = self.0.split_at(fits);
        if written != &text[..fits] {
            return Err(self.wrong("another text", text, fits));
        }
        if rest.iter().any(|&byte| byte != UNTOUCHED) {
            return Err(self.wrong("something behind the text", text, fits));
        }
        if count != fits {
            let (original, compiled) = (fits.to_string(), count.to_string());
            return Err(Wrong { what: "another number of bytes", line: lines(&text[..fits]), original, compiled });
        }
        self.0[..fits].fill(UNTOUCHED);
        Ok(())
    }

    /// The first byte that is not the text's, or not untouched behind it, and its line on both sides.
    fn wrong(&self, what: &'static str, text: &[u8], fits: usize) -> Wrong {
        let expected = |at: usize| if at < fits { text[at] } else { UNTOUCHED };
        let at = (0..self.0.len()).find(|&at| self.0[at] != expected(at)).unwrap_or(0);
        let start = text[..at.min(fits)].iter().rposition(|&byte| byte == b'\n').map_or(0, |end| end + 1);
        let line = lines(&text[..start]);
        Wrong { what, line, original: line_at(&text[..fits], start), compiled: line_at(&self.0, start) }
    }
}

/// How many lines end in this text.
fn lines(text: &[u8]) -> usize {
    text.iter().filter(|&&byte| byte == b'\n').count()
}

/// What stands from this place to the line's end, or to what is untouched.
fn line_at(text: &[u8], start: usize) -> String {
    let line = text[start..].iter().copied().take_while(|byte| ![b'\n', UNTOUCHED].contains(byte));
    String::from_utf8_lossy(&line.collect::<Vec<u8>>()).into_owned()
}
