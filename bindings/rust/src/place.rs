//! Lines and columns of places.

use std::borrow::Cow;

use crate::is_utf16;

/// The text of an input: what the reader reads of it. In UTF-16 that cannot be decoded, U+FFFD stands
/// for a surrogate without its partner, and an odd byte at the end is left out.
pub(crate) fn text(input: &[u8]) -> Cow<'_, [u8]> {
    if !is_utf16(input) {
        return Cow::Borrowed(input);
    }
    let unit = match input[0] {
        0xfe => u16::from_be_bytes,
        _ => u16::from_le_bytes,
    };
    let units = input[2..]
        .chunks_exact(2)
        .map(|pair| unit([pair[0], pair[1]]));
    let characters = char::decode_utf16(units).map(|c| c.unwrap_or(char::REPLACEMENT_CHARACTER));
    Cow::Owned(characters.collect::<String>().into_bytes())
}

/// The line and the column of a place in the text of an input, both from 1. See [`Lines`] for how
/// they are counted, and for many places in one input.
pub(crate) fn line_column(input: &[u8], position: usize) -> (usize, usize) {
    let input = &*text(input);
    let before = &input[..position.min(input.len())];
    let mut line = 1;
    let mut start = 0;
    while let Some(next) = line_after(input, start).filter(|&next| next <= before.len()) {
        line += 1;
        start = next;
    }
    (line, 1 + characters(&before[start..]))
}

/// The lines of an input, for whoever shows many places in it.
///
/// Lines and columns count from 1. A line ends with LF, CR LF or CR. A column is counted in
/// characters; in what is not UTF-8, in bytes that do not continue a character. An input in UTF-16 is
/// decoded first, as the reader does, and the lines are those of its text.
///
/// Making it takes time in proportion to the input; asking it for a place does not.
///
/// ```
/// use introspection::{Document, Lines};
///
/// let input = "<node>\n  <é/><x/>\n</node>";
/// let document = Document::try_from(input)?;
/// let lines = Lines::new(input);
/// let places: Vec<_> = document
///     .warnings()
///     .map(|warning| lines.line_column(warning.position()))
///     .collect();
/// assert_eq!(places, [(2, 3), (2, 7)]);
/// assert_eq!(lines.line(2), "  <é/><x/>".as_bytes());
/// # Ok::<(), introspection::Error>(())
/// ```
#[derive(Clone, Debug)]
pub struct Lines<'a> {
    text: Cow<'a, [u8]>,
    /// Where each line starts.
    starts: Vec<usize>,
    /// How many characters start before each block.
    counts: Vec<usize>,
}

/// Bytes of a block. At most so many are looked at for a column.
const BLOCK: usize = 256;

impl<'a> Lines<'a> {
    /// The lines of an input: a `&[u8]` or a `&str`.
    pub fn new<I: AsRef<[u8]> + ?Sized>(input: &'a I) -> Self {
        let text = text(input.as_ref());
        let mut starts = vec![0];
        while let Some(next) = line_after(&text, starts[starts.len() - 1]) {
            starts.push(next);
        }
        let mut counts = vec![0];
        for block in text.chunks(BLOCK) {
            counts.push(counts[counts.len() - 1] + characters(block));
        }
        Self {
            text,
            starts,
            counts,
        }
    }

    /// The line and the column of a place. One past the end is that of the end.
    pub fn line_column(&self, position: usize) -> (usize, usize) {
        let position = position.min(self.text.len());
        let line = self.starts.partition_point(|&start| start <= position);
        let start = self.starts[line - 1];
        (line, 1 + self.before(position) - self.before(start))
    }

    /// Where a line starts; that of one that is not there is the end.
    pub fn start(&self, line: usize) -> usize {
        let start = line.checked_sub(1).and_then(|line| self.starts.get(line));
        start.copied().unwrap_or(self.text.len())
    }

    /// The bytes of a line, without its end; none if there is no such line.
    pub fn line(&self, line: usize) -> &[u8] {
        let [start, next] = [line, line.saturating_add(1)].map(|line| self.start(line));
        match self.text.get(start..next).unwrap_or_default() {
            [line @ .., b'\r', b'\n'] | [line @ .., b'\n' | b'\r'] => line,
            line => line,
        }
    }

    /// How many characters start before a place.
    fn before(&self, position: usize) -> usize {
        let block = position / BLOCK;
        self.counts[block] + characters(&self.text[block * BLOCK..position])
    }
}

fn is_end(byte: u8) -> bool {
    matches!(byte, b'\n' | b'\r')
}

/// Where the next line starts, for one that starts at a place.
fn line_after(input: &[u8], start: usize) -> Option<usize> {
    let end = start + input[start..].iter().position(|&byte| is_end(byte))?;
    match input[end..] {
        [b'\r', b'\n', ..] => Some(end + 2),
        _ => Some(end + 1),
    }
}

/// How many characters start in some bytes: those that do not continue one.
fn characters(bytes: &[u8]) -> usize {
    bytes.iter().filter(|&&byte| byte & 0xc0 != 0x80).count()
}

#[cfg(test)]
mod tests {
    use super::*;

    #[test]
    fn one_place_is_counted_as_many_are() {
        let texts = [
            "",
            "\n",
            "\r",
            "\r\n",
            "a\n\rb\r\r\n\n\u{e9}",
            "\u{20ac}\n\u{1f680}x",
        ];
        let long = "ab\u{e9}\r\n\u{20ac}\r".repeat(100);
        for text in texts.into_iter().chain([long.as_str()]) {
            let lines = Lines::new(text);
            for position in 0..text.len() + 2 {
                assert_eq!(
                    line_column(text.as_bytes(), position),
                    lines.line_column(position),
                    "{text:?} {position}"
                );
            }
        }
    }
}
