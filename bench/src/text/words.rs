//! Lines of a text, words of a line, and words that are numbers.

/// From here on a number is told as so many or more.
const COUNTLESS: u64 = u64::MAX - 1;

/// What remains of a text: the words of the present line, one after the other, and the lines behind it.
#[derive(Clone)]
pub struct Words<'a>(pub &'a [u8]);

impl Words<'_> {
    /// Whether this is the next word; then it is passed.
    pub fn accept(&mut self, word: &[u8]) -> bool {
        let mut behind = self.clone();
        let found = behind.next() == Some(word);
        if found {
            *self = behind;
        }
        found
    }

    pub fn next_line(&mut self) {
        let end = self.0.iter().position(|byte| *byte == b'\n').map_or(self.0.len(), |end| end + 1);
        self.0 = &self.0[end..];
    }
}

impl<'a> Iterator for Words<'a> {
    type Item = &'a [u8];

    /// None at the line's end, at its comment, and at the CR before its LF.
    fn next(&mut self) -> Option<&'a [u8]> {
        let start = self.0.iter().position(|byte| !matches!(byte, b' ' | b'\t'))?;
        let rest = &self.0[start..];
        let end = rest.iter().position(|byte| matches!(byte, b' ' | b'\t' | b'\n' | b'#')).unwrap_or(rest.len());
        let (mut word, rest) = rest.split_at(end);
        self.0 = rest;
        if rest.first() == Some(&b'\n') {
            word = word.strip_suffix(b"\r").unwrap_or(word);
        }
        (!word.is_empty()).then_some(word)
    }
}

/// The number that a word is, if it is one.
pub fn number(word: &[u8]) -> Option<u64> {
    let mut value = 0u64;
    for byte in word {
        let digit = byte.wrapping_sub(b'0');
        if digit > 9 {
            return None;
        }
        value = value.saturating_mul(10).saturating_add(u64::from(digit));
    }
    Some(value.min(COUNTLESS))
}
