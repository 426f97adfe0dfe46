//! A file's bytes as lines and words, and where each word stands. Line ends and bytes that no readable table has are found here.

use super::fault::{Fault, MOST};

/// Part of a line: from one byte of it up to another. Lines are counted from 0 here and shown from 1.
#[derive(Debug, Clone, Copy, PartialEq, Eq, PartialOrd, Ord)]
pub struct Span {
    pub line: usize,
    pub from: usize,
    pub to: usize,
}

/// A word of a line: characters without a blank between them.
#[derive(Debug, Clone, Copy)]
pub struct Word<'a> {
    pub text: &'a str,
    pub at: Span,
}

/// A file by its lines, without their ends.
pub struct Source {
    pub name: String,
    pub lines: Vec<String>,
}

const BYTE_ORDER_MARK: &[u8] = &[0xef, 0xbb, 0xbf];

impl Source {
    /// The lines of a file, and what is wrong with its bytes.
    pub fn of(name: &str, bytes: &[u8]) -> (Source, Vec<Fault>) {
        let bytes = bytes.strip_prefix(BYTE_ORDER_MARK).unwrap_or(bytes);
        let mut source = Source { name: name.to_string(), lines: Vec::new() };
        if bytes.starts_with(&[0xff, 0xfe]) || bytes.starts_with(&[0xfe, 0xff]) {
            source.lines.push(String::new());
            let fault = Fault::new(source.end(), "the file is UTF-16; save it as UTF-8");
            return (source, vec![fault]);
        }
        let bytes_of_words = bytes.contains(&0);
        let mut faults = Vec::new();
        let mut ends = LineEnds { first: None, told: false };
        let mut rest = bytes;
        while (!rest.is_empty() || source.lines.is_empty()) && faults.len() < MOST {
            let (line, after, ended) = match rest.iter().position(|&b| b == b'\n') {
                Some(n) => (&rest[..n], &rest[n + 1..], true),
                None => (rest, &rest[rest.len()..], false),
            };
            rest = after;
            let returned = ended && line.last() == Some(&b'\r');
            let line = if returned { &line[..line.len() - 1] } else { line };
            let at = source.lines.len();
            faults.extend(if bytes_of_words { zero(at, line) } else { bad_character(at, line) });
            source.lines.push(String::from_utf8_lossy(line).into_owned());
            if ended {
                faults.extend(ends.mixed(at, line.len(), returned));
            }
        }
        (source, faults)
    }

    /// Behind the last character of the file.
    pub fn end(&self) -> Span {
        let line = self.lines.len().saturating_sub(1);
        self.end_of(line)
    }

    /// Behind the last word of a line.
    pub fn end_of(&self, line: usize) -> Span {
        let from = self.lines.get(line).map_or(0, |text| text.trim_end().len());
        Span { line, from, to: from }
    }

    /// The words of a line, comments among them.
    pub fn words(&self, line: usize) -> Vec<Word<'_>> {
        let mut words = Vec::new();
        let mut at = 0;
        for text in self.lines[line].split(' ') {
            if !text.is_empty() {
                words.push(Word { text, at: Span { line, from: at, to: at + text.len() } });
            }
            at += text.len() + 1;
        }
        words
    }
}

/// A byte 0, which no text has. Words in bytes have many, so nothing else is said of such a file.
fn zero(line: usize, bytes: &[u8]) -> Option<Fault> {
    let before = bytes.iter().position(|&b| b == 0)?;
    let from = String::from_utf8_lossy(&bytes[..before]).len();
    Some(Fault::new(Span { line, from, to: from + 1 }, "a byte 0, which no text has; words in bytes are read with --words"))
}

/// The first character of a line that no readable table has, or what is not UTF-8.
fn bad_character(line: usize, bytes: &[u8]) -> Option<Fault> {
    let (text, broken) = match std::str::from_utf8(bytes) {
        Ok(text) => (text, None),
        Err(e) => (std::str::from_utf8(&bytes[..e.valid_up_to()]).unwrap_or(""), Some(e.valid_up_to())),
    };
    if let Some((from, c)) = text.char_indices().find(|&(_, c)| c.is_control() || invisible(c)) {
        let what = match c {
            '\t' => "a tab; use blanks".to_string(),
            '\r' => "a carriage return (byte 13) that no line feed follows".to_string(),
            _ if invisible(c) => format!("a character that cannot be seen (U+{:04X})", c as u32),
            _ => format!("a control character (U+{:04X}); only blanks and line ends stand between words", c as u32),
        };
        return Some(Fault::new(Span { line, from, to: from + c.len_utf8() }, what));
    }
    broken.map(|from| Fault::new(Span { line, from, to: from + 1 }, format!("byte {} is not UTF-8 here", bytes[from])))
}

/// Characters without a width, and those that turn the direction of writing: with them a line can look like another.
pub fn invisible(c: char) -> bool {
    matches!(c, '\u{ad}' | '\u{61c}' | '\u{200b}'..='\u{200f}' | '\u{2028}'..='\u{202e}' | '\u{2060}'..='\u{206f}' | '\u{feff}')
}

/// The kind of line end that the file began with: whether it has a carriage return. A file that mixes them is told so once.
struct LineEnds {
    first: Option<bool>,
    told: bool,
}

impl LineEnds {
    /// The first line that ends otherwise than the lines before it.
    fn mixed(&mut self, line: usize, length: usize, returned: bool) -> Option<Fault> {
        let first = *self.first.get_or_insert(returned);
        if first == returned || self.told {
            return None;
        }
        self.told = true;
        let kind = |returned| if returned { "CR LF" } else { "LF" };
        let text = format!("this line ends in {}, those before it in {}; use one kind of line end", kind(returned), kind(first));
        Some(Fault::new(Span { line, from: length, to: length }, text))
    }
}
