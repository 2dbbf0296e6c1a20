//! The words of a line. A word ends at a blank; one that begins with a quotation mark ends at the next mark. A word
//! that begins with # ends the line.
use super::number;
use crate::map::Fault;

/// The longest word that a fault shows whole, in bytes.
const SHOWN: usize = 60;

/// A line, and how far it has been read.
pub struct Words<'a> {
    line: &'a [u8],
    at: usize,
    /// The line's number, from 1.
    pub number: u32,
}

pub fn is_blank(b: u8) -> bool {
    matches!(b, b' ' | b'\t' | b'\r')
}

/// The lines of some bytes; what stands after the last end of line is a line too, where it is not empty.
pub fn lines(data: &[u8]) -> impl Iterator<Item = Words<'_>> {
    let whole = data.strip_suffix(b"\n").unwrap_or(data);
    whole.split(|&b| b == b'\n').enumerate().map(|(i, line)| Words { line, at: 0, number: u32::try_from(i + 1).unwrap_or(u32::MAX) })
}

impl<'a> Words<'a> {
    /// Where the next word begins; the line's end where there is none.
    fn begin(&self) -> usize {
        match self.line[self.at..].iter().position(|&b| !is_blank(b)) {
            Some(i) if self.line[self.at + i] != b'#' => self.at + i,
            _ => self.line.len(),
        }
    }

    /// Where the word that begins there ends.
    fn end_of(&self, from: usize) -> usize {
        let rest = &self.line[from..];
        let length = match rest.first() {
            Some(b'"') => rest[1..].iter().position(|&b| b == b'"').map(|i| i + 2),
            _ => rest.iter().position(|&b| is_blank(b)),
        };
        length.map_or(self.line.len(), |n| from + n)
    }

    /// The next word; empty at the line's end.
    pub fn next(&self) -> &'a [u8] {
        let from = self.begin();
        &self.line[from..self.end_of(from)]
    }

    fn skip(&mut self) {
        self.at = self.end_of(self.begin());
    }

    /// Takes the next word if it is this one.
    pub fn takes(&mut self, word: &str) -> bool {
        let found = self.next() == word.as_bytes();
        if found {
            self.skip();
        }
        found
    }

    pub fn at_end(&self) -> bool {
        self.next().is_empty()
    }

    pub fn fault(&self, what: &str) -> Fault {
        Fault { line: Some(self.number), what: what.to_string() }
    }

    /// The fault that something else stands where this is wanted.
    pub fn wanted(&self, what: &str) -> Fault {
        if self.at_end() {
            return self.fault(&format!("the line ends where {what} is wanted"));
        }
        self.fault(&format!("{} stands where {what} is wanted", shown(self.next())))
    }

    /// Takes one of some words: its place among them.
    pub fn choice(&mut self, words: &[&str], what: &str) -> Result<u32, Fault> {
        let place = words.iter().position(|w| self.takes(w)).ok_or_else(|| self.wanted(what))?;
        Ok(place as u32)
    }

    /// Takes a name: its bytes, without quotation marks.
    pub fn name(&mut self) -> Result<&'a [u8], Fault> {
        let name = match self.next() {
            [] | [b'"'] => None,
            [b'"', inner @ .., last] => (*last == b'"').then_some(inner),
            word => Some(word),
        };
        let name = name.ok_or_else(|| self.wanted("a name"))?;
        self.skip();
        Ok(name)
    }

    /// Takes digits that are a u32.
    pub fn whole(&mut self, what: &str) -> Result<u32, Fault> {
        let value = number::whole(self.next()).ok_or_else(|| self.wanted(what))?;
        self.skip();
        Ok(value)
    }

    /// Takes a lane number.
    pub fn lane_number(&mut self) -> Result<u32, Fault> {
        let value = number::lane_number(self.next()).ok_or_else(|| self.wanted("a lane number"))?;
        self.skip();
        Ok(value as u32)
    }

    /// Takes a number of the edges.
    pub fn real(&mut self) -> Result<f32, Fault> {
        let wanted = "a number of at most 15 digits, or x and eight hexadecimal digits,";
        let value = number::real(self.next()).ok_or_else(|| self.wanted(wanted))?;
        self.skip();
        Ok(value)
    }

    /// The line may say no more.
    pub fn close(&self) -> Result<(), Fault> {
        if self.at_end() {
            return Ok(());
        }
        Err(self.wanted("the end of the line"))
    }
}

/// A word for a person to read: control characters escaped, and cut where it is long.
fn shown(word: &[u8]) -> String {
    let text: String = String::from_utf8_lossy(&word[..word.len().min(SHOWN)]).chars().flat_map(escaped).collect();
    if word.len() > SHOWN {
        return text + "..";
    }
    text
}

fn escaped(c: char) -> Vec<char> {
    if c.is_control() {
        return c.escape_default().collect();
    }
    vec![c]
}
