//! An .xodr file as a tree of elements. XML namespaces are ignored: elements go by their local names.
use crate::map::Fault;
use roxmltree::{Document, Error, Node};
use std::borrow::Cow;

/// An element of the file.
pub type Element<'a> = Node<'a, 'a>;

/// The file's text, with its XML declaration blanked out: tools write comments before it, which XML does not allow.
pub fn text(data: &[u8]) -> Result<Cow<'_, str>, Fault> {
    let text = decoded(data)?;
    let Some((first, last)) = declaration(text.as_bytes()) else {
        return Ok(text);
    };
    let blank: String = text[first..last].chars().map(|c| if c == '\n' { c } else { ' ' }).collect();
    Ok(Cow::Owned([&text[..first], &blank, &text[last..]].concat()))
}

/// The tree, or where and why the text is no XML.
pub fn parse(text: &str) -> Result<Document<'_>, Fault> {
    Document::parse(text).map_err(|error| match error {
        Error::DtdDetected => Fault { line: None, what: "a document type with declarations of its own (a DTD) is not read".to_string() },
        Error::NoRootNode => Fault { line: None, what: "the XML has no element".to_string() },
        error => Fault { line: Some(error.pos().row), what: format!("the XML is not well-formed: {}", on_a_line(&error.to_string())) },
    })
}

/// A text on one line: control characters are escaped.
fn on_a_line(text: &str) -> String {
    text.chars().flat_map(|c| if c.is_control() { c.escape_default().collect() } else { vec![c] }).collect()
}

/// The data as UTF-8, from the encoding that a byte order mark or the XML declaration names.
fn decoded(data: &[u8]) -> Result<Cow<'_, str>, Fault> {
    match data {
        [0xff, 0xfe, rest @ ..] => return wide(rest, u16::from_le_bytes),
        [0xfe, 0xff, rest @ ..] => return wide(rest, u16::from_be_bytes),
        [b'<', 0, ..] => return wide(data, u16::from_le_bytes),
        [0, b'<', ..] => return wide(data, u16::from_be_bytes),
        _ => {}
    }
    let data = data.strip_prefix(b"\xef\xbb\xbf").unwrap_or(data);
    match encoding(data).as_deref() {
        Some("iso-8859-1" | "iso8859-1" | "iso_8859-1" | "latin-1" | "latin1") if !data.is_ascii() => Ok(data.iter().map(|&b| char::from(b)).collect()),
        None | Some("utf-8" | "utf8" | "us-ascii" | "ascii") => utf8(data),
        Some(_) if data.is_ascii() => utf8(data),
        Some(other) => {
            let what = format!("its encoding, {}, is not read: UTF-8, UTF-16 and ISO-8859-1 are", shown(other));
            Err(Fault { line: Some(1), what })
        }
    }
}

fn utf8(data: &[u8]) -> Result<Cow<'_, str>, Fault> {
    std::str::from_utf8(data).map(Cow::Borrowed).map_err(|error| {
        let what = "the text is not UTF-8, and its XML declaration names no other encoding".to_string();
        Fault { line: Some(line(data, error.valid_up_to())), what }
    })
}

/// UTF-16 of either byte order.
fn wide(data: &[u8], unit: fn([u8; 2]) -> u16) -> Result<Cow<'_, str>, Fault> {
    let units = data.chunks(2).map(|pair| unit([pair[0], pair.get(1).copied().unwrap_or(0)]));
    let text: Result<String, _> = char::decode_utf16(units).collect();
    text.map(Cow::Owned).map_err(|_| Fault { line: None, what: "the text begins as UTF-16 and is not".to_string() })
}

/// Where the first `<?xml ..?>` stands.
fn declaration(data: &[u8]) -> Option<(usize, usize)> {
    let mut first = find(data, 0, b"<?xml")?;
    while !data.get(first + 5)?.is_ascii_whitespace() {
        first = find(data, first + 5, b"<?xml")?;
    }
    Some((first, find(data, first, b"?>")? + 2))
}

/// Where the sought bytes next stand.
pub fn find(data: &[u8], from: usize, sought: &[u8]) -> Option<usize> {
    let mut at = from;
    loop {
        at += data.get(at..)?.iter().position(|&b| b == sought[0])?;
        if data[at..].starts_with(sought) {
            return Some(at);
        }
        at += 1;
    }
}

/// The line, counted from 1, of a byte.
pub fn line(data: &[u8], at: usize) -> u32 {
    1 + data[..at].iter().filter(|&&b| b == b'\n').count() as u32
}

/// The encoding that the XML declaration names, in lower case.
fn encoding(data: &[u8]) -> Option<String> {
    let (first, last) = declaration(data)?;
    let head = String::from_utf8_lossy(&data[first..last]).into_owned();
    let after = head.split_once("encoding")?.1.trim_start().strip_prefix('=')?.trim_start();
    let quote = after.chars().next().filter(|c| matches!(c, '"' | '\''))?;
    Some(after[1..].split_once(quote)?.0.to_ascii_lowercase())
}

/// Where each line of a text starts, to tell an element's line by binary search.
pub struct LineStarts(Vec<usize>);

impl LineStarts {
    pub fn of(text: &str) -> Self {
        LineStarts(text.match_indices('\n').map(|(i, _)| i + 1).collect())
    }

    /// The line, counted from 1, on which an element's tag begins.
    pub fn line(&self, element: Element) -> u32 {
        1 + self.0.partition_point(|&start| start <= element.position()) as u32
    }
}

/// The first child element of that name.
pub fn child<'a>(element: Element<'a>, name: &str) -> Option<Element<'a>> {
    element.children().find(|n| n.has_tag_name(name))
}

/// The child elements of that name.
pub fn children<'a, 'n: 'a>(element: Element<'a>, name: &'n str) -> impl Iterator<Item = Element<'a>> {
    element.children().filter(move |n| n.has_tag_name(name))
}

/// An attribute that is a finite number; none where it is missing or is no such.
pub fn number(element: Element, name: &str) -> Option<f64> {
    element.attribute(name)?.parse().ok().filter(|n: &f64| n.is_finite())
}

/// A name as a message shows it: short, on one line, and in quotation marks where it is empty or has blanks.
pub fn shown(name: &str) -> String {
    const MOST: usize = 60;
    let mut text: String = name.chars().take(MOST).map(|c| if c.is_control() { '\u{fffd}' } else { c }).collect();
    if name.chars().nth(MOST).is_some() {
        text.push_str("..");
    }
    if text.is_empty() || text.contains(char::is_whitespace) {
        text = format!("\"{text}\"");
    }
    text
}
