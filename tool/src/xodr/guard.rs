//! What the XML parser would take too long over, or too much memory for, refused before it sees it: its work grows with
//! the square of an element's attributes and of the namespaces in scope.
use super::document::{find, line};
use crate::map::Fault;

const MOST_BYTES: usize = 1 << 30;
const MOST_DEPTH: usize = 256;
const MOST_ATTRIBUTES: usize = 256;
const MOST_NAMESPACES: usize = 64;
const MOST_NAMESPACES_HELD: usize = 1 << 20;

/// Refuses a text that is too long, nested too deep, or has too many attributes or namespaces. What is not well-formed
/// is left to the parser, which stops there.
pub fn check(text: &str) -> Result<(), Fault> {
    let text = text.as_bytes();
    if text.len() > MOST_BYTES {
        return Err(Fault { line: None, what: format!("the file has {} bytes; {MOST_BYTES} is the most that is read", text.len()) });
    }
    let (mut at, mut nesting) = (0, Nesting::default());
    while let Some(first) = find(text, at, b"<") {
        let rest = &text[first..];
        let end = if rest.starts_with(b"<!--") {
            find(text, first + 4, b"-->").map(|i| i + 3)
        } else if rest.starts_with(b"<![CDATA[") {
            find(text, first + 9, b"]]>").map(|i| i + 3)
        } else if rest.starts_with(b"<?") {
            find(text, first + 2, b"?>").map(|i| i + 2)
        } else if rest.starts_with(b"<!") {
            Tag::of(text, first + 2).end
        } else if rest.starts_with(b"</") {
            nesting.scopes.pop();
            find(text, first + 2, b">").map(|i| i + 1)
        } else {
            let tag = Tag::of(text, first + 1);
            nesting.enter(&tag).map_err(|what| Fault { line: Some(line(text, first)), what: what.to_string() })?;
            tag.end
        };
        match end {
            Some(end) => at = end,
            None => break,
        }
    }
    Ok(())
}

/// The open elements, and how many namespaces are in scope in each.
#[derive(Default)]
struct Nesting {
    scopes: Vec<usize>,
    /// The namespaces that the parser holds: an element that declares one gets those in scope anew.
    held: usize,
}

impl Nesting {
    /// Goes into an element, or says why not.
    fn enter(&mut self, tag: &Tag) -> Result<(), &'static str> {
        let scope = self.scopes.last().copied().unwrap_or(0) + tag.namespaces;
        if tag.namespaces > 0 {
            self.held += scope;
        }
        if tag.attributes > MOST_ATTRIBUTES {
            return Err("an element has more than 256 attributes");
        }
        if scope > MOST_NAMESPACES {
            return Err("more than 64 XML namespaces are in scope");
        }
        if self.held > MOST_NAMESPACES_HELD {
            return Err("the elements declare too many XML namespaces");
        }
        if tag.empty {
            return Ok(());
        }
        if self.scopes.len() == MOST_DEPTH {
            return Err("elements are nested more than 256 deep");
        }
        self.scopes.push(scope);
        Ok(())
    }
}

/// A start tag, or a document type: how many attributes and namespaces it has, whether it ends its element, and where it ends.
struct Tag {
    attributes: usize,
    namespaces: usize,
    empty: bool,
    end: Option<usize>,
}

impl Tag {
    fn of(text: &[u8], first: usize) -> Tag {
        let mut tag = Tag { attributes: 0, namespaces: 0, empty: false, end: None };
        let mut at = first;
        while let Some(&byte) = text.get(at) {
            match byte {
                b'"' | b'\'' => {
                    tag.attributes += 1;
                    match find(text, at + 1, &[byte]) {
                        Some(close) => at = close,
                        None => return tag,
                    }
                }
                b'x' if text[at..].starts_with(b"xmlns") => tag.namespaces += 1,
                b'>' => {
                    tag.empty = text[at - 1] == b'/';
                    tag.end = Some(at + 1);
                    return tag;
                }
                _ => {}
            }
            at += 1;
        }
        tag
    }
}
