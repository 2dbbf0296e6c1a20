//! Lanes, names, counts and widths in print.
use crate::form;
use crate::map::{Map, Tables};
use crate::place::Place;
use vorzhyket::sizes::JUNCTION;

/// A number and what it counts, with an s where it is not 1.
pub fn counted(n: usize, what: &str) -> String {
    format!("{n} {what}{}", if n == 1 { "" } else { "s" })
}

/// A name as a word of the plain-text form. An end of line, which only .xodr can have in a name, is shown as a blank.
pub fn name(name: &[u8]) -> Vec<u8> {
    let mut word = form::word(name).into_owned();
    for b in word.iter_mut().filter(|b| **b == b'\n') {
        *b = b' ';
    }
    word
}

/// A text in quotation marks: short, on one line, and what can't be seen in it escaped.
pub fn quoted(text: &str) -> String {
    const MOST: usize = 60;
    let more = if text.chars().nth(MOST).is_some() { ".." } else { "" };
    format!("{:?}{more}", text.chars().take(MOST).collect::<String>())
}

/// A name in a message, as far as it is UTF-8.
pub fn said(bytes: &[u8]) -> String {
    String::from_utf8_lossy(&name(bytes)).into_owned()
}

/// A lane as road/section/number.
pub fn lane(t: &Tables, row: usize) -> Vec<u8> {
    let l = t.lane(row);
    let mut out = name(t.name(&l[1..3]));
    out.extend(format!("/{}/{}", l[3], l[4] as i32).into_bytes());
    out
}

pub fn road(t: &Tables, row: usize) -> Vec<u8> {
    name(t.name(&t.road(row)[0..2]))
}

pub fn junction(t: &Tables, row: usize) -> Vec<u8> {
    name(t.name(&t.junctions[row * JUNCTION..][..2]))
}

/// The width of a gap in metres, of its bits: so many places after the point, a half up.
pub fn width(bits: u32, places: u32) -> String {
    if bits == f32::INFINITY.to_bits() {
        return "no distance".into();
    }
    match form::scaled(bits & 0x7fff_ffff, 6).and(form::scaled(bits & 0x7fff_ffff, places)) {
        Some(n) => format!("{} m", form::decimal(n, places)),
        None => "1000000000 m or more".into(),
    }
}

/// A place or a length in metres, with so many places after the point.
pub fn metres(x: f64, places: usize) -> String {
    if !x.is_finite() || x.abs() >= 1e12 {
        return format!("{x:e}");
    }
    let text = format!("{x:.places$}");
    match text.strip_prefix('-') {
        Some(zero) if zero.bytes().all(|b| b == b'0' || b == b'.') => zero.to_string(),
        _ => text,
    }
}

/// A place on an edge: at which end of the lane, and how far from which side of it.
pub fn place(map: &Map, place: &Place) -> String {
    let (end, side) = (if place.at_end { "end" } else { "start" }, if map.left_first { "left border" } else { "first point" });
    format!("its {end}, {} m from the {side}", metres(place.metres, 3))
}

#[cfg(test)]
mod tests {
    use super::*;

    #[test]
    fn widths() {
        assert_eq!(width(0.25f32.to_bits(), 6), "0.250000 m");
        assert_eq!(width(0.007_812_5f32.to_bits(), 6), "0.007813 m");
        assert_eq!(width(25f32.to_bits(), 3), "25.000 m");
        assert_eq!(width(1e9f32.to_bits(), 3), "1000000000 m or more");
        assert_eq!(width(f32::INFINITY.to_bits(), 6), "no distance");
    }

    #[test]
    fn values_in_quotation_marks() {
        assert_eq!(quoted("End"), "\"End\"");
        assert_eq!(quoted(""), "\"\"");
        assert_eq!(quoted("a\"b\\\n\u{9b}\u{2028}\u{e9}"), "\"a\\\"b\\\\\\n\\u{9b}\\u{2028}\u{e9}\"");
        assert_eq!(quoted(&"x".repeat(60)), format!("\"{}\"", "x".repeat(60)));
        assert_eq!(quoted(&"x".repeat(1000)), format!("\"{}\"..", "x".repeat(60)));
    }

    #[test]
    fn places() {
        assert_eq!(metres(-0.001, 2), "0.00");
        assert_eq!(metres(-70.256, 2), "-70.26");
        assert_eq!(metres(1e300, 2), "1e300");
        assert_eq!(metres(f64::NAN, 2), "NaN");
    }
}
