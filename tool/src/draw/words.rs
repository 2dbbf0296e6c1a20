//! Text on the sheet: names made fit for XML, labels that keep clear of each other.
use super::scene::{HEAD, WIDTH};
use super::shape::Point;
use super::trace::text;

/// A name for people: what XML does not allow is replaced, and a long one is shortened.
pub fn shown(name: &[u8], most: usize) -> String {
    let whole = String::from_utf8_lossy(&name[..name.len().min(4 * most + 4)]);
    let mut fit: String = whole.chars().take(most).map(allowed).collect();
    if whole.chars().count() > most {
        fit.push('…');
    }
    fit
}

fn allowed(c: char) -> char {
    match c {
        '\t' | '\n' | '\r' => ' ',
        '\u{0}'..='\u{1f}' | '\u{7f}'..='\u{9f}' | '\u{fffe}' | '\u{ffff}' => '\u{fffd}',
        c => c,
    }
}

/// Text as it stands in XML.
pub fn escaped(plain: &str) -> String {
    plain.replace('&', "&amp;").replace('<', "&lt;").replace('>', "&gt;").replace('"', "&quot;")
}

/// A count with its noun.
pub fn count(n: usize, noun: &str) -> String {
    format!("{n} {noun}{}", if n == 1 { "" } else { "s" })
}

/// A distance in metres, with as many digits as a person wants.
pub fn metres(x: f64) -> String {
    match x {
        x if x < 10.0 => format!("{x:.2} m"),
        x if x < 100.0 => format!("{x:.1} m"),
        x if x < 1e6 => format!("{x:.0} m"),
        x => format!("{x:.1e} m"),
    }
}

/// About how wide a line of text is, by the letters of Helvetica.
pub fn breadth(line: &str, size: f64) -> f64 {
    let letter = |c: char| match c {
        'i' | 'j' | 'l' | 'f' | 't' | 'r' | 'I' | ' ' | '.' | ',' | ':' | ';' | '\'' | '|' | '!' | '(' | ')' | '/' | '-' => 0.31,
        'm' | 'w' | 'M' | 'W' | '@' | '%' => 0.87,
        'A'..='Z' | '&' => 0.7,
        '\u{1100}'.. => 1.0,
        _ => 0.56,
    };
    line.chars().map(letter).sum::<f64>() * size
}

/// An upright rectangle: its least and its greatest corner.
#[derive(Clone, Copy)]
pub struct Area(pub Point, pub Point);

impl Area {
    pub fn around(p: Point, wide: f64, high: f64) -> Area {
        Area([p[0] - wide / 2.0, p[1] - high / 2.0], [p[0] + wide / 2.0, p[1] + high / 2.0])
    }

    fn meets(&self, other: &Area) -> bool {
        (0..2).all(|k| self.0[k] < other.1[k] && other.0[k] < self.1[k])
    }
}

/// Labels placed so far, and what they should rather not cover.
pub struct Labels {
    pub placed: Vec<Area>,
    pub avoided: Vec<Area>,
    pub bounds: Area,
}

impl Labels {
    pub fn new(height: f64) -> Labels {
        Labels { placed: Vec::new(), avoided: Vec::new(), bounds: Area([4.0, HEAD], [WIDTH - 4.0, HEAD + height]) }
    }

    /// Places a label at the first of these centres where it lies on the sheet, on no other label, and on the least
    /// of what is avoided.
    pub fn place(&mut self, centres: &[Point], wide: f64, high: f64) -> Option<Point> {
        let free = |area: &Area| {
            let inside = (0..2).all(|k| self.bounds.0[k] <= area.0[k] && area.1[k] <= self.bounds.1[k]);
            inside && !self.placed.iter().any(|p| p.meets(area))
        };
        let covered = |area: &Area| self.avoided.iter().filter(|a| a.meets(area)).count();
        let fit = centres.iter().map(|&c| (c, Area::around(c, wide, high))).filter(|(_, area)| free(area));
        let (centre, area) = fit.min_by_key(|(_, area)| covered(area))?;
        self.placed.push(area);
        Some(centre)
    }
}

/// A label on a light ground, centred.
pub fn label(out: &mut String, class: &str, at: Point, wide: f64, high: f64, line: &str) {
    let (x, y) = (text(at[0] - wide / 2.0), text(at[1] - high / 2.0));
    out.push_str(&format!("<rect class=\"w\" x=\"{x}\" y=\"{y}\" width=\"{}\" height=\"{}\" rx=\"{}\"/>", text(wide), text(high), text(high / 4.0)));
    words(out, &format!("{class} m"), [at[0], at[1] + high * 0.27], line);
}

/// A line of text.
pub fn words(out: &mut String, class: &str, at: Point, line: &str) {
    let (x, y, line) = (text(at[0]), text(at[1]), escaped(line));
    out.push_str(&format!("<text class=\"{class}\" x=\"{x}\" y=\"{y}\">{line}</text>\n"));
}
