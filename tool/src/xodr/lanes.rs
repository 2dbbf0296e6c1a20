//! Sections and their lanes.
use super::document::{child, children, number, shown, Element, LineStarts};
use super::profile::{Profile, SAME_STATION};

/// A section shorter than this, in metres, is left out.
const SHORTEST_SECTION: f64 = 1e-3;

/// The words of a lane's direction.
const FORWARD: u32 = 0;
const BACKWARD: u32 = 1;
const BOTH: u32 = 2;

/// One <lane> that has a width or a border.
#[derive(Debug)]
pub struct Lane<'a> {
    pub element: Element<'a>,
    pub number: i32,
    pub direction: u32,
    pub level: bool,
    /// Its <width>s; where none can be read, its <border>s.
    pub widths: Profile,
    pub borders: Profile,
    heights: Vec<Height>,
}

/// One <height>: metres into the section, and off the road at the inner and the outer border.
#[derive(Debug)]
struct Height {
    offset: f64,
    inner: f64,
    outer: f64,
}

impl Lane<'_> {
    fn of(element: Element, number: i32, left_hand: bool) -> Lane {
        let widths = Profile::of(children(element, "width"), "sOffset");
        let borders = if widths.is_empty() { Profile::of(children(element, "border"), "sOffset") } else { Profile::default() };
        let level = matches!(element.attribute("level"), Some("true" | "1"));
        let direction = direction(element, (number > 0) == left_hand);
        Lane { element, number, direction, level, widths, borders, heights: heights(element) }
    }

    /// Its height off the road at the inner and the outer border, d metres into its section: straight from one <height>
    /// to the next.
    pub fn height(&self, d: f64) -> (f64, f64) {
        let next = self.heights.partition_point(|h| h.offset <= d + SAME_STATION);
        match (next.checked_sub(1).and_then(|i| self.heights.get(i)), self.heights.get(next)) {
            (None, None) => (0.0, 0.0),
            (Some(h), None) | (None, Some(h)) => (h.inner, h.outer),
            (Some(a), Some(b)) => {
                let part = (d - a.offset) / (b.offset - a.offset);
                (a.inner + (b.inner - a.inner) * part, a.outer + (b.outer - a.outer) * part)
            }
        }
    }
}

/// Whether a lane runs with the road, against it or both ways; `forward` says how its side runs.
fn direction(element: Element, forward: bool) -> u32 {
    let forward = match element.attribute("direction") {
        Some("both") => return BOTH,
        None if element.attribute("type") == Some("bidirectional") => return BOTH,
        Some("reversed") => !forward,
        _ => forward,
    };
    if forward {
        FORWARD
    } else {
        BACKWARD
    }
}

fn heights(element: Element) -> Vec<Height> {
    let of = |h: Element, name| number(h, name).unwrap_or(0.0);
    let mut heights: Vec<Height> =
        children(element, "height").map(|h| Height { offset: of(h, "sOffset").max(0.0), inner: of(h, "inner"), outer: of(h, "outer") }).collect();
    heights.sort_by(|a, b| a.offset.total_cmp(&b.offset));
    heights
}

/// One <laneSection>: its place among those of the road, its stretch, and its lanes from the middle outward.
#[derive(Debug)]
pub struct Section<'a> {
    pub number: u32,
    pub start: f64,
    pub end: f64,
    pub left: Vec<Lane<'a>>,
    pub right: Vec<Lane<'a>>,
}

impl<'a> Section<'a> {
    /// Its lanes in the order of their rows.
    pub fn lanes(&self) -> impl Iterator<Item = &Lane<'a>> {
        self.left.iter().chain(&self.right)
    }
}

/// What a road says of itself that its sections need.
pub struct Setting<'a> {
    pub road: &'a str,
    pub length: f64,
    pub left_hand: bool,
    pub lines: &'a LineStarts,
}

/// The sections that these elements are, in the order of s, and notes of what is left out.
pub fn sections<'a>(elements: Vec<Element<'a>>, setting: &Setting, notes: &mut Vec<(u32, String)>) -> Vec<Section<'a>> {
    let mut stretches: Vec<(f64, Element)> = elements.into_iter().map(|e| (number(e, "s").unwrap_or(0.0).max(0.0), e)).collect();
    stretches.sort_by(|a, b| a.0.total_cmp(&b.0));
    let mut sections = Vec::new();
    for (i, &(start, element)) in stretches.iter().enumerate() {
        let end = stretches.get(i + 1).map_or(setting.length, |next| next.0).min(setting.length);
        let place = format!("road {}, section {i}", shown(setting.road));
        if end - start < SHORTEST_SECTION {
            notes.push((setting.lines.line(element), format!("{place} is shorter than a millimetre and left out")));
            continue;
        }
        let (left, right) = lanes(element, setting, &place, notes);
        sections.push(Section { number: i as u32, start, end, left, right });
    }
    sections
}

/// The lanes to the left and to the right, by their numbers, from the middle outward.
fn lanes<'a>(section: Element<'a>, setting: &Setting, place: &str, notes: &mut Vec<(u32, String)>) -> (Vec<Lane<'a>>, Vec<Lane<'a>>) {
    let mut lanes = Vec::new();
    for element in ["left", "right"].into_iter().filter_map(|side| child(section, side)).flat_map(|side| children(side, "lane")) {
        let id = element.attribute("id").unwrap_or("");
        match id.parse().ok().filter(|&n: &i32| n != 0) {
            None => notes.push((setting.lines.line(element), format!("{place}: a lane with the id {} is left out", shown(id)))),
            Some(n) if child(element, "width").is_none() && child(element, "border").is_none() => {
                notes.push((setting.lines.line(element), format!("{place}: lane {n} has no width and is left out")));
            }
            Some(n) => lanes.push(Lane::of(element, n, setting.left_hand)),
        }
        if let Some(way) = element.attribute("direction").filter(|way| !matches!(*way, "standard" | "reversed" | "both")) {
            notes.push((setting.lines.line(element), format!("{place}: lane {}: direction {} is not known, read as standard", shown(id), shown(way))));
        }
    }
    let (mut left, mut right): (Vec<Lane>, Vec<Lane>) = lanes.into_iter().partition(|lane| lane.number > 0);
    left.sort_by_key(|lane| lane.number);
    right.sort_by_key(|lane| std::cmp::Reverse(lane.number));
    (left, right)
}
