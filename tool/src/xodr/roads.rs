//! Roads: what a <road> says, and whether it reaches into a box.
use super::document::{child, children, number, shown, Element, LineStarts};
use super::lanes::{sections, Section, Setting};
use super::profile::{Profile, Seam};
use super::reference_line::{Geometry, ReferenceLine};

/// The elements of a <link>, of a road or of a lane.
pub const ENDS: [&str; 2] = ["predecessor", "successor"];

/// One <road> that can be read.
#[derive(Debug)]
pub struct Road<'a> {
    pub element: Element<'a>,
    pub line: u32,
    pub name: &'a str,
    /// The junction that it lies inside of.
    pub junction: Option<&'a str>,
    pub length: f64,
    pub reference: ReferenceLine,
    pub elevations: Profile,
    /// Its superelevation.
    pub tilts: Profile,
    /// Its lane offsets.
    pub offsets: Profile,
    pub sections: Vec<Section<'a>>,
    /// Whether it has a <shape> or a <crossSectionSurface>.
    pub shaped: bool,
    /// What of it is left out, or read in another way than it says.
    pub notes: Vec<(u32, String)>,
}

impl<'a> Road<'a> {
    /// The road, or what keeps it from being read.
    pub fn of(element: Element<'a>, lines: &LineStarts) -> Result<Self, &'static str> {
        let (line, name, mut notes) = (lines.line(element), element.attribute("id").unwrap_or(""), Vec::new());
        let length = number(element, "length").ok_or("it has no length")?;
        let lanes = child(element, "lanes");
        let elements: Vec<Element> = lanes.into_iter().flat_map(|lanes| children(lanes, "laneSection")).collect();
        if elements.is_empty() {
            return Err("it has no lane sections");
        }
        let left_hand = left_hand(element).unwrap_or_else(|rule| {
            notes.push((line, format!("road {}: rule {} is not known, read as RHT", shown(name), shown(rule))));
            false
        });
        let reference = reference_line(element, name, lines, &mut notes);
        let sections = sections(elements, &Setting { road: name, length, left_hand, lines }, &mut notes);
        let lateral = child(element, "lateralProfile");
        Ok(Road {
            element,
            line,
            name,
            junction: element.attribute("junction").filter(|j| !matches!(*j, "" | "-1")),
            length,
            reference,
            elevations: profile(child(element, "elevationProfile"), "elevation"),
            tilts: profile(lateral, "superelevation"),
            offsets: profile(lanes, "laneOffset"),
            sections,
            shaped: lateral.is_some_and(|l| child(l, "shape").or(child(l, "crossSectionSurface")).is_some()),
            notes,
        })
    }

    /// Whether its reference line starts, ends or changes its geometry in the box: x, y, x, y.
    pub fn reaches_into(&self, [left, low, right, high]: [f64; 4]) -> bool {
        let stations = [0.0, self.length].into_iter().chain(self.reference.geometries().iter().map(|g| g.s));
        let mut poses = stations.filter_map(|s| self.reference.pose(s, if s > 0.0 { Seam::Before } else { Seam::After }));
        let reaches = poses.any(|p| left <= p.x && p.x <= right && low <= p.y && p.y <= high);
        self.reference.drop_tables();
        reaches
    }

    /// Its <predecessor> and its <successor>.
    pub fn ends(&self) -> [Option<Element<'a>>; 2] {
        let link = child(self.element, "link");
        ENDS.map(|end| link.and_then(|link| child(link, end)))
    }
}

/// Whether traffic keeps left, or the rule that is not known.
fn left_hand(road: Element<'_>) -> Result<bool, &str> {
    match road.attribute("rule") {
        None | Some("RHT") => Ok(false),
        Some("LHT") => Ok(true),
        Some(other) => Err(other),
    }
}

fn profile(parent: Option<Element>, name: &str) -> Profile {
    parent.map_or_else(Profile::default, |parent| Profile::of(parent.children().filter(|n| n.has_tag_name(name)), "s"))
}

fn reference_line(road: Element, name: &str, lines: &LineStarts, notes: &mut Vec<(u32, String)>) -> ReferenceLine {
    let mut geometries = Vec::new();
    for element in children(road, "planView").flat_map(|plan| children(plan, "geometry")) {
        match Geometry::of(element) {
            Ok(geometry) => {
                if geometry.length == 0.0 {
                    let what = format!("road {}: a geometry of length 0 is read as its start, whose heading may be wrong", shown(name));
                    notes.push((lines.line(element), what));
                }
                geometries.push(geometry);
            }
            Err(what) => notes.push((lines.line(element), format!("road {}: {what} is left out", shown(name)))),
        }
    }
    ReferenceLine::of(geometries)
}
