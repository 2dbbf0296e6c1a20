//! A road's reference line: its <geometry>s in the order of s.
use super::document::{child, number, Element};
use super::profile::Seam;
use super::shapes::{Curve, Shape, Spiral};
use std::cell::RefCell;
use std::collections::VecDeque;

/// The most geometries of a road that have a table at a time: a table can have 128 KiB.
const MOST_TABLES: usize = 256;

/// A point of the reference line, and the way it runs there.
#[derive(Clone, Copy, Debug)]
pub struct Pose {
    pub x: f64,
    pub y: f64,
    pub heading: f64,
}

/// One <geometry>.
#[derive(Debug)]
pub struct Geometry {
    pub s: f64,
    pub x: f64,
    pub y: f64,
    pub length: f64,
    heading: f64,
    shape: Shape,
}

impl Geometry {
    /// The geometry, or what keeps it from being read.
    pub fn of(element: Element) -> Result<Self, &'static str> {
        let [Some(s), Some(x), Some(y), Some(heading), Some(length)] = ["s", "x", "y", "hdg", "length"].map(|k| number(element, k)) else {
            return Err("a geometry without s, x, y, hdg or length");
        };
        if length < 0.0 {
            return Err("a geometry with a length below 0");
        }
        let shape = shape(element, length).ok_or("a geometry of unknown shape")?;
        Ok(Geometry { s, x, y, length, heading, shape })
    }

    fn pose(&self, s: f64) -> Pose {
        let place = self.shape.place(s - self.s);
        let (sin, cos) = self.heading.sin_cos();
        Pose { x: self.x + place.u * cos - place.v * sin, y: self.y + place.u * sin + place.v * cos, heading: self.heading + place.turn }
    }
}

/// The shape that a <geometry> of that length has.
fn shape(element: Element, length: f64) -> Option<Shape> {
    let of = |name| child(element, name);
    let cubic = |e: Element, names: [&str; 4]| names.map(|k| number(e, k).unwrap_or(0.0));
    if length == 0.0 {
        return Some(Shape::Point);
    }
    if let Some(curvature) = of("arc").and_then(|e| number(e, "curvature")) {
        return Some(Shape::Arc(curvature));
    }
    if let Some((first, last)) = of("spiral").and_then(|e| Some((number(e, "curvStart")?, number(e, "curvEnd")?))) {
        return Some(Shape::Spiral(Spiral::new(first, last, length)));
    }
    if let Some(e) = of("paramPoly3") {
        let (u, v) = (cubic(e, ["aU", "bU", "cU", "dU"]), cubic(e, ["aV", "bV", "cV", "dV"]));
        let by_length = e.attribute("pRange").is_some_and(|range| range.eq_ignore_ascii_case("arcLength"));
        return Some(Shape::Curve(Curve::param_poly3(u, v, length, by_length)));
    }
    if let Some(e) = of("poly3") {
        return Some(Shape::Curve(Curve::poly3(cubic(e, ["a", "b", "c", "d"]), length)));
    }
    of("line").map(|_| Shape::Line)
}

/// The geometries of a road that can be read.
#[derive(Debug, Default)]
pub struct ReferenceLine {
    geometries: Vec<Geometry>,
    /// Those that have a table, the oldest first.
    tables: RefCell<VecDeque<usize>>,
}

impl ReferenceLine {
    pub fn of(mut geometries: Vec<Geometry>) -> Self {
        geometries.sort_by(|g, h| g.s.total_cmp(&h.s));
        ReferenceLine { geometries, tables: RefCell::default() }
    }

    pub fn geometries(&self) -> &[Geometry] {
        &self.geometries
    }

    /// Where it is at s; none where it has no geometry. Before the first geometry that one is carried on backwards.
    pub fn pose(&self, s: f64, seam: Seam) -> Option<Pose> {
        let limit = seam.latest_start(s);
        let i = self.geometries.partition_point(|g| g.s <= limit).saturating_sub(1);
        let geometry = self.geometries.get(i)?;
        let had_table = geometry.shape.has_table();
        let pose = geometry.pose(s);
        if !had_table && geometry.shape.has_table() {
            self.tables.borrow_mut().push_back(i);
            self.keep_tables(MOST_TABLES);
        }
        Some(pose)
    }

    /// Drops what was worked out for the road.
    pub fn drop_tables(&self) {
        self.keep_tables(0);
    }

    fn keep_tables(&self, most: usize) {
        let mut tables = self.tables.borrow_mut();
        while tables.len() > most {
            if let Some(geometry) = tables.pop_front().and_then(|i| self.geometries.get(i)) {
                geometry.shape.drop_table();
            }
        }
    }

    /// The starts of geometries between two stations.
    pub fn starts_between(&self, first: f64, last: f64) -> impl Iterator<Item = f64> + '_ {
        let from = self.geometries.partition_point(|g| g.s <= first);
        self.geometries[from..].iter().map(|g| g.s).take_while(move |&s| s < last)
    }
}
