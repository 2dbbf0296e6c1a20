//! A road cut across at one station: where the borders of a section's lanes are.
use super::lanes::{Lane, Section};
use super::profile::Seam;
use super::roads::Road;

/// A point in metres.
pub type Point = [f64; 3];

/// A lane's left and right border, as the road runs.
pub type Borders = [Point; 2];

/// The road's axes at a station: a point of the reference line, the way across it to the left, tilted, and the way up,
/// square to that and to the road on its grade.
struct Axes {
    origin: Point,
    across: Point,
    up: Point,
}

impl Axes {
    fn point(&self, t: f64, height: f64) -> Point {
        [0, 1, 2].map(|i| self.origin[i] + t * self.across[i] + height * self.up[i])
    }
}

/// The borders of a section's lanes, in the order of their rows, at a station; none where the road has no geometry.
pub fn borders(road: &Road, section: &Section, s: f64, seam: Seam) -> Option<Vec<Borders>> {
    let tilt = road.tilts.value(s, seam);
    let axes = axes(road, s, seam, tilt)?;
    let base = road.offsets.value(s, seam);
    let at = Station { d: s - section.start, seam, tilt };
    let mut borders = Vec::with_capacity(section.left.len() + section.right.len());
    stack(&section.left, 1.0, base, at, |inner, outer| borders.push([axes.point(outer.0, outer.1), axes.point(inner.0, inner.1)]));
    stack(&section.right, -1.0, base, at, |inner, outer| borders.push([axes.point(inner.0, inner.1), axes.point(outer.0, outer.1)]));
    Some(borders)
}

fn axes(road: &Road, s: f64, seam: Seam, tilt: f64) -> Option<Axes> {
    let pose = road.reference.pose(s, seam)?;
    let ((sin, cos), grade) = (pose.heading.sin_cos(), road.elevations.slope(s, seam));
    let (along, across) = ([cos, sin, grade], [-sin * tilt.cos(), cos * tilt.cos(), tilt.sin()]);
    let up = cross(along, across);
    let size = up.iter().map(|c| c * c).sum::<f64>().sqrt();
    Some(Axes { origin: [pose.x, pose.y, road.elevations.value(s, seam)], across, up: up.map(|c| c / size) })
}

fn cross(a: Point, b: Point) -> Point {
    [a[1] * b[2] - a[2] * b[1], a[2] * b[0] - a[0] * b[2], a[0] * b[1] - a[1] * b[0]]
}

/// Where the cut is: metres into the section, the side of a seam, and the road's superelevation there.
#[derive(Clone, Copy)]
struct Station {
    d: f64,
    seam: Seam,
    tilt: f64,
}

/// Goes over the lanes of one side from the middle outward, and tells of each its inner and its outer border: metres to
/// the left of the reference line, and height off the road. `sign` is 1 to the left and -1 to the right.
fn stack(side: &[Lane], sign: f64, base: f64, at: Station, mut tell: impl FnMut((f64, f64), (f64, f64))) {
    let (mut inner, mut height, mut level) = (base, 0.0, false);
    for lane in side {
        let width = width(lane, sign, inner, at);
        let outer = inner + sign * width;
        let (mut low, mut high) = lane.height(at.d);
        level = level || lane.level;
        if level {
            // Kept out of the superelevation, as is every lane outside it.
            low += height;
            high += height - sign * width * at.tilt.tan();
        }
        tell((inner, low), (outer, high));
        (inner, height) = (outer, high);
    }
}

/// A lane's width: 0 before its first <width> or <border>, and where either would make it less.
fn width(lane: &Lane, sign: f64, inner: f64, at: Station) -> f64 {
    let width = if lane.widths.is_empty() {
        lane.borders.active(at.d, at.seam).map_or(0.0, |border| sign * (border.value(at.d) - inner))
    } else {
        lane.widths.value(at.d, at.seam)
    };
    width.max(0.0)
}
