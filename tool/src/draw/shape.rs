//! Where a lane lies, as seen from above, and by which ends two lanes are linked.
use crate::map::{Map, Outline};
use crate::way::Way;
use vorzhyket::sizes::EDGE;

/// A place seen from above.
pub type Point = [f64; 2];

/// Two points: an edge, or the way from one place to another.
pub type Segment = [Point; 2];

/// A lane's two borders from its start to its end, at least two points each. The coordinates are finite.
pub struct Shape {
    pub left: Vec<Point>,
    pub right: Vec<Point>,
}

/// Beyond this many metres there is no map.
const FARTHEST: f64 = 1e9;

impl Shape {
    /// A lane's outline, else the quad of its edges; none where its coordinates are not finite.
    pub fn of(map: &Map, row: usize) -> Option<Shape> {
        map.outlines.get(row).and_then(Shape::of_outline).or_else(|| map.tables.edges.get(row * EDGE..(row + 1) * EDGE).and_then(Shape::of_edges))
    }

    fn of_outline(outline: &Outline) -> Option<Shape> {
        let fit = |side: &[Point]| side.len() >= 2 && side.iter().all(is_near);
        (fit(&outline.left) && fit(&outline.right)).then(|| Shape { left: outline.left.clone(), right: outline.right.clone() })
    }

    /// The points of an edge stand in either order: the borders are the two sides that do not cross.
    fn of_edges(edges: &[f32]) -> Option<Shape> {
        let [a, b, c, d] = [0, 3, 6, 9].map(|i| [edges[i] as f64, edges[i + 1] as f64]);
        if ![a, b, c, d].iter().all(is_near) {
            return None;
        }
        let (c, d) = if crossing([a, c], [b, d]).is_some() { (d, c) } else { (c, d) };
        Some(Shape { left: vec![a, c], right: vec![b, d] })
    }

    /// Both borders' points.
    pub fn points(&self) -> impl Iterator<Item = &Point> {
        self.left.iter().chain(&self.right)
    }

    /// The edge at its end, or at its start.
    pub fn edge(&self, end: bool) -> Segment {
        let i = |side: &[Point]| if end { side.len() - 1 } else { 0 };
        [self.left[i(&self.left)], self.right[i(&self.right)]]
    }

    /// The line halfway between the borders, from its start to its end.
    pub fn middle(&self) -> Vec<Point> {
        let (l, r) = (&self.left, &self.right);
        let n = l.len().max(r.len());
        (0..n).map(|i| halfway([l[i * (l.len() - 1) / (n - 1)], r[i * (r.len() - 1) / (n - 1)]])).collect()
    }
}

fn is_near(p: &Point) -> bool {
    p[0].abs() <= FARTHEST && p[1].abs() <= FARTHEST
}

pub fn halfway([p, q]: Segment) -> Point {
    [(p[0] + q[0]) / 2.0, (p[1] + q[1]) / 2.0]
}

pub fn distance([p, q]: Segment) -> f64 {
    (q[0] - p[0]).hypot(q[1] - p[1])
}

/// The point at that part of the way.
pub fn along([p, q]: Segment, part: f64) -> Point {
    [p[0] + (q[0] - p[0]) * part, p[1] + (q[1] - p[1]) * part]
}

fn cross(a: Point, b: Point) -> f64 {
    a[0] * b[1] - a[1] * b[0]
}

fn minus(p: Point, q: Point) -> Point {
    [p[0] - q[0], p[1] - q[1]]
}

/// Where two segments cross within both.
fn crossing(first: Segment, second: Segment) -> Option<Point> {
    let (d, e, w) = (minus(first[1], first[0]), minus(second[1], second[0]), minus(second[0], first[0]));
    let base = cross(d, e);
    let (u, v) = (cross(w, e) / base, cross(w, d) / base);
    ((0.0..=1.0).contains(&u) && (0.0..=1.0).contains(&v)).then(|| along(first, u))
}

/// The ends by which a lane leads to another, true for its end: of several, the two that are nearest.
pub fn joint(from: (&Shape, Way), to: (&Shape, Way)) -> [bool; 2] {
    let mut best = (f64::INFINITY, [true, false]);
    for &exit in from.1.exits() {
        for &entry in to.1.entries() {
            let apart = distance([halfway(from.0.edge(exit)), halfway(to.0.edge(entry))]);
            if apart < best.0 {
                best = (apart, [exit, entry]);
            }
        }
    }
    best.1
}
