//! The map laid out on the sheet: lanes by road in the sheet's units, links, and marks where lanes fail to meet.
use super::shape::{distance, halfway, joint, Point, Segment, Shape};
use super::trace::thinned;
use crate::found::Found;
use crate::map::{Map, Tables};
use crate::place::Places;
use crate::way::Way;
use std::collections::HashMap;
use vorzhyket::sizes::{LANE, ROAD};
use vorzhyket::ABSENT;

/// The sheet's width; the space above the map for the title; the room kept free around the lanes.
pub const WIDTH: f64 = 1600.0;
pub const HEAD: f64 = 76.0;
const ROOM: f64 = 64.0;

/// The least and the most height of the part with the lanes.
const LEAST: f64 = 260.0;
const MOST: f64 = 1500.0;

/// How far a border may be off its place, in the sheet's units; and the points beyond which it may be farther off.
const TOLERANCE: f64 = 0.08;
const MOST_POINTS: usize = 240_000;

/// A road's lanes.
pub struct Road<'a> {
    pub name: &'a [u8],
    pub inside: bool,
    pub lanes: Vec<usize>,
}

/// A lane on the sheet: its borders, the line halfway between them, and which of its ends (start, end) are linked.
pub struct Lane {
    pub shape: Shape,
    pub middle: Vec<Point>,
    pub way: Way,
    pub section: u32,
    pub joined: [bool; 2],
}

/// A gap on the sheet: the way across it, its width in metres, and its places on the map.
pub struct Mark {
    pub lane: usize,
    pub successor: usize,
    pub way: Segment,
    pub width: f32,
    pub places: Places,
}

/// All that is drawn.
pub struct Scene<'a> {
    pub roads: Vec<Road<'a>>,
    pub lanes: Vec<Option<Lane>>,
    /// From exit to entry, where these are apart on the sheet.
    pub links: Vec<Segment>,
    /// The widest first.
    pub marks: Vec<Mark>,
    /// Lanes and gaps without a place.
    pub skipped: usize,
    pub unmarked: usize,
    /// The height of the part with the lanes.
    pub height: f64,
    /// Sheet units for a metre.
    pub scale: f64,
    /// The usual width of a lane on the sheet.
    pub wide: f64,
}

/// Where metres lie on the sheet: y is up in a map and down on the sheet.
struct Frame {
    scale: f64,
    height: f64,
    middle: Point,
}

impl Frame {
    /// A frame around all lanes that have a place; none where none has.
    fn around(shapes: &[Option<Shape>]) -> Option<Frame> {
        let mut points = shapes.iter().flatten().flat_map(Shape::points);
        let &first = points.next()?;
        let (mut low, mut high) = (first, first);
        for p in points {
            for k in 0..2 {
                low[k] = low[k].min(p[k]);
                high[k] = high[k].max(p[k]);
            }
        }
        let size = [0, 1].map(|k| (high[k] - low[k]).max(1e-3));
        let scale = ((WIDTH - 2.0 * ROOM) / size[0]).min((MOST - 2.0 * ROOM) / size[1]);
        Some(Frame { scale, height: (size[1] * scale + 2.0 * ROOM).max(LEAST), middle: halfway([low, high]) })
    }

    fn place(&self, p: &Point) -> Point {
        [WIDTH / 2.0 + (p[0] - self.middle[0]) * self.scale, HEAD + self.height / 2.0 - (p[1] - self.middle[1]) * self.scale]
    }

    fn shape(&self, shape: &Shape) -> Shape {
        let side = |points: &[Point]| points.iter().map(|p| self.place(p)).collect();
        Shape { left: side(&shape.left), right: side(&shape.right) }
    }
}

impl<'a> Scene<'a> {
    /// None where no lane has a place.
    pub fn of(map: &'a Map, found: &Found) -> Option<Scene<'a>> {
        let tables = &map.tables;
        let shapes: Vec<Option<Shape>> = (0..tables.lanes.len() / LANE).map(|row| Shape::of(map, row)).collect();
        let frame = Frame::around(&shapes)?;
        let skipped = shapes.iter().filter(|s| s.is_none()).count();
        let lanes = laid_out(tables, &frame, shapes);
        let wide = usual_width(&lanes);
        let mut scene = Scene {
            roads: roads_of(tables),
            lanes,
            links: Vec::new(),
            marks: Vec::new(),
            skipped,
            unmarked: 0,
            height: frame.height,
            scale: frame.scale,
            wide,
        };
        scene.link(found);
        scene.mark(map, found, &frame);
        Some(scene)
    }

    pub fn lane(&self, row: usize) -> Option<&Lane> {
        self.lanes.get(row).and_then(Option::as_ref)
    }

    /// The two edges by which a lane leads to another, and their ends.
    fn edges(&self, row: usize, successor: usize) -> Option<([bool; 2], [Segment; 2])> {
        let (from, to) = (self.lane(row)?, self.lane(successor)?);
        let ends = joint((&from.shape, from.way), (&to.shape, to.way));
        Some((ends, [from.shape.edge(ends[0]), to.shape.edge(ends[1])]))
    }

    fn link(&mut self, found: &Found) {
        for (row, list) in found.successors.iter().enumerate() {
            for &successor in list {
                let Some((ends, edges)) = self.edges(row, successor) else { continue };
                for (lane, end) in [(row, ends[0]), (successor, ends[1])] {
                    if let Some(Some(lane)) = self.lanes.get_mut(lane) {
                        lane.joined[usize::from(end)] = true;
                    }
                }
                let way = edges.map(halfway);
                if distance(way) > (self.wide * 0.15).clamp(0.5, 2.0) {
                    self.links.push(way);
                }
            }
        }
    }

    fn mark(&mut self, map: &Map, found: &Found, frame: &Frame) {
        for gap in &found.gaps {
            let drawn = [gap.lane, gap.successor].iter().all(|&row| self.lane(row).is_some());
            let Some(places) = Places::of(map, gap).filter(|_| drawn) else {
                self.unmarked += 1;
                continue;
            };
            let way = [places.exit.at, places.entry.at].map(|[x, y]| frame.place(&[x - map.origin[0], y - map.origin[1]]));
            self.marks.push(Mark { lane: gap.lane, successor: gap.successor, way, width: f32::from_bits(gap.bits), places });
        }
        self.marks.sort_by(|a, b| b.width.total_cmp(&a.width));
    }
}

/// The lanes in the sheet's units, with as few points as the sheet needs.
fn laid_out(tables: &Tables, frame: &Frame, shapes: Vec<Option<Shape>>) -> Vec<Option<Lane>> {
    let mut shapes: Vec<Option<Shape>> = shapes.iter().map(|s| s.as_ref().map(|s| frame.shape(s))).collect();
    let middles: Vec<_> = shapes.iter().map(|s| s.as_ref().map(|s| thinned(&s.middle(), TOLERANCE))).collect();
    let mut tolerance = TOLERANCE;
    loop {
        shapes = shapes.iter().map(|s| s.as_ref().map(|s| Shape { left: thinned(&s.left, tolerance), right: thinned(&s.right, tolerance) })).collect();
        tolerance *= 2.0;
        if tolerance > 1.0 || shapes.iter().flatten().map(|s| s.left.len() + s.right.len()).sum::<usize>() <= MOST_POINTS {
            break;
        }
    }
    let lane = |(row, (shape, middle)): (usize, (Option<Shape>, Option<Vec<Point>>))| {
        let words = tables.lane(row);
        Some(Lane { shape: shape?, middle: middle?, way: Way::of(words[5]), section: words[3], joined: [false; 2] })
    };
    shapes.into_iter().zip(middles).enumerate().map(lane).collect()
}

/// The median of the lanes' widths, each the mean of its two edges.
fn usual_width(lanes: &[Option<Lane>]) -> f64 {
    let width = |lane: &Lane| (distance(lane.shape.edge(false)) + distance(lane.shape.edge(true))) / 2.0;
    let mut widths: Vec<f64> = lanes.iter().flatten().map(width).filter(|&w| w > 0.0).collect();
    widths.sort_by(f64::total_cmp);
    widths.get(widths.len() / 2).copied().unwrap_or(1.0)
}

/// The roads that have lanes, in the order of their rows; lanes of a road that is not there stand last.
fn roads_of(tables: &Tables) -> Vec<Road<'_>> {
    let rows = tables.roads.chunks_exact(ROAD);
    let mut roads: Vec<Road> = rows.map(|r| Road { name: tables.name(&r[..2]), inside: r[2] != ABSENT, lanes: Vec::new() }).collect();
    let places: HashMap<&[u8], usize> = roads.iter().enumerate().map(|(i, r)| (r.name, i)).collect();
    let mut lost = Road { name: b"", inside: false, lanes: Vec::new() };
    for (row, lane) in tables.lanes.chunks_exact(LANE).enumerate() {
        let road = places.get(tables.name(&lane[1..3])).and_then(|&i| roads.get_mut(i)).unwrap_or(&mut lost);
        road.lanes.push(row);
    }
    roads.push(lost);
    roads.retain(|r| !r.lanes.is_empty());
    roads
}
