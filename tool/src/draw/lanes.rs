//! The lanes on the sheet: areas, and the fine lines that show which lane leads where.
use super::scene::{Lane, Road, Scene};
use super::shape::{distance, Point};
use super::trace::{cut, length, spot, Trace};
use super::words::{escaped, shown};
use super::{class, CHUNK, THIN};
use crate::way::Way;

/// Links from lane to lane up to which each has an arrow head, where the lanes are apart.
const MOST_ARROWS: usize = 20_000;

/// The lanes' areas, road by road, those inside junctions below the others.
pub fn areas(out: &mut String, scene: &Scene) {
    let wide = scene.wide;
    let (class, border) = if wide < THIN { ("v", 2.0 - wide) } else { ("u", (wide * 0.05).min(2.0)) };
    out.push_str(&format!("<g class=\"{class}\" stroke-width=\"{border:.2}\">\n"));
    for inside in [true, false] {
        for road in scene.roads.iter().filter(|road| road.inside == inside) {
            area(out, scene, road);
        }
    }
    out.push_str("</g>\n");
}

/// A road's lanes: a path for each direction.
fn area(out: &mut String, scene: &Scene, road: &Road) {
    for way in [Way::Backward, Way::Forward, Way::Both] {
        let mut trace = Trace::default();
        for lane in road.lanes.iter().filter_map(|&row| scene.lane(row)).filter(|lane| lane.way == way) {
            trace.area(&lane.shape.left, &lane.shape.right);
        }
        if !trace.data.is_empty() {
            let (class, name) = (class(way, road.inside), escaped(&shown(road.name, 60)));
            out.push_str(&format!("<path class=\"{class}\" d=\"{}\"><title>road {name}</title></path>\n", trace.data));
        }
    }
}

/// The fine lines: through each lane, and across each link whose lanes are apart.
pub fn lines(out: &mut String, scene: &Scene) {
    let wide = scene.wide;
    out.push_str(&format!("<g stroke-width=\"{:.2}\">\n", (wide * 0.06).min(2.5)));
    for chunk in scene.lanes.chunks(CHUNK) {
        let (mut line, mut arrows) = (Trace::default(), Trace::default());
        for lane in chunk.iter().flatten() {
            through(&mut line, &mut arrows, lane, wide);
        }
        paths(out, &line, &arrows);
    }
    for chunk in scene.links.chunks(CHUNK) {
        let (mut line, mut arrows) = (Trace::default(), Trace::default());
        for &way in chunk {
            line.line(&way);
            if scene.links.len() <= MOST_ARROWS && distance(way) > 2.0 * arrow_size(wide) {
                arrow(&mut arrows, &way, distance(way) / 2.0, arrow_size(wide));
            }
        }
        paths(out, &line, &arrows);
    }
    out.push_str("</g>\n");
}

fn paths(out: &mut String, line: &Trace, arrows: &Trace) {
    for (class, trace) in [("k", line), ("a", arrows)] {
        if !trace.data.is_empty() {
            out.push_str(&format!("<path class=\"{class}\" d=\"{}\"/>\n", trace.data));
        }
    }
}

/// An arrow head is half as wide as a narrow lane, and less in a wide one.
fn arrow_size(wide: f64) -> f64 {
    (wide * 0.5).min(7.0).max((wide * 0.36).min(16.0))
}

/// The line through a lane, in its direction; where an end is not linked it stops short, with a bar.
fn through(line: &mut Trace, arrows: &mut Trace, lane: &Lane, wide: f64) {
    let mut middle = lane.middle.clone();
    let long = length(&middle);
    for end in [0, 1] {
        if !lane.joined[end] {
            middle = stopped(line, middle, end, (wide * 0.4).min(long / 4.0), wide);
        }
    }
    line.line(&middle);
    let size = arrow_size(wide).min(long / 2.0);
    if size < 0.5 {
        return;
    }
    let back: Vec<Point> = middle.iter().rev().copied().collect();
    let count = (long / 240.0).round().clamp(1.0, 6.0);
    for i in 0..count as usize {
        let at = length(&middle) * (i as f64 + 0.5) / count;
        match lane.way {
            Way::Forward => arrow(arrows, &middle, at + size / 2.0, size),
            Way::Backward => arrow(arrows, &back, at + size / 2.0, size),
            Way::Both => {
                arrow(arrows, &middle, at + size * 1.3, size);
                arrow(arrows, &back, length(&middle) - at + size * 1.3, size);
            }
        }
    }
}

/// A line cut short at one end, with a bar across it there.
fn stopped(trace: &mut Trace, mut line: Vec<Point>, end: usize, by: f64, wide: f64) -> Vec<Point> {
    if end == 1 {
        line.reverse();
    }
    line = cut(&line, by);
    if let Some(([x, y], [u, v])) = spot(&line, 0.0) {
        let half = (wide * 0.18).min(14.0);
        trace.line(&[[x - v * half, y + u * half], [x + v * half, y - u * half]]);
    }
    if end == 1 {
        line.reverse();
    }
    line
}

/// An arrow head with its tip that far along a line.
fn arrow(trace: &mut Trace, line: &[Point], far: f64, size: f64) {
    if let Some(([x, y], [u, v])) = spot(line, far) {
        let (back, half) = ([x - u * size, y - v * size], size * 0.42);
        trace.line(&[[x, y], [back[0] - v * half, back[1] + u * half], [back[0] + v * half, back[1] - u * half]]);
        trace.close();
    }
}
