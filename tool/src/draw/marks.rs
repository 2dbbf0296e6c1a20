//! What stands upon the lanes: gaps, the widths of the widest, the names of roads.
use super::scene::{Lane, Mark, Road, Scene};
use super::shape::{distance, halfway, Point, Segment};
use super::trace::{length, spot, text, Trace};
use super::words::{breadth, escaped, label, metres, shown, Area, Labels};
use super::{CHUNK, MOST_LABELS, MOST_MARKS};
use crate::labels;
use crate::map::{Map, Tables};
use std::collections::HashSet;

/// Roads up to which names are shown, and lanes up to which labels keep clear of them.
const MOST_NAMES: usize = 60;
const MOST_CLEAR: usize = 600;

/// The gaps, the widths of the widest, and the names of roads where these are few.
pub fn marks(out: &mut String, map: &Map, scene: &Scene) {
    let radius = match scene.marks.len() {
        0..=60 => 14.0,
        61..=400 => 10.0,
        401..=MOST_MARKS => 7.0,
        _ => 4.5,
    };
    let mut labels = Labels::new(scene.height);
    let widest = scene.marks.iter().take(10 * MOST_LABELS);
    labels.avoided = widest.map(|mark| Area::around(halfway(mark.way), 2.0 * radius, 2.0 * radius)).collect();
    if scene.lanes.len() <= MOST_CLEAR {
        labels.avoided.extend(scene.lanes.iter().flatten().flat_map(|lane| covered(lane, scene.wide)));
    }
    let mut texts = String::new();
    widths(&mut texts, scene, &mut labels, radius);
    if scene.roads.len() <= MOST_NAMES {
        names(out, scene, &mut labels);
    }
    if scene.marks.len() > MOST_MARKS {
        crowd(out, scene, radius);
    } else {
        scene.marks.iter().rev().for_each(|mark| ring(out, map, mark, radius));
    }
    out.push_str(&texts);
}

/// The lane, roughly, as squares along it.
fn covered(lane: &Lane, wide: f64) -> impl Iterator<Item = Area> + '_ {
    let long = length(&lane.middle);
    let count = (long / wide.max(8.0)).ceil().clamp(1.0, 20.0);
    (0..count as usize).filter_map(move |i| spot(&lane.middle, long * (i as f64 + 0.5) / count)).map(move |(p, _)| Area::around(p, wide, wide))
}

/// The widths beside the widest gaps, where there is room for them; one for all gaps at a place.
fn widths(out: &mut String, scene: &Scene, labels: &mut Labels, radius: f64) {
    let mut labelled: Vec<Point> = Vec::new();
    for mark in scene.marks.iter().take(10 * MOST_LABELS) {
        let [x, y] = halfway(mark.way);
        if labelled.len() == MOST_LABELS || labelled.iter().any(|&p| distance([p, [x, y]]) < 2.0 * radius) {
            continue;
        }
        let line = metres(mark.width as f64);
        let (wide, high) = (breadth(&line, 22.0) + 8.0, 28.0);
        let (dx, dy) = (radius + wide / 2.0 + 5.0, radius + high / 2.0 + 5.0);
        let around = [[dx, 0.0], [-dx, 0.0], [0.0, -dy], [0.0, dy], [dx, -dy], [-dx, -dy], [dx, dy], [-dx, dy]];
        if let Some(at) = labels.place(&around.map(|d| [x + d[0], y + d[1]]), wide, high) {
            label(out, "g", at, wide, high, &line);
            labelled.push([x, y]);
        }
    }
}

/// A gap: a line from edge to edge, a ring around it, and in its title which lanes and where on their edges.
fn ring(out: &mut String, map: &Map, mark: &Mark, radius: f64) {
    let ([x, y], mut line) = (halfway(mark.way), Trace::default());
    line.line(&mark.way);
    let (from, to, width) = (lane_name(&map.tables, mark.lane), lane_name(&map.tables, mark.successor), metres(mark.width as f64));
    let (exit, entry) = (labels::place(map, &mark.places.exit), labels::place(map, &mark.places.entry));
    let place = format!("cx=\"{}\" cy=\"{}\" r=\"{}\"", text(x), text(y), text(radius));
    out.push_str(&format!("<g class=\"gap\"><title>{from} to {to}: {width}; from {exit}; to {entry}</title><circle class=\"y\" {place}/>"));
    out.push_str(&format!("<path class=\"x\" d=\"{}\"/><circle class=\"o\" {place}/></g>\n", line.data));
}

/// A lane as road/section/number.
fn lane_name(tables: &Tables, row: usize) -> String {
    let lane = tables.lane(row);
    format!("{}/{}/{}", escaped(&shown(tables.name(&lane[1..3]), 60)), lane[3], lane[4] as i32)
}

/// Very many gaps: lines and rings in a few paths, one ring for all gaps within it.
fn crowd(out: &mut String, scene: &Scene, radius: f64) {
    let mut seen = HashSet::new();
    let cell = |p: Point| p.map(|c| (c / radius / 2.0) as i64);
    let kept: Vec<Segment> = scene.marks.iter().map(|mark| mark.way).filter(|&way| seen.insert(cell(halfway(way)))).collect();
    for chunk in kept.chunks(CHUNK) {
        let (mut line, mut rings) = (Trace::default(), Trace::default());
        for &way in chunk {
            line.line(&way);
            rings.circle(halfway(way), radius);
        }
        out.push_str(&format!("<g class=\"gaps\"><path class=\"x\" style=\"stroke-width:2px\" d=\"{}\"/>", line.data));
        out.push_str(&format!("<path class=\"o\" style=\"stroke-width:2px\" d=\"{}\"/></g>\n", rings.data));
    }
}

/// The names of roads, on lanes that are wide enough and else beside them; roads inside junctions have none.
fn names(out: &mut String, scene: &Scene, labels: &mut Labels) {
    for road in scene.roads.iter().filter(|road| !road.inside) {
        let Some((p, side, [least, most])) = centre(scene, road) else { continue };
        let name = shown(road.name, 24);
        let (wide, high) = (breadth(&name, 20.0) + 10.0, 26.0);
        let off = scene.wide / 2.0 + (wide * side[0].abs() + high * side[1].abs()) / 2.0 + 4.0;
        let at = |off: f64| [p[0] + side[0] * off, p[1] + side[1] * off];
        let places = if scene.wide >= 1.3 * high { vec![p] } else { vec![at(most + off), at(least - off), p] };
        if let Some(at) = labels.place(&places, wide, high) {
            label(out, "l", at, wide, high, &name);
        }
    }
}

/// The middle of a road's longest lane, the direction to its side, and how far the lanes of its section reach that way.
fn centre(scene: &Scene, road: &Road) -> Option<(Point, Point, Point)> {
    let lanes = || road.lanes.iter().filter_map(|&row| scene.lane(row));
    let middle = |lane: &Lane| spot(&lane.middle, length(&lane.middle) / 2.0);
    let longest = lanes().max_by(|a, b| length(&a.middle).total_cmp(&length(&b.middle)))?;
    let (p, [u, v]) = middle(longest)?;
    let offs = lanes().filter(|lane| lane.section == longest.section).filter_map(middle).map(|(q, _)| (q[1] - p[1]) * u - (q[0] - p[0]) * v);
    let reach = offs.fold([0.0f64; 2], |[least, most], off| [least.min(off), most.max(off)]);
    Some((p, [-v, u], reach))
}
