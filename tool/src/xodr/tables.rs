//! The roads and lanes as rows of the library's tables.
use super::cross_section::borders;
use super::document::{shown, LineStarts};
use super::links::{lane_links, refused, targets};
use super::outline::outlines;
use super::profile::Seam;
use super::roads::Road;
use super::Choice;
use crate::map::{Fault, Map, Names, WrongLength};
use vorzhyket::sizes::{LINKS, TARGET};
use vorzhyket::ABSENT;

/// Beyond this many metres from 0,0 an f32 no longer resolves a millimetre.
const FAR: f64 = 10_000.0;

/// The place to count coordinates from: 0,0, or, where a road is far from it, the middle of the map in whole metres.
pub fn origin(roads: &[Road]) -> [f64; 2] {
    let geometries = || roads.iter().flat_map(|r| r.reference.geometries());
    if geometries().all(|g| g.x.abs() <= FAR && g.y.abs() <= FAR) {
        return [0.0; 2];
    }
    let middle = |least: f64, most: f64| (least / 2.0 + most / 2.0).round_ties_even() + 0.0;
    let least = geometries().fold([f64::INFINITY; 2], |m, g| [m[0].min(g.x), m[1].min(g.y)]);
    let most = geometries().fold([f64::NEG_INFINITY; 2], |m, g| [m[0].max(g.x), m[1].max(g.y)]);
    [0, 1].map(|i| middle(least[i], most[i]))
}

/// Adds a row for each road, with its sections; its contact points that are neither "start" nor "end"; and the roads whose
/// length is not that of their geometry.
pub fn add_roads(roads: &[Road], lines: &LineStarts, names: &mut Names, map: &mut Map) -> Result<(), Fault> {
    let targets = targets(roads, lines, names, &mut map.loose_contacts)?;
    for (road, targets) in roads.iter().zip(targets.chunks(2 * TARGET)) {
        let first = map.tables.sections.len() as u32;
        map.tables.roads.extend(names.place(road.name.as_bytes()));
        map.tables.roads.extend(road.junction.map_or([ABSENT, 0], |j| names.place(j.as_bytes())));
        map.tables.roads.extend(targets);
        map.tables.roads.extend([first, road.sections.len() as u32]);
        map.tables.sections.extend(road.sections.iter().map(|s| s.number));
        map.lines.roads.push(road.line);
        let (starts, lengths): (Vec<f64>, Vec<f64>) = road.reference.geometries().iter().map(|g| (g.s, g.length)).unzip();
        if let Some(geometry) = vorzhyket::length_check(&starts, &lengths, road.length).map_err(|refusal| refused("length", refusal))? {
            map.wrong_lengths.push(WrongLength { road: road.name.into(), line: road.line, length: road.length, geometry });
        }
    }
    Ok(())
}

/// Adds a row for each lane of a type that was chosen, with its edges and its outline.
pub fn add_lanes(roads: &[Road], choice: &Choice, lines: &LineStarts, names: &mut Names, map: &mut Map) -> Result<(), Fault> {
    let links = lane_links(roads.iter().flat_map(|r| &r.sections).flat_map(|s| s.lanes()).filter(|l| choice.takes(l.element)))?;
    let mut links = links.chunks(LINKS);
    for road in roads {
        let name = names.place(road.name.as_bytes());
        for section in &road.sections {
            for (lane, link) in section.lanes().filter(|l| choice.takes(l.element)).zip(&mut links) {
                let identity = map.lines.lanes.len() as u32;
                map.tables.lanes.extend([identity, name[0], name[1], section.number, lane.number as u32, lane.direction, link[2], link[3], link[0], link[1]]);
                map.lines.lanes.push(lines.line(lane.element));
            }
        }
        if choice.edges {
            add_edges(road, choice, map);
        }
        if choice.outlines {
            for section in &road.sections {
                let taken = section.lanes().zip(outlines(road, section, map.origin)).filter(|(lane, _)| choice.takes(lane.element));
                map.outlines.extend(taken.map(|(_, outline)| outline));
            }
        }
        road.reference.drop_tables();
    }
    Ok(())
}

/// Adds the edges of a road's lanes: where each section starts, and where it ends.
fn add_edges(road: &Road, choice: &Choice, map: &mut Map) {
    let (before, [x, y]) = (map.tables.edges.len(), map.origin);
    for section in &road.sections {
        let starts = borders(road, section, section.start, Seam::After).unwrap_or_default();
        let ends = borders(road, section, section.end, Seam::Before).unwrap_or_default();
        for ((lane, start), end) in section.lanes().zip(starts).zip(ends) {
            if choice.takes(lane.element) {
                let points = start.into_iter().chain(end);
                map.tables.edges.extend(points.flat_map(|p| [p[0] - x, p[1] - y, p[2]]).map(|c| c as f32));
            }
        }
    }
    if map.tables.edges[before..].iter().any(|c| !c.is_finite()) {
        map.notes.push((road.line, format!("road {}: edges of its lanes are no finite numbers", shown(road.name))));
    }
}
