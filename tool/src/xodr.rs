//! OpenDRIVE files (.xodr) as maps; docs/OPENDRIVE.md says what is read.
mod cross_section;
mod document;
mod guard;
mod junctions;
mod lanes;
mod links;
mod outline;
mod profile;
mod reference_line;
mod roads;
mod shapes;
mod tables;

use crate::map::{Fault, Map, Names};
use document::{children, shown, Element, LineStarts};
use roads::Road;
use std::collections::HashSet;

/// What of a file is wanted.
#[derive(Clone, Debug, Default, PartialEq)]
pub struct Choice {
    /// Lanes of these types alone.
    pub types: Option<Vec<String>>,
    /// Roads that reach into this box alone, x, y, x, y in metres, and their junctions whole.
    pub area: Option<[f64; 4]>,
    pub edges: bool,
    pub outlines: bool,
}

impl Choice {
    /// Whether a lane is of a type that is wanted.
    fn takes(&self, lane: Element) -> bool {
        self.types.as_ref().is_none_or(|types| lane.attribute("type").is_some_and(|t| types.iter().any(|wanted| wanted == t)))
    }
}

/// Reads a file. The tables are whole, whatever their size: the library's limits are the caller's to watch.
pub fn read(data: &[u8], choice: &Choice) -> Result<Map, Fault> {
    let text = document::text(data)?;
    guard::check(&text)?;
    let tree = document::parse(&text)?;
    let (root, lines) = (tree.root_element(), LineStarts::of(&text));
    if !root.has_tag_name("OpenDRIVE") {
        let what = format!("the document is <{}>, not <OpenDRIVE>", shown(root.tag_name().name()));
        return Err(Fault { line: Some(lines.line(root)), what });
    }
    let (mut map, mut names) = (Map { left_first: true, ..Map::default() }, Names::default());
    let mut roads = all_roads(root, choice, &lines, &mut map)?;
    let kept = choice.area.map(|area| keep_area(&mut roads, area)).transpose()?;
    for road in &mut roads {
        map.notes.append(&mut road.notes);
    }
    if choice.edges {
        note_shapes(&roads, &mut map);
    }
    if choice.edges || choice.outlines {
        map.origin = tables::origin(&roads);
    }
    tables::add_roads(&roads, &lines, &mut names, &mut map)?;
    junctions::read(root, kept.as_ref(), &lines, &mut names, &mut map)?;
    tables::add_lanes(&roads, choice, &lines, &mut names, &mut map)?;
    map.tables.text = names.text;
    map.notes.sort_by_key(|note| note.0);
    Ok(map)
}

/// The roads that can be read; a fault where there is none.
fn all_roads<'a>(root: Element<'a>, choice: &Choice, lines: &'a LineStarts, map: &mut Map) -> Result<Vec<Road<'a>>, Fault> {
    let placed = choice.edges || choice.area.is_some();
    let mut roads = Vec::new();
    for element in children(root, "road") {
        let road = match Road::of(element, lines) {
            Ok(road) if placed && road.reference.geometries().is_empty() => Err("it has no geometry that can be read"),
            road => road,
        };
        match road {
            Ok(road) => roads.push(road),
            Err(reason) => {
                let name = shown(element.attribute("id").unwrap_or(""));
                map.notes.push((lines.line(element), format!("road {name} is left out: {reason}")));
            }
        }
    }
    match (roads.is_empty(), map.notes.first()) {
        (false, _) => Ok(roads),
        (true, Some((line, note))) => Err(Fault { line: Some(*line), what: format!("no road can be read: {note}") }),
        (true, None) => Err(Fault { line: Some(lines.line(root)), what: "there is no road".to_string() }),
    }
}

/// Keeps the roads that reach into the box, and those of junctions that such a road lies in: these junctions are told.
fn keep_area<'a>(roads: &mut Vec<Road<'a>>, area: [f64; 4]) -> Result<HashSet<&'a str>, Fault> {
    let inside: HashSet<&str> = roads.iter().filter(|r| r.reaches_into(area)).map(|r| r.name).collect();
    let junctions: HashSet<&str> = roads.iter().filter(|r| inside.contains(r.name)).filter_map(|r| r.junction).collect();
    roads.retain(|r| inside.contains(r.name) || r.junction.is_some_and(|j| junctions.contains(j)));
    if roads.is_empty() {
        return Err(Fault { line: None, what: "no road reaches into the box".to_string() });
    }
    Ok(junctions)
}

fn note_shapes(roads: &[Road], map: &mut Map) {
    let shaped: Vec<&Road> = roads.iter().filter(|r| r.shaped).collect();
    if let Some(first) = shaped.first() {
        let what = format!("<shape> and <crossSectionSurface> are not read; roads that have them: {}, the first is {}", shaped.len(), shown(first.name));
        map.notes.push((first.line, what));
    }
}
