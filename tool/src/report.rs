//! Repairs and links, a line for each, and gaps with their places.
use crate::found::{Found, Gap};
use crate::labels::{self, counted};
use crate::map::{Map, Tables};
use crate::place::{Place, Places};
use vorzhyket::sizes::{CONNECTION, LANE};

/// A line with its end.
fn line(parts: &[&[u8]], out: &mut Vec<u8>) {
    for part in parts {
        out.extend_from_slice(part);
    }
    out.push(b'\n');
}

/// Which road gets which junction at which end.
pub fn warning(repaired: &Tables, [_, junction, road, end]: [u32; 4]) -> Vec<u8> {
    let at: &[u8] = if end == 0 { b" at its start" } else { b" at its end" };
    [b"road ", &labels::road(repaired, road as usize)[..], b" gets junction ", &labels::junction(repaired, junction as usize), at].concat()
}

/// How many road ends were repaired and how many connections were added.
pub fn repair_sum(map: &Tables, repaired: &Tables, warnings: usize) -> String {
    let added = (repaired.connections.len() - map.connections.len()) / CONNECTION;
    format!("repair: {} repaired, {} added", counted(warnings, "road end"), counted(added, "connection"))
}

/// `lanes repair`
pub fn repair(map: &Tables, repaired: &Tables, warnings: &[[u32; 4]]) -> Vec<u8> {
    let mut out = Vec::new();
    for &w in warnings {
        line(&[&warning(repaired, w)], &mut out);
    }
    line(&[repair_sum(map, repaired, warnings.len()).as_bytes()], &mut out);
    out
}

fn list(t: &Tables, rows: &[usize]) -> Vec<u8> {
    if rows.is_empty() {
        return b" none".to_vec();
    }
    rows.iter().flat_map(|&row| [b" ", &labels::lane(t, row)[..]].concat()).collect()
}

/// A lane with the lanes onward and the lanes before.
pub fn links_of(found: &Found, row: usize) -> Vec<u8> {
    let t = &found.repaired;
    [&labels::lane(t, row)[..], b" onward:", &list(t, &found.successors[row]), b"; before:", &list(t, &found.predecessors[row])].concat()
}

/// `lanes links`
pub fn links(found: &Found) -> Vec<u8> {
    let mut out = Vec::new();
    for row in 0..found.repaired.lanes.len() / LANE {
        line(&[&links_of(found, row)], &mut out);
    }
    out
}

/// A gap, and below it where the two edges come closest.
fn gap(map: &Map, gap: &Gap, out: &mut Vec<u8>) {
    let [from, to] = [gap.lane, gap.successor].map(|row| labels::lane(&map.tables, row));
    let width = format!(": {} (bits {:08x})", labels::width(gap.bits, 6), gap.bits);
    line(&[&from, b" to ", &to, width.as_bytes()], out);
    match Places::of(map, gap) {
        Some(Places { exit, entry }) => {
            line(&[b"  ", &from, b" at ", place(map, &exit).as_bytes()], out);
            line(&[b"  ", &to, b" at ", place(map, &entry).as_bytes()], out);
        }
        None => line(&[b"  no place: coordinates are no numbers, or too large"], out),
    }
}

fn place(map: &Map, place: &Place) -> String {
    let [x, y] = place.at.map(|c| labels::metres(c, 3));
    format!("{}: x {x} m, y {y} m", labels::place(map, place))
}

/// How many gaps there are in how many links.
pub fn gap_sum(found: &Found) -> String {
    if !found.repaired.lanes.is_empty() && !found.repaired.has_edges() {
        return "gaps: the map has no edges".into();
    }
    let links = found.successors.iter().map(Vec::len).sum();
    format!("gaps: {} in {}", counted(found.gaps.len(), "gap"), counted(links, "link"))
}

/// `lanes gaps`
pub fn gaps(map: &Map, found: &Found) -> Vec<u8> {
    let mut out = Vec::new();
    for g in &found.gaps {
        gap(map, g, &mut out);
    }
    let left: &[u8] = if map.left_first && !found.gaps.is_empty() { b"; left is as the reference line runs" } else { b"" };
    line(&[gap_sum(found).as_bytes(), left], &mut out);
    out
}
