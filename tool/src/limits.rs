//! The library's limits: a map over one of them is refused with every total beside its limit.
use crate::map::Tables;
use vorzhyket::sizes::{CONNECTION, JUNCTION, LANE, MOST_ROWS, MOST_ROWS_REPAIR, MOST_TEXT, PAIR, ROAD};

/// What is said of a map that is over a limit. Repair can double connections and pairs, so it takes half as many.
pub fn over(t: &Tables, repairs: bool) -> Option<String> {
    let links = if repairs { MOST_ROWS_REPAIR } else { MOST_ROWS };
    let totals = [
        ("roads", t.roads.len() / ROAD, MOST_ROWS),
        ("sections", t.sections.len(), MOST_ROWS),
        ("junctions", t.junctions.len() / JUNCTION, MOST_ROWS),
        ("connections", t.connections.len() / CONNECTION, links),
        ("pairs", t.pairs.len() / PAIR, links),
        ("lanes", t.lanes.len() / LANE, MOST_ROWS),
        ("bytes of names", t.text.len(), MOST_TEXT),
    ];
    if totals.iter().all(|(_, n, most)| n <= most) {
        return None;
    }
    let said: Vec<String> = totals.iter().map(|(what, n, most)| format!("{what} {n}/{most}{}", if n > most { " (over)" } else { "" })).collect();
    Some(format!("refused, 1: the map is over a limit: {}", said.join(", ")))
}
