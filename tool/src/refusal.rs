//! A refusal in words: call, number, what it means, and the table, row and line that it is about.
use crate::found::Refused;
use crate::labels;
use crate::map::{Fault, Lines, Tables};
use std::collections::hash_map::Entry;
use std::collections::{HashMap, HashSet};
use std::hash::Hash;
use vorzhyket::sizes::{JUNCTION, LANE, PAIR, ROAD};
use vorzhyket::Refusal;

/// A lane number that has no negative.
const LEAST: u32 = i32::MIN as u32;

/// What is wrong, and the line.
type Said = (String, Option<u32>);

/// Says why a call refused the map. The marks are those of reversal.
pub fn fault(refused: Refused, t: &Tables, lines: &Lines, marks: &[u32]) -> Fault {
    let found = match refused.refusal {
        Refusal::RoadTwice => road_twice(t, lines),
        Refusal::BadSections => not_ascending(t, lines),
        Refusal::IdentityTwice => identity_twice(t, lines),
        Refusal::LaneUnlisted => unlisted(t, lines),
        Refusal::PlaceTwice => lane_twice(t, lines),
        Refusal::LeastNumber => least(t, lines),
        Refusal::TwoEnded => two_ended(t, lines, marks),
        _ => None,
    };
    let (what, line) = found.unwrap_or_else(|| (refused.refusal.to_string(), None));
    Fault { line, what: format!("{}: refused, {}: {what}", refused.call, refused.refusal.number()) }
}

fn line_of(lines: &[u32], row: usize) -> Option<u32> {
    lines.get(row).copied()
}

/// The first row whose key an earlier one has, after that one.
fn twins<K: Eq + Hash>(keys: impl Iterator<Item = K>) -> Option<[usize; 2]> {
    let mut seen = HashMap::new();
    for (row, key) in keys.enumerate() {
        match seen.entry(key) {
            Entry::Occupied(first) => return Some([*first.get(), row]),
            Entry::Vacant(place) => place.insert(row),
        };
    }
    None
}

fn twice(what: String, rows: [usize; 2], lines: &[u32]) -> Said {
    let [a, b] = rows;
    let places = match (line_of(lines, a), line_of(lines, b)) {
        (Some(i), Some(j)) => format!(", lines {i} and {j}"),
        _ => String::new(),
    };
    (format!("{what} twice (rows {a} and {b}{places})"), line_of(lines, a))
}

fn road(t: &Tables, row: usize) -> String {
    format!("road {}", String::from_utf8_lossy(&labels::road(t, row)))
}

fn lane(t: &Tables, row: usize) -> String {
    format!("lane {}", String::from_utf8_lossy(&labels::lane(t, row)))
}

fn road_twice(t: &Tables, lines: &Lines) -> Option<Said> {
    let rows = twins(t.roads.chunks(ROAD).map(|r| t.name(&r[0..2])))?;
    Some(twice(road(t, rows[1]), rows, &lines.roads))
}

fn not_ascending(t: &Tables, lines: &Lines) -> Option<Said> {
    let falls = |r: &[u32]| t.sections_of(r).windows(2).any(|w| w[0] >= w[1]);
    let row = t.roads.chunks(ROAD).position(falls)?;
    Some((format!("the sections of {} (row {row}) do not ascend", road(t, row)), line_of(&lines.roads, row)))
}

fn identity_twice(t: &Tables, lines: &Lines) -> Option<Said> {
    let rows = twins(t.lanes.chunks(LANE).map(|l| l[0]))?;
    Some(twice(format!("lane identity {}", t.lane(rows[1])[0]), rows, &lines.lanes))
}

fn unlisted(t: &Tables, lines: &Lines) -> Option<Said> {
    let roads = t.road_rows();
    // sections ascend, or the map were refused for that
    let listed = |l: &[u32]| roads.get(t.name(&l[1..3])).is_some_and(|&row| t.sections_of(t.road(row)).binary_search(&l[3]).is_ok());
    let row = t.lanes.chunks(LANE).position(|l| !listed(l))?;
    Some((format!("{} (row {row}): its road is unknown, or does not list that section", lane(t, row)), line_of(&lines.lanes, row)))
}

fn lane_twice(t: &Tables, lines: &Lines) -> Option<Said> {
    let rows = twins(t.lanes.chunks(LANE).map(|l| (t.name(&l[1..3]), l[3], l[4])))?;
    Some(twice(lane(t, rows[1]), rows, &lines.lanes))
}

fn least(t: &Tables, lines: &Lines) -> Option<Said> {
    if let Some(row) = t.lanes.chunks(LANE).position(|l| [l[4], l[7], l[9]].contains(&LEAST)) {
        return Some((format!("{} (row {row}) has the number -2147483648, or a link to it", lane(t, row)), line_of(&lines.lanes, row)));
    }
    let row = t.pairs.chunks(PAIR).position(|p| p.contains(&LEAST))?;
    Some((format!("a pair (row {row}) has the number -2147483648"), line_of(&lines.pairs, row)))
}

fn two_ended(t: &Tables, lines: &Lines, marks: &[u32]) -> Option<Said> {
    let direct: HashSet<&[u8]> = t.junctions.chunks(JUNCTION).filter(|j| j[2] == 1).map(|j| t.name(&j[0..2])).collect();
    let names = |w: &[u32]| (w[0] == 1 && w[1] == 1).then(|| t.name(&w[2..4]));
    let alike = |r: &[u32]| names(&r[4..11]).is_some_and(|j| direct.contains(j) && names(&r[11..18]) == Some(j));
    let row = t.roads.chunks(ROAD).zip(marks).position(|(r, &mark)| mark == 1 && alike(r))?;
    Some((format!("{} (row {row}) names one direct junction at both ends", road(t, row)), line_of(&lines.roads, row)))
}

#[cfg(test)]
mod tests {
    use super::*;
    use crate::form;

    #[test]
    fn what_no_row_can_be_named_for() {
        let map = form::read(b"road a\nroad a\n").expect("a map");
        let said = |refusal: Refusal, lines: &Lines| fault(Refused { call: "links", refusal }, &map.tables, lines, &[]);
        assert_eq!(said(Refusal::BadWord, &map.lines), Fault { line: None, what: "links: refused, 2: a word or name breaks the table rules".into() });
        assert_eq!(
            said(Refusal::PlaceTwice, &map.lines),
            Fault { line: None, what: "links: refused, 8: two lanes have equal road, section and number".into() }
        );
        assert_eq!(said(Refusal::RoadTwice, &Lines::default()), Fault { line: None, what: "links: refused, 3: road a twice (rows 0 and 1)".into() });
    }
}
