//! What `lanes check` says of a map, as facts: for the summary and for JSON.
use crate::found::{Found, Gap};
use crate::labels::counted;
use crate::map::{Map, Tables};
use crate::place::Places;
use crate::way::Way;
use std::cmp::Reverse;
use std::collections::HashMap;
use vorzhyket::sizes::{CONNECTION, LANE, TARGET};
use vorzhyket::ABSENT;

/// A lane inside a junction that can be entered and not left, or left and not entered: a movement that the file lost.
#[derive(Clone, Debug, PartialEq)]
pub struct Lost {
    pub lane: usize,
    pub road: usize,
    pub entered: bool,
}

/// A gap, and where it is.
#[derive(Clone, Debug, PartialEq)]
pub struct PlacedGap {
    pub gap: Gap,
    pub places: Option<Places>,
}

/// The facts. Gaps stand widest first.
pub struct Check<'a> {
    pub map: &'a Map,
    pub found: &'a Found,
    pub added: usize,
    pub links: usize,
    pub two_way: usize,
    pub none_onward: usize,
    pub none_before: usize,
    pub gaps: Vec<PlacedGap>,
    pub lost: Vec<Lost>,
}

impl<'a> Check<'a> {
    /// The facts of a map, or of a part of one, as `--box` cuts it out.
    pub fn new(map: &'a Map, found: &'a Found, part: bool) -> Self {
        Check {
            map,
            found,
            added: (found.repaired.connections.len() - map.tables.connections.len()) / CONNECTION,
            links: found.successors.iter().map(Vec::len).sum(),
            two_way: two_way(found),
            none_onward: found.successors.iter().filter(|list| list.is_empty()).count(),
            none_before: found.predecessors.iter().filter(|list| list.is_empty()).count(),
            gaps: placed(map, found),
            lost: lost(map, found, part),
        }
    }

    pub fn lanes(&self) -> usize {
        self.map.tables.lanes.len() / LANE
    }

    /// How many lanes inside a junction can be entered and not left, and how many left and not entered.
    pub fn lost_ways(&self) -> [usize; 2] {
        let entered = self.lost.iter().filter(|l| l.entered).count();
        [entered, self.lost.len() - entered]
    }

    /// What was found, counted; empty where nothing was. Connections added to a direct junction are no finding.
    pub fn findings(&self) -> Vec<String> {
        let kinds = [
            (self.gaps.len(), "gap", ""),
            (self.lost.len(), "lost movement", ""),
            (self.found.warnings.len(), "road end", " repaired"),
            (self.map.wrong_lengths.len(), "wrong length", ""),
            (self.map.loose_contacts.len(), "loose contact point", ""),
            (self.map.notes.len(), "note", ""),
        ];
        let counts = kinds.iter().filter(|(n, ..)| *n > 0).map(|(n, what, more)| counted(*n, what) + more);
        let none = (self.lanes() == 0).then(|| "no lanes".to_string());
        none.into_iter().chain(counts).collect()
    }
}

fn is_two_way(t: &Tables, row: usize) -> bool {
    Way::of(t.lane(row)[5]) == Way::Both
}

/// The links between two two-way lanes.
fn two_way(found: &Found) -> usize {
    let t = &found.repaired;
    let lists = found.successors.iter().enumerate().filter(|(row, _)| is_two_way(t, *row));
    lists.flat_map(|(_, list)| list).filter(|&&row| is_two_way(t, row)).count()
}

/// The movements that the file lost. Of a part of a map, those that lead out of it are not lost.
fn lost(map: &Map, found: &Found, part: bool) -> Vec<Lost> {
    let t = &found.repaired;
    let rows = t.road_rows();
    let mut out = Vec::new();
    for (lane, words) in t.lanes.chunks(LANE).enumerate() {
        let (entered, left) = (!found.predecessors[lane].is_empty(), !found.successors[lane].is_empty());
        let Some(&road) = rows.get(t.name(&words[1..3])) else { continue };
        if entered == left || t.road(road)[2] == ABSENT {
            continue;
        }
        let way = Way::of(words[5]);
        let ends = if entered { way.exits() } else { way.entries() };
        let is_cut = |end: bool| part && leads_out(t, &rows, road, end);
        let is_no_loss = |&end: &bool| is_outermost(t, road, words[3], end) && (leads_along(map, found, road, end) || is_cut(end));
        if !ends.iter().any(is_no_loss) {
            out.push(Lost { lane, road, entered });
        }
    }
    out
}

/// Is the section the one at that end of the road?
fn is_outermost(t: &Tables, road: usize, section: u32, end: bool) -> bool {
    let sections = t.sections_of(t.road(road));
    let outermost = if end { sections.last() } else { sections.first() };
    outermost == Some(&section)
}

/// The road's target at that end.
fn target(t: &Tables, road: usize, end: bool) -> &[u32] {
    &t.road(road)[if end { 11 } else { 4 }..][..TARGET]
}

/// Has the road a link at that end which repair took away, since it leads to a place along a road at a virtual
/// junction? No list can have such a movement.
fn leads_along(map: &Map, found: &Found, road: usize, end: bool) -> bool {
    target(&map.tables, road, end)[0] == 1 && target(&found.repaired, road, end)[0] == 0
}

/// Does the road lead to a road at that end which the map does not have?
fn leads_out(t: &Tables, rows: &HashMap<&[u8], usize>, road: usize, end: bool) -> bool {
    let target = target(t, road, end);
    target[0] == 1 && target[1] == 0 && !rows.contains_key(t.name(&target[2..4]))
}

/// The gaps, widest first.
fn placed(map: &Map, found: &Found) -> Vec<PlacedGap> {
    let mut gaps: Vec<PlacedGap> = found.gaps.iter().map(|gap| PlacedGap { gap: gap.clone(), places: Places::of(map, gap) }).collect();
    // the bits of numbers that are not negative ascend with them
    gaps.sort_by_key(|g| Reverse(g.gap.bits));
    gaps
}

#[cfg(test)]
mod tests {
    use super::*;
    use crate::{form, found};

    /// Of a part of a map, a lane is not lost where its road leads to one that was cut off.
    #[test]
    fn a_part_of_a_map() {
        let text = b"road v inside j from road w end to road e start sections 0 1\nroad e sections 0\n\
                     lane 1 v 0 -1 forward next -1\nlane 2 v 1 -1 forward next -1\nlane 3 e 0 -1 forward\n\
                     lane 4 v 1 -2 forward next -2\nlane 5 e 0 -2 forward\n";
        let map = form::read(text).expect("a map");
        let found = found::find(&map.tables).expect("no refusal");
        let lost = |part: bool| Check::new(&map, &found, part).lost.iter().map(|l| l.lane).collect::<Vec<_>>();
        assert_eq!(lost(false), [0, 3]);
        assert_eq!(lost(true), [3]);
    }
}
