//! Sequences of reversals: the tables after them, and the lists and gap rows that the original finds on them, and this library
//! as well. All of these stay; of several least pairs of ends another may be the original's first.
use crate::both::{self, Found};
use crate::calls::{self, REVERSAL_WIDTHS};
use crate::original::Wide;
use crate::reversal;
use crate::rules;
use crate::tables::{Dice, Tables, LANE, ROAD};

/// How many reversals were accepted and refused, and the gap rows after them.
#[derive(Default)]
pub struct Count {
    accepted: u64,
    refused: u64,
    one_way: u64,
    two_way: u64,
    ties: u64,
    /// Rows of which the original's first least pair shows another place after the reversals.
    moved: u64,
}

impl Count {
    /// A gap row of a map, before reversals and after.
    fn add(&mut self, map: &Tables, before: &Wide, after: &Wide) {
        let one_way = before.words[..2].iter().all(|&row| map.lanes[row as usize * LANE + 5] != 2);
        *(if one_way { &mut self.one_way } else { &mut self.two_way }) += 1;
        self.ties += u64::from(before.tied());
        self.moved += u64::from(before.first() != after.first());
    }

    pub fn print(&self) {
        println!("  reversals: {} accepted, {} refused", self.accepted, self.refused);
        println!(
            "  gap rows after them: {} of one-way lanes, {} of others, {} of these with ties; the same in all words; the original's first least pair moves in {}",
            self.one_way, self.two_way, self.ties, self.moved
        );
    }
}

/// The lengths that the outputs need.
fn needed(t: &Tables) -> [usize; 6] {
    [t.roads.len(), t.sections.len(), t.connections.len(), t.pairs.len(), t.lanes.len(), t.edges.len()]
}

/// The tables after a reversal: those that it wrote, the others as they were read.
fn after(t: &Tables, outs: Vec<Vec<u32>>) -> Tables {
    let [roads, sections, connections, pairs, lanes, edges]: [Vec<u32>; 6] = outs.try_into().unwrap();
    Tables {
        text: t.text.clone(),
        roads,
        sections,
        junctions: t.junctions.clone(),
        connections,
        pairs,
        lanes,
        edges: edges.into_iter().map(f32::from_bits).collect(),
    }
}

/// Are all words and all bits the same?
fn same(a: &Tables, b: &Tables) -> bool {
    let bits = |t: &Tables| t.edges.iter().map(|x| x.to_bits()).collect::<Vec<_>>();
    bits(a) == bits(b) && Tables { edges: Vec::new(), ..a.clone() } == Tables { edges: Vec::new(), ..b.clone() }
}

/// A sequence of reversals of an admitted map, refused ones among them; and what both found on the map.
pub fn run(map: &Tables, found: &Result<Found, String>, dice: &mut Dice, count: &mut Count) -> Result<(), String> {
    let roads = Tables::rows(&map.roads, ROAD);
    let mut now = map.clone();
    let mut set = vec![0u32; roads];
    let mut any = false;
    for _ in 0..1 + dice.below(5) {
        let mut marks: Vec<u32> = (0..roads).map(|_| dice.below(2) as u32).collect();
        if dice.one_in(12) {
            marks.push(1);
        }
        let mut lengths = needed(&now);
        let k = dice.below(6);
        if dice.one_in(8) && lengths[k] > 0 {
            lengths[k] -= 1;
        } else {
            lengths[k] += dice.below(3);
        }
        let expected = match rules::reverse(&now, &marks) {
            0 if lengths[k] < needed(&now)[k] => 9,
            n => n,
        };
        let out = calls::reverse(&now, &marks, lengths);
        if out.refusal != expected {
            return Err(format!("a reversal answers {} where 01 says {expected}", out.refusal));
        }
        if expected != 0 {
            count.refused += 1;
            if !out.untouched() {
                return Err(format!("a reversal refused by {expected} and changed a word"));
            }
            continue;
        }
        count.accepted += 1;
        any = true;
        let next = after(&now, out.contents(&REVERSAL_WIDTHS));
        if !same(&next, &reversal::reversed(&now, &marks)) {
            return Err("a reversal wrote other words than 01 says".into());
        }
        now = next;
        set.iter_mut().zip(&marks).for_each(|(s, m)| *s ^= m);
    }
    if any {
        let once = calls::reverse(map, &set, needed(map));
        if once.refusal != 0 {
            return Err(format!("one reversal by the set is refused by {}", once.refusal));
        }
        if !same(&after(map, once.contents(&REVERSAL_WIDTHS)), &now) {
            return Err("the tables after the sequence are not the first map reversed once by the set".into());
        }
    }
    if set.iter().all(|&s| s == 0) && !same(map, &now) {
        return Err("an empty set changed the tables".into());
    }
    let (first, last) = (found.as_ref().map_err(String::clone)?, both::find(&now)?);
    if first.lists != last.lists {
        return Err("both find other lists after the reversals".into());
    }
    gap_rows(first, &last)?;
    first.wide.iter().zip(&last.wide).for_each(|(a, b)| count.add(map, a, b));
    warnings(map, [first, &last], &set)
}

/// The gap rows after reversals are those before, in all words: this library's, and those that the rule picks among the
/// original's pairs of ends.
fn gap_rows(first: &Found, last: &Found) -> Result<(), String> {
    if first.gaps != last.gaps {
        return Err(format!("this library finds other gaps after the reversals\n before {:?}\n after  {:?}", first.gaps, last.gaps));
    }
    let rows = |wide: &[Wide]| wide.iter().map(Wide::smallest).collect::<Vec<_>>();
    let [before, after] = [rows(&first.wide), rows(&last.wide)];
    if before != after {
        return Err(format!("the original finds other gaps after the reversals\n before {before:?}\n after  {after:?}"));
    }
    Ok(())
}

/// Warnings differ only in the end of a marked road.
fn warnings(map: &Tables, [first, last]: [&Found; 2], set: &[u32]) -> Result<(), String> {
    let marked = |name: &str| map.roads.chunks(ROAD).zip(set).any(|(r, &s)| s == 1 && map.stand_in(r[0], r[1]) == name);
    let turned: Vec<_> = first.repaired.warnings.iter().cloned().map(|(j, r, e)| if marked(&r) { (j, r, 1 - e) } else { (j, r, e) }).collect();
    if turned == last.repaired.warnings {
        Ok(())
    } else {
        Err("warnings differ in more than the end of a marked road".into())
    }
}
