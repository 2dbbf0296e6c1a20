//! Maps with roads and junctions renamed, and with road and lane rows in another order, through the original and this library:
//! every identity keeps its lists, with repair and without, and gap rows are the same collection by identity.
use crate::both::{self, Found};
use crate::original::{Connection, GapRow, Lists, Repaired, Target, Wide};
use crate::rules;
use crate::tables::{stand_in, Dice, Tables, ABSENT, CONNECTION, EDGE, JUNCTION, LANE, ROAD};
use std::collections::BTreeMap;
use std::fmt::Debug;

/// The kinds of names, as targets have them.
const ROADS: usize = 0;
const JUNCTIONS: usize = 1;

/// How much was changed, and what stayed.
#[derive(Default)]
pub struct Count {
    maps: usize,
    /// Names of roads, and of junctions, with another name.
    names: [usize; 2],
    /// Names of both that have two names then.
    parted: usize,
    /// Names of both that are one name then, and were two.
    met: usize,
    /// Rows at another place.
    roads: usize,
    lanes: usize,
    warnings: usize,
    lists: usize,
    /// Lists without repair, of maps that it changes.
    unrepaired: usize,
    gaps: usize,
    /// Maps with their gap rows in another order.
    reordered: usize,
}

impl Count {
    fn add(&mut self, change: &Change, [map, copy]: [&Tables; 2], [before, after]: [&Found; 2]) {
        let [roads, junctions] = &change.names;
        let elsewhere = |rows: &[usize]| rows.iter().enumerate().filter(|&(k, &row)| k != row).count();
        self.maps += 1;
        for (count, names) in self.names.iter_mut().zip(&change.names) {
            *count += names.iter().filter(|(old, new)| **old != stand_in(new)).count();
        }
        self.parted += roads.iter().filter(|(old, new)| junctions.get(*old).is_some_and(|n| n != *new)).count();
        self.met += roads.iter().filter(|(old, new)| junctions.iter().any(|(o, n)| o != *old && n == *new)).count();
        self.roads += elsewhere(&change.roads);
        self.lanes += elsewhere(&change.lanes);
        self.warnings += after.repaired.warnings.len();
        self.lists += 2 * after.lists.successors.len();
        self.gaps += after.gaps.len();
        self.reordered += usize::from(named(map, &before.gaps) != named(copy, &after.gaps));
    }

    pub fn print(&self) {
        println!(
            "  renamed and reordered maps: {}, {} names of roads and {} of junctions, {} of both parted, {} of both met; {} roads and {} lanes at another row",
            self.maps, self.names[ROADS], self.names[JUNCTIONS], self.parted, self.met, self.roads, self.lanes
        );
        println!(
            "  the same on them: {} warnings, {} lists, {} more without repair where it changes a map, {} gap rows, on {} maps in another order",
            self.warnings, self.lists, self.unrepaired, self.gaps, self.reordered
        );
    }
}

/// Each name of a map that is not absent, with its kind.
fn each_name(t: &mut Tables, mut see: impl FnMut(usize, &mut [u32])) {
    for r in t.roads.chunks_mut(ROAD) {
        see(ROADS, &mut r[0..2]);
        if r[2..4] != [ABSENT, 0] {
            see(JUNCTIONS, &mut r[2..4]);
        }
        for target in r[4..18].chunks_mut(7).filter(|w| w[0] == 1) {
            see(target[1] as usize, &mut target[2..4]);
        }
    }
    t.junctions.chunks_mut(JUNCTION).for_each(|j| see(JUNCTIONS, &mut j[0..2]));
    t.connections.chunks_mut(CONNECTION).for_each(|c| c[0..4].chunks_mut(2).for_each(|n| see(ROADS, n)));
    t.lanes.chunks_mut(LANE).for_each(|l| see(ROADS, &mut l[1..3]));
}

/// Different names, of length 0 too, that begin alike or are not UTF-8.
fn fresh(many: usize, dice: &mut Dice) -> Vec<Vec<u8>> {
    let mut all = Vec::new();
    while all.len() < many {
        let size = dice.pick(&[0, 1, 1, 2, 2, 3, 5, 40]);
        let name: Vec<u8> = (0..size).map(|_| dice.pick(b"ab\0\xff")).collect();
        if !all.contains(&name) {
            all.push(name);
        }
    }
    all
}

/// A text in which those names stand, among other bytes, and all places of each, within others too.
fn text<'a>(names: impl Iterator<Item = &'a Vec<u8>>, dice: &mut Dice) -> (Vec<u8>, BTreeMap<&'a Vec<u8>, Vec<u32>>) {
    let (mut all, mut text) = (names.collect::<Vec<_>>(), Vec::new());
    for _ in 0..1 + dice.below(2) {
        dice.shuffle(&mut all);
        for n in &all {
            text.extend_from_slice(n);
            if dice.one_in(3) {
                text.push(dice.pick(b"abz\0\xff"));
            }
        }
    }
    let places = |n: &[u8]| (0..=text.len()).filter(|&at| text[at..].starts_with(n)).map(|at| at as u32).collect();
    let places = all.into_iter().map(|n| (n, places(n))).collect();
    (text, places)
}

/// New names and a new order.
struct Change {
    /// By kind, and by the stand-ins of the old names.
    names: [BTreeMap<String, Vec<u8>>; 2],
    /// The old rows in the new order.
    roads: Vec<usize>,
    lanes: Vec<usize>,
}

impl Change {
    /// For each kind names of its own: as they are, each other's, or new ones.
    fn random(t: &Tables, dice: &mut Dice) -> Self {
        let mut names = [BTreeMap::new(), BTreeMap::new()];
        each_name(&mut t.clone(), |kind, n| {
            names[kind].insert(t.stand_in(n[0], n[1]), t.bytes(n[0], n[1]).to_vec());
        });
        for names in &mut names {
            let mut new: Vec<Vec<u8>> = names.values().cloned().collect();
            match dice.below(6) {
                0 => (),
                1 | 2 => dice.shuffle(&mut new),
                _ => new = fresh(new.len(), dice),
            }
            names.values_mut().zip(new).for_each(|(name, n)| *name = n);
        }
        let mut order = |rows: usize| {
            let mut order: Vec<usize> = (0..rows).collect();
            dice.shuffle(&mut order);
            order
        };
        let (roads, lanes) = (order(Tables::rows(&t.roads, ROAD)), order(Tables::rows(&t.lanes, LANE)));
        Change { names, roads, lanes }
    }

    /// The map in the new order: roads with their sections, lanes with their edges.
    fn reordered(&self, t: &Tables) -> Tables {
        let mut out = Tables { roads: Vec::new(), sections: Vec::new(), lanes: Vec::new(), edges: Vec::new(), ..t.clone() };
        for &r in &self.roads {
            let row = &t.roads[r * ROAD..(r + 1) * ROAD];
            out.roads.extend(&row[..18]);
            out.roads.extend([out.sections.len() as u32, row[19]]);
            out.sections.extend(&t.sections[row[18] as usize..(row[18] + row[19]) as usize]);
        }
        for &l in &self.lanes {
            out.lanes.extend(&t.lanes[l * LANE..(l + 1) * LANE]);
            out.edges.extend(&t.edges[l * EDGE..(l + 1) * EDGE]);
        }
        out
    }

    /// The map with the new names, in a text of its own, each use at any place of its name.
    fn renamed(&self, t: &Tables, dice: &mut Dice) -> Tables {
        let (text, places) = text(self.names.iter().flat_map(BTreeMap::values), dice);
        let mut out = t.clone();
        each_name(&mut out, |kind, n| {
            let new = &self.names[kind][&t.stand_in(n[0], n[1])];
            n.copy_from_slice(&[dice.pick(&places[new]), new.len() as u32]);
        });
        Tables { text, ..out }
    }

    /// The stand-in of the new name.
    fn name(&self, kind: usize, old: &str) -> String {
        stand_in(&self.names[kind][old])
    }

    /// What repair has to find: the same with the new names, roads in the new order.
    fn repaired(&self, found: &Repaired) -> Repaired {
        let road = |old: &str| self.name(ROADS, old);
        let target = |t: &Target| t.clone().map(|(kind, name, contact, given, along)| (kind, self.name(kind as usize, &name), contact, given, along));
        let connection = |(from, to, contact, pairs): &Connection| (road(from), road(to), *contact, pairs.clone());
        Repaired {
            roads: self.roads.iter().map(|&r| &found.roads[r]).map(|(name, a, b)| (road(name), target(a), target(b))).collect(),
            junctions: found.junctions.iter().map(|j| j.iter().map(connection).collect()).collect(),
            warnings: found.warnings.iter().map(|(j, r, end)| (self.name(JUNCTIONS, j), road(r), *end)).collect(),
        }
    }

    /// What the repaired words have to say.
    fn words(&self, repaired: &Tables) -> (Tables, Vec<String>) {
        spelled(&self.reordered(repaired), |kind, old| self.name(kind, &old))
    }
}

/// The words of a map without text, edges and places of names, and the names by stand-ins, changed that way.
fn spelled(t: &Tables, changed: impl Fn(usize, String) -> String) -> (Tables, Vec<String>) {
    let (mut words, mut names) = (t.clone(), Vec::new());
    each_name(&mut words, |kind, n| {
        names.push(changed(kind, t.stand_in(n[0], n[1])));
        n.fill(0);
    });
    (Tables { text: Vec::new(), edges: Vec::new(), ..words }, names)
}

/// The lists of every identity, successors first.
fn by_identity<'a>(t: &Tables, lists: &'a Lists) -> BTreeMap<u32, [&'a Vec<u32>; 2]> {
    t.lanes.chunks(LANE).zip(lists.successors.iter().zip(&lists.predecessors)).map(|(l, (next, last))| (l[0], [next, last])).collect()
}

/// Gap rows with identities in place of lane rows, in order.
fn named(t: &Tables, gaps: &[GapRow]) -> Vec<GapRow> {
    let id = |row: u32| t.lanes[row as usize * LANE];
    gaps.iter().map(|&[lane, to, gap, u, v]| [id(lane), id(to), gap, u, v]).collect()
}

/// The same rows as a collection.
fn collected(mut rows: Vec<GapRow>) -> Vec<GapRow> {
    rows.sort();
    rows
}

fn same<T: PartialEq + Debug>(what: &str, expected: &T, found: &T) -> Result<(), String> {
    if expected == found {
        Ok(())
    } else {
        Err(format!("the copy's {what}\n expected {expected:?}\n found    {found:?}"))
    }
}

/// What is found on the copy is what was found on the map.
fn stays(change: &Change, [map, copy]: [&Tables; 2], [before, after]: [&Found; 2]) -> Result<(), String> {
    same("repair", &change.repaired(&before.repaired), &after.repaired)?;
    same("repaired words", &change.words(&before.tables), &spelled(&after.tables, |_, name| name))?;
    same("lists", &by_identity(map, &before.lists), &by_identity(copy, &after.lists))?;
    same("gap rows", &collected(named(map, &before.gaps)), &collected(named(copy, &after.gaps)))?;
    let first = |wide: &[Wide]| wide.iter().map(Wide::first).collect::<Vec<_>>();
    same("first least pairs", &collected(named(map, &first(&before.wide))), &collected(named(copy, &first(&after.wide))))
}

/// An admitted map, and what both found on it, beside a copy with other names and in another order.
pub fn run(map: &Tables, found: &Found, dice: &mut Dice, count: &mut Count) -> Result<(), String> {
    let change = Change::random(map, dice);
    let copy = change.renamed(&change.reordered(map), dice);
    same("refusals by repair and succession", &[0, 0], &[rules::repair(&copy), rules::succession(&copy)])?;
    let after = both::find(&copy)?;
    stays(&change, [map, &copy], [found, &after])?;
    count.add(&change, [map, &copy], [found, &after]);
    if (&found.tables.roads, &found.tables.connections) != (&map.roads, &map.connections) {
        let [before, after] = [both::unrepaired(map)?, both::unrepaired(&copy)?];
        same("lists without repair", &by_identity(map, &before), &by_identity(&copy, &after))?;
        count.unrepaired += 2 * after.successors.len();
    }
    Ok(())
}
