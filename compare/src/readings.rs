//! Attribute reading beside `road_link`, `lane_link`, the first half of `junctions`, and `road_length`.
use crate::calls::{self, UNTOUCHED};
use crate::damage::{judge, lengths as lengths_of, Tally};
use crate::original;
use crate::parse::links::{junctions, lane_link, road_link, ElemType, JunctionConn, LinkTarget, RoadInfo};
use crate::parse::Warning;
use crate::raw::{attributes, damage, of_odd_count, random, road_xml, xml, Raw, ALL, ROADS};
use crate::raw::{CONNECTION_CONTACT, RAW_CONNECTION, RAW_JUNCTION, RAW_LINK, RAW_TARGET, TARGET_CONTACT};
use crate::rules;
use crate::tables::{Dice, Tables, ABSENT, CONNECTION, JUNCTION, PAIR};
use std::collections::HashMap;

/// Where a row's number stands and there is none.
const NO_ROW: u32 = u32::MAX;

/// The two targets of each road, as `road_link` reads them.
fn road_links(raw: &Raw) -> Vec<[Option<LinkTarget>; 2]> {
    let links = |two: &[u32]| {
        let (p, s) = road_link(roxmltree::Document::parse(&road_xml(raw, two)).unwrap().root_element());
        [p, s]
    };
    raw.targets.chunks(2 * RAW_TARGET).map(links).collect()
}

/// How many targets the original reads from a document, for the benchmark.
pub fn targets_in(doc: &roxmltree::Document) -> usize {
    let ends = |(p, s): (Option<LinkTarget>, Option<LinkTarget>)| usize::from(p.is_some()) + usize::from(s.is_some());
    doc.root_element().children().filter(|n| n.has_tag_name("road")).map(|road| ends(road_link(road))).sum()
}

/// How many connections. It knows no roads, so that it repairs nothing.
pub fn connections_in(doc: &roxmltree::Document) -> usize {
    junctions(doc.root_element(), &mut HashMap::new()).0.values().map(Vec::len).sum()
}

/// The words that a target is, with its name as it was read. A contact is given where the original says so, but not for a loose contactPoint.
fn target_words(t: &LinkTarget, name: &[u32], loose: bool) -> [u32; 7] {
    let given = t.contact_given && !loose;
    [1, u32::from(t.elem == ElemType::Junction), name[0], name[1], u32::from(original::at_end(t.contact)), u32::from(given), u32::from(t.along)]
}

/// The targets and the warnings that reading writes.
fn read_targets(raw: &Raw) -> [Vec<u32>; 2] {
    calls::read_targets(raw, [raw.targets.len() + 3; 2]).contents(&calls::TARGET_WIDTHS).try_into().unwrap()
}

/// Row 4 for each target that the original has, where the contactPoint is loose.
fn loose_targets(raw: &Raw, theirs: &[[Option<LinkTarget>; 2]]) -> Vec<u32> {
    let mut rows = Vec::new();
    for (road, (ends, two)) in theirs.iter().zip(raw.targets.chunks(2 * RAW_TARGET)).enumerate() {
        for (end, (target, row)) in ends.iter().zip(two.chunks(RAW_TARGET)).enumerate() {
            if target.is_some() && raw.is_loose(&row[TARGET_CONTACT..][..2]) {
                rows.extend([4, NO_ROW, road as u32, end as u32]);
            }
        }
    }
    rows
}

/// The targets of `raw` beside those that the original reads from `theirs`: the same tables, or the same without their loose contactPoints.
fn targets(raw: &Raw, theirs: &Raw) -> Result<(), String> {
    let links = road_links(theirs);
    let rows = theirs.targets.chunks(RAW_TARGET);
    let words = |(t, r): (&Option<LinkTarget>, &[u32])| match t {
        Some(t) => target_words(t, &r[3..5], theirs.is_loose(&r[TARGET_CONTACT..][..2])),
        None => [0; 7],
    };
    agree("targets", read_targets(raw), [links.iter().flatten().zip(rows).flat_map(words).collect(), loose_targets(raw, &links)])
}

fn lanes(raw: &Raw) -> Result<(), String> {
    let mut expected = Vec::new();
    for r in raw.lanes.chunks(RAW_LINK) {
        let element = |tag: &str, k: usize| format!("<{tag}{}/>", attributes(raw, r, &[(k, "id")]));
        let xml = format!("<lane><link>{}{}</link></lane>", element("predecessor", 0), element("successor", 2));
        let doc = roxmltree::Document::parse(&xml).unwrap();
        let (p, s) = lane_link(doc.root_element());
        for n in [p, s] {
            expected.extend(n.map_or([0, 0], |n| [1, n as u32]));
        }
    }
    agree("lanes", calls::read_lanes(raw, expected.len() + 3).contents(&[4]), vec![expected])
}

fn agree<T: PartialEq + std::fmt::Debug>(what: &str, ours: T, theirs: T) -> Result<(), String> {
    if ours == theirs {
        Ok(())
    } else {
        Err(format!("reading {what}\n theirs {theirs:?}\n ours   {ours:?}"))
    }
}

/// The original's `junctions` over XML.
fn junctions_in(text: &str, mut roads: HashMap<String, RoadInfo>) -> (HashMap<String, Vec<JunctionConn>>, Vec<Warning>) {
    junctions(roxmltree::Document::parse(text).unwrap().root_element(), &mut roads)
}

/// What a warning row says: what the original says too, or row 4, which it does not have.
#[derive(Debug, PartialEq)]
enum Said {
    Theirs(Warning),
    Loose([u32; 3]),
}

/// The original's warnings among them.
fn theirs_of(all: &[Said]) -> Vec<&Warning> {
    all.iter().filter_map(|s| if let Said::Theirs(w) = s { Some(w) } else { None }).collect()
}

/// What a warning row of reading says.
fn said(raw: &Raw, w: &[u32]) -> Said {
    if w[0] == 4 {
        return Said::Loose([w[1], w[2], w[3]]);
    }
    let (j, c) = (&raw.junctions[w[1] as usize * RAW_JUNCTION..], &raw.connections[w[2] as usize * RAW_CONNECTION..]);
    let text = |n: &[u32]| raw.attribute(n).unwrap_or_default();
    let (incoming_road_id, junction_id, connection_id) = (text(&c[4..6]), text(&j[0..2]), text(&c[0..2]));
    if w[0] == 1 {
        return Said::Theirs(Warning::ConnectionDropped { incoming_road_id, junction_id, connection_id });
    }
    let l = &raw.links[w[3] as usize * RAW_LINK..];
    Said::Theirs(Warning::LaneLinkDropped { incoming_road_id, junction_id, connection_id, from: text(&l[0..2]), to: text(&l[2..4]) })
}

/// What reading has to say of a junction. The original reads each connection by itself: where it keeps one with a loose contactPoint there is row 4, then come
/// its own warnings.
fn owed(raw: &Raw, theirs: &Raw, j: usize) -> Vec<Said> {
    let mut all = Vec::new();
    let row = &raw.junctions[j * RAW_JUNCTION..];
    for c in row[6] as usize..(row[6] + row[7]) as usize {
        let (kept, warnings) = junctions_in(&xml(theirs, j..j + 1, c..c + 1), HashMap::new());
        if kept.values().any(|conns| !conns.is_empty()) && raw.is_loose(&raw.connections[c * RAW_CONNECTION + CONNECTION_CONTACT..][..2]) {
            all.push(Said::Loose([j as u32, c as u32, 0]));
        }
        all.extend(warnings.into_iter().map(Said::Theirs));
    }
    all
}

/// The tables that reading the junctions writes, and its warning rows.
fn read(raw: &Raw) -> [Vec<u32>; 4] {
    let long = [raw.junctions.len() + 2, raw.connections.len() + 2, raw.links.len() + 2, 4 * (raw.connections.len() + raw.links.len()) + 4];
    calls::read_junctions(raw, long).contents(&calls::READING_WIDTHS).try_into().unwrap()
}

/// The junctions of `raw` beside those that the original reads from `theirs`, as for targets.
fn read_junctions(raw: &Raw, theirs: &Raw) -> Result<(), String> {
    let [js, cs, ps, ws] = read(raw);
    let rows = raw.junctions.len() / RAW_JUNCTION;
    let kept: Vec<usize> = (0..rows).filter(|&j| raw.junctions[j * RAW_JUNCTION..][..2] != [ABSENT, 0]).collect();
    if js.len() != kept.len() * JUNCTION {
        return Err(format!("reading gives {} junctions for {}", js.len() / JUNCTION, kept.len()));
    }
    for (row, &j) in js.chunks(JUNCTION).zip(&kept) {
        let (found, _) = junctions_in(&xml(theirs, j..j + 1, ALL), HashMap::new());
        let expected: Vec<_> = found
            .values()
            .next()
            .unwrap()
            .iter()
            .map(|c| (c.incoming_road.clone(), c.connecting_road.clone(), u32::from(original::at_end(c.contact)), c.lane_links.clone()))
            .collect();
        let name = |n: &[u32]| raw.attribute(n).unwrap();
        let ours: Vec<_> = cs[row[3] as usize * CONNECTION..(row[3] + row[4]) as usize * CONNECTION]
            .chunks(CONNECTION)
            .map(|c| {
                (
                    name(&c[0..2]),
                    name(&c[2..4]),
                    c[4],
                    ps[2 * c[5] as usize..2 * (c[5] + c[6]) as usize].chunks(PAIR).map(|p| (p[0] as i32, p[1] as i32)).collect::<Vec<_>>(),
                )
            })
            .collect();
        let kind = raw.attribute(&raw.junctions[j * RAW_JUNCTION + 2..][..2]);
        let kind = match kind.as_deref() {
            Some("direct") => 1,
            Some("virtual") => 2,
            _ => 0,
        };
        agree("a junction", ours, expected)?;
        agree("a junction's name and kind", &row[..3], &[raw.junctions[j * RAW_JUNCTION], raw.junctions[j * RAW_JUNCTION + 1], kind])?;
    }
    let expected: Vec<Said> = (0..rows).flat_map(|j| owed(raw, theirs, j)).collect();
    agree("connections one by one", theirs_of(&expected), junctions_in(&xml(theirs, ALL, ALL), HashMap::new()).1.iter().collect())?;
    agree("warnings", ws.chunks(4).map(|w| said(raw, w)).collect(), expected)
}

/// The warnings of the original's `junctions` over the rows of junctions up to `end`, with roads from `road_link`.
fn chained(raw: &Raw, end: usize) -> Vec<Warning> {
    let road = |[predecessor, successor]: [Option<LinkTarget>; 2]| RoadInfo { sections: Vec::new(), junction: None, predecessor, successor };
    let roads = ROADS.iter().zip(road_links(raw)).map(|(name, ends)| (name.to_string(), road(ends))).collect();
    junctions_in(&xml(raw, 0..end, ALL), roads).1
}

/// Reading, then repair of roads that have the targets read, beside the whole of `junctions` over the tables without loose contactPoints: the warnings of the
/// three calls, the targets' first, then those of reading and of repair joined junction by junction.
fn whole(raw: &Raw, count: &mut Count) -> Result<(), String> {
    let ([targets, loose], [junction_rows, connections, pairs, ws]) = (read_targets(raw), read(raw));
    let mut t = Tables { text: [&raw.text[..], ROADS.concat().as_bytes()].concat(), junctions: junction_rows, connections, pairs, ..Tables::default() };
    for (road, two) in targets.chunks(14).enumerate() {
        t.roads.extend([(raw.text.len() + road) as u32, 1, ABSENT, 0]);
        t.roads.extend(two);
        t.roads.extend([0, 0]);
    }
    if rules::repair(&t) != 0 {
        return Err(format!("what reading wrote is refused by {}", rules::repair(&t)));
    }
    let long = [t.roads.len(), t.junctions.len(), 2 * t.connections.len(), 2 * t.pairs.len(), 4 * t.connections.len()];
    let repaired = calls::repair(&t, long).contents(&calls::REPAIR_WIDTHS).remove(4);
    let (strict, loosely) = raw.without_loose();
    let mut ours: Vec<Said> = loose.chunks(4).map(|w| said(raw, w)).collect();
    let mut expected: Vec<Said> = loose_targets(raw, &road_links(&strict)).chunks(4).map(|w| said(raw, w)).collect();
    let mut row = 0;
    for (j, r) in raw.junctions.chunks(RAW_JUNCTION).enumerate() {
        expected.extend(owed(raw, &strict, j));
        let known = theirs_of(&expected).len();
        expected.extend(chained(&strict, j + 1).drain(known..).map(Said::Theirs));
        ours.extend(ws.chunks(4).filter(|w| w[1] as usize == j).map(|w| said(raw, w)));
        let Some(junction_id) = raw.attribute(&r[..2]) else { continue };
        ours.extend(repaired.chunks(4).filter(|w| w[1] == row).map(|w| {
            let road_id = ROADS[w[2] as usize].to_string();
            Said::Theirs(Warning::JunctionLinkMissing { road_id, junction_id: junction_id.clone(), end: original::road_end(w[3]) })
        }));
        row += 1;
    }
    let all = raw.junctions.len() / RAW_JUNCTION;
    agree("junctions one by one", theirs_of(&expected), chained(&strict, all).iter().collect())?;
    let astray = theirs_of(&ours) != chained(raw, all).iter().collect::<Vec<_>>();
    let warned = ours.len() - theirs_of(&ours).len();
    agree("warnings, then repair", ours, expected)?;
    count.add([loosely, warned, loose.len() / 4, repaired.len() / 4], astray);
    Ok(())
}

/// How much the raw tables gave to compare.
#[derive(Default)]
pub struct Count {
    tables: usize,
    strict: usize,
    targets: usize,
    connections: usize,
    dropped: usize,
    repairs: usize,
    /// Tables whose loose contactPoints bring the original to other repairs.
    astray: usize,
    odd: usize,
}

impl Count {
    /// Tables with so many loose contactPoints, so many of them warned of, so many of these at targets, and so many links repaired.
    fn add(&mut self, [loose, warned, targets, repairs]: [usize; 4], astray: bool) {
        self.tables += 1;
        self.strict += usize::from(loose == 0);
        self.targets += targets;
        self.connections += warned - targets;
        self.dropped += loose - warned;
        self.repairs += repairs;
        self.astray += usize::from(astray);
    }
    pub fn print(&self) {
        println!(
            "  raw tables: {}, {} with no loose contactPoint; warned of {} at targets and {} at connections, not of {} at what is dropped; {} of odd count",
            self.tables, self.strict, self.targets, self.connections, self.dropped, self.odd
        );
        println!("  repair after reading: {} links; over the loose contactPoints the original repairs otherwise {} times", self.repairs, self.astray);
    }
    /// Has each kind come up?
    pub fn all_seen(&self) -> bool {
        [self.strict, self.targets, self.connections, self.dropped, self.repairs, self.astray, self.odd].iter().all(|&n| n > 0)
    }
}

/// The length check beside `road_length`.
fn lengths(dice: &mut Dice) -> Result<(), String> {
    let float = |dice: &mut Dice| match dice.below(12) {
        0 => f64::NAN,
        1 => f64::INFINITY,
        2 => f64::NEG_INFINITY,
        3 => -0.0,
        4 => f64::from_bits(dice.word().wrapping_mul(0x1_0001)),
        n => n as f64 * 10.0 + dice.pick(&[0.0, 0.01, -0.01, 0.009_999_999, 0.010_000_001]),
    };
    let n = dice.below(4);
    let starts: Vec<f64> = (0..n).map(|_| float(dice)).collect();
    let sizes: Vec<f64> = (0..n + usize::from(dice.one_in(6))).map(|_| float(dice)).collect();
    let length = match (starts.last(), sizes.last()) {
        (Some(a), Some(b)) if !dice.one_in(4) => a + b + dice.pick(&[0.0, 0.01, -0.01, 0.011, -0.011]),
        _ => float(dice),
    };
    let (answer, sum) = calls::length(&starts, &sizes, length);
    let (expected, left) = if starts.len() != sizes.len() {
        (16, f64::from_bits(u64::from(UNTOUCHED)))
    } else {
        match original::road_length(&starts, &sizes, length) {
            Some(sum) => (1, sum),
            None => (0, f64::from_bits(u64::from(UNTOUCHED))),
        }
    };
    if (answer, sum.to_bits()) == (expected, left.to_bits()) {
        Ok(())
    } else {
        Err(format!("length of {starts:?} {sizes:?} beside {length}: {answer} {sum}, theirs {expected} {left}"))
    }
}

/// The three calls on damaged raw tables.
fn damaged(map: &Raw, dice: &mut Dice, tally: &mut Tally, count: &mut Count) -> Result<(), String> {
    let mut raw = damage(map, dice);
    if dice.one_in(8) {
        raw = of_odd_count(&raw);
    }
    count.odd += usize::from(raw.targets.len() % (2 * RAW_TARGET) == RAW_TARGET);
    let long = 4 * (raw.targets.len() + raw.lanes.len() + raw.junctions.len() + raw.connections.len() + raw.links.len()) + 4;
    judge(
        "targets",
        rules::read_targets(&raw),
        || calls::read_targets(&raw, [long; 2]),
        &calls::TARGET_WIDTHS,
        |n| calls::read_targets(&raw, lengths_of(n)),
        dice,
        tally,
    )?;
    judge("lanes", rules::read_lanes(&raw), || calls::read_lanes(&raw, long), &[4], |n| calls::read_lanes(&raw, n[0]), dice, tally)?;
    judge(
        "junctions",
        rules::read_junctions(&raw),
        || calls::read_junctions(&raw, [long; 4]),
        &calls::READING_WIDTHS,
        |n| calls::read_junctions(&raw, lengths_of(n)),
        dice,
        tally,
    )
}

/// Reading beside the original, on the same tables and on those without their loose contactPoints.
pub fn beside(raw: &Raw) -> Result<(), String> {
    lanes(raw)?;
    [raw, &raw.without_loose().0].into_iter().try_for_each(|theirs| {
        targets(raw, theirs)?;
        read_junctions(raw, theirs)
    })
}

/// All of reading on one set of raw tables, and on a damaged copy.
pub fn run(dice: &mut Dice, tally: &mut Tally, count: &mut Count) -> Result<(), String> {
    let raw = random(dice);
    beside(&raw)?;
    whole(&raw, count)?;
    damaged(&raw, dice, tally, count)?;
    lengths(dice)
}
