//! The original, run on the tables' maps.
use crate::coords::Point;
use crate::parse::links::{junctions, resolve, Contact, ElemType, JunctionConn, LaneMeta, LinkTarget, RoadInfo, Topology};
use crate::parse::{link_gaps, RoadEnd, Warning};
use crate::tables::{Tables, ABSENT, CONNECTION, EDGE, GAP, JUNCTION, LANE, ROAD};
use crate::{Direction, Lane, LaneId};
use std::collections::HashMap;

/// A target in words but for its name, which is a stand-in: kind, name, contact, given, along.
pub type Target = Option<(u32, String, u32, u32, u32)>;

/// A connection: incoming, connecting, contact, pairs.
pub type Connection = (String, String, u32, Vec<(u32, u32)>);

#[derive(Debug, PartialEq, Default)]
pub struct Repaired {
    pub roads: Vec<(String, Target, Target)>,
    pub junctions: Vec<Vec<Connection>>,
    /// Junction name, road name, end.
    pub warnings: Vec<(String, String, u32)>,
}

/// Lane row, successor row, gap bits, u bits, v bits.
pub type GapRow = [u32; GAP];

#[derive(Debug, PartialEq, Default)]
pub struct Lists {
    pub successors: Vec<Vec<u32>>,
    pub predecessors: Vec<Vec<u32>>,
}

fn contact(c: Contact) -> u32 {
    u32::from(c == Contact::End)
}

/// Is a contact the end?
pub fn at_end(c: Contact) -> bool {
    c == Contact::End
}

/// The end of a road, by its word.
pub fn road_end(word: u32) -> RoadEnd {
    if word == 1 {
        RoadEnd::End
    } else {
        RoadEnd::Start
    }
}

/// The roads in the original's form.
fn roads(t: &Tables) -> HashMap<String, RoadInfo> {
    let name = |n: &[u32]| t.stand_in(n[0], n[1]);
    let target = |w: &[u32]| {
        (w[0] == 1).then(|| LinkTarget {
            elem: if w[1] == 1 { ElemType::Junction } else { ElemType::Road },
            id: name(&w[2..4]),
            contact: if w[4] == 1 { Contact::End } else { Contact::Start },
            contact_given: w[5] == 1,
            along: w[6] == 1,
        })
    };
    let mut out = HashMap::new();
    for r in 0..Tables::rows(&t.roads, ROAD) {
        let w = &t.roads[r * ROAD..(r + 1) * ROAD];
        let (first, count) = (w[18] as usize, w[19] as usize);
        out.insert(
            name(&w[0..2]),
            RoadInfo {
                sections: t.sections[first..first + count].iter().map(|&s| s as usize).collect(),
                junction: (w[2..4] != [ABSENT, 0]).then(|| name(&w[2..4])),
                predecessor: target(&w[4..11]),
                successor: target(&w[11..18]),
            },
        );
    }
    out
}

/// The junctions as XML.
fn xml(t: &Tables) -> String {
    let mut s = String::from("<OpenDRIVE>");
    for w in t.junctions.chunks(JUNCTION) {
        let kind = ["default", "direct", "virtual"][w[2] as usize];
        s.push_str(&format!("<junction id=\"{}\" type=\"{kind}\">", t.stand_in(w[0], w[1])));
        for c in w[3] as usize..(w[3] + w[4]) as usize {
            let c = &t.connections[c * CONNECTION..(c + 1) * CONNECTION];
            let to = if w[2] == 1 { "linkedRoad" } else { "connectingRoad" };
            let at = if c[4] == 1 { "end" } else { "start" };
            s.push_str(&format!("<connection id=\"0\" incomingRoad=\"{}\" {to}=\"{}\" contactPoint=\"{at}\">", t.stand_in(c[0], c[1]), t.stand_in(c[2], c[3])));
            for p in c[5] as usize..(c[5] + c[6]) as usize {
                s.push_str(&format!("<laneLink from=\"{}\" to=\"{}\"/>", t.pairs[2 * p] as i32, t.pairs[2 * p + 1] as i32));
            }
            s.push_str("</connection>");
        }
        s.push_str("</junction>");
    }
    s.push_str("</OpenDRIVE>");
    s
}

fn run(t: &Tables) -> (HashMap<String, RoadInfo>, HashMap<String, Vec<JunctionConn>>, Vec<Warning>) {
    let text = xml(t);
    let doc = roxmltree::Document::parse(&text).expect("the XML is well formed");
    let mut map = roads(t);
    let (conns, warnings) = junctions(doc.root_element(), &mut map);
    (map, conns, warnings)
}

/// Repair by the original's `junctions`. Each row's connections are seen by a run over the rows up to it, since of rows with one name only the last stays.
pub fn repair(t: &Tables) -> Repaired {
    let rows = Tables::rows(&t.junctions, JUNCTION);
    let (map, _, warnings) = run(t);
    let out = |x: &Option<LinkTarget>| {
        x.as_ref().map(|x| (u32::from(x.elem == ElemType::Junction), x.id.clone(), contact(x.contact), u32::from(x.contact_given), u32::from(x.along)))
    };
    let mut found = Repaired::default();
    for r in 0..Tables::rows(&t.roads, ROAD) {
        let id = t.stand_in(t.roads[r * ROAD], t.roads[r * ROAD + 1]);
        let info = &map[&id];
        found.roads.push((id, out(&info.predecessor), out(&info.successor)));
    }
    for j in 0..rows {
        let id = t.stand_in(t.junctions[j * JUNCTION], t.junctions[j * JUNCTION + 1]);
        let (_, conns, _) = run(&up_to(t, j));
        found.junctions.push(
            conns[&id]
                .iter()
                .map(|c| {
                    (c.incoming_road.clone(), c.connecting_road.clone(), contact(c.contact), c.lane_links.iter().map(|&(a, b)| (a as u32, b as u32)).collect())
                })
                .collect(),
        );
    }
    for w in warnings {
        let Warning::JunctionLinkMissing { road_id, junction_id, end } = w else { panic!("{w:?}") };
        found.warnings.push((junction_id, road_id, u32::from(end == RoadEnd::End)));
    }
    found
}

/// The map with the junction rows up to j. Virtual rows after it are known by their names alone, and stand first, where they hide nothing.
fn up_to(t: &Tables, j: usize) -> Tables {
    let mut cut = t.clone();
    cut.junctions = t.junctions.chunks(JUNCTION).skip(j + 1).filter(|w| w[2] == 2).flat_map(|w| [w[0], w[1], 2, 0, 0]).collect();
    cut.junctions.extend(&t.junctions[..(j + 1) * JUNCTION]);
    cut
}

fn direction(word: u32) -> Direction {
    match word {
        0 => Direction::Forward,
        1 => Direction::Backward,
        _ => Direction::Both,
    }
}

fn point(e: &[f32]) -> Point {
    Point::new(e[0], e[1], e[2])
}

fn lanes(t: &Tables) -> (Vec<Lane>, Vec<LaneMeta>) {
    let mut out = (Vec::new(), Vec::new());
    for l in 0..Tables::rows(&t.lanes, LANE) {
        let w = &t.lanes[l * LANE..(l + 1) * LANE];
        let e = &t.edges[l * EDGE..(l + 1) * EDGE];
        out.0.push(Lane {
            id: LaneId(w[0] as usize),
            direction: direction(w[5]),
            successors: Vec::new(),
            predecessors: Vec::new(),
            ends: [[point(&e[0..3]), point(&e[3..6])], [point(&e[6..9]), point(&e[9..12])]],
        });
        out.1.push(LaneMeta {
            id: LaneId(w[0] as usize),
            road: t.stand_in(w[1], w[2]),
            section: w[3] as usize,
            od_id: w[4] as i32,
            direction: direction(w[5]),
            succ_link: (w[6] == 1).then_some(w[7] as i32),
            pred_link: (w[8] == 1).then_some(w[9] as i32),
            heights: Vec::new(),
        });
    }
    out
}

/// A map's lanes with their lists, and what names them.
pub struct Linked {
    lanes: Vec<Lane>,
    metas: Vec<LaneMeta>,
}

impl Linked {
    fn lists(&self) -> Lists {
        let ids = |l: &[LaneId]| l.iter().map(|i| i.0 as u32).collect::<Vec<_>>();
        Lists { successors: self.lanes.iter().map(|l| ids(&l.successors)).collect(), predecessors: self.lanes.iter().map(|l| ids(&l.predecessors)).collect() }
    }
}

/// `resolve` on the tables' lanes, over those roads and junctions.
fn resolved(t: &Tables, roads: HashMap<String, RoadInfo>, junctions: HashMap<String, Vec<JunctionConn>>) -> Linked {
    let (mut lanes, metas) = lanes(t);
    let mut topo = Topology { roads, junctions, ..Topology::default() };
    for m in &metas {
        topo.registry.insert((m.road.clone(), m.section, m.od_id), m.id);
    }
    topo.metas = metas;
    resolve(&mut lanes, &topo);
    Linked { lanes, metas: topo.metas }
}

/// Repair, then `resolve`.
pub fn linked(t: &Tables) -> Linked {
    let (roads, conns, _) = run(t);
    resolved(t, roads, conns)
}

/// `resolve` with no repair before it: the lists of every lane.
pub fn lists_unrepaired(t: &Tables) -> Lists {
    resolved(t, roads(t), junction_rows(t).into_iter().map(|(id, _, row)| (id, row)).collect()).lists()
}

/// How many gap warnings `link_gaps` gives.
#[inline(never)]
pub fn gap_count(map: &Linked) -> usize {
    link_gaps(&map.lanes, &map.metas).len()
}

/// How far apart a pair of ends is, and where.
pub struct Near {
    pub distance: f32,
    pub places: [f32; 2],
    /// The square that the distance is the root of.
    pub square: f32,
}

/// A link that `link_gaps` warns of: lane row, successor row and gap bits, and the pairs of ends that the gap is the least of.
pub struct Wide {
    pub words: [u32; 3],
    pub pairs: Vec<Near>,
}

/// The pairs of ends by which a link can lead on, in the order of `link_gaps`.
fn pairs_of(lane: &Lane, to: &Lane) -> Vec<Near> {
    let near = |[[p, q], [r, s]]: [Segment; 2]| {
        let (distance, u, v) = crate::parse::gaps::closest_of(&[p, q], &[r, s]);
        let between = (p + (q - p) * u) - (r + (s - r) * v);
        Near { distance, places: [u, v], square: between.dot(between) }
    };
    crate::parse::gaps::pairs_of_ends(lane, to).into_iter().map(near).collect()
}

/// The original's own reading: the bits of the first least distance that is finite and of its places, with -0 as 0; of
/// infinity, 0, 0 where none is.
pub fn first_least(pairs: &[Near]) -> [u32; 3] {
    let mut least = [f32::INFINITY, 0.0, 0.0];
    for p in pairs {
        if p.distance < least[0] {
            least = [p.distance, p.places[0] + 0.0, p.places[1] + 0.0];
        }
    }
    least.map(f32::to_bits)
}

/// Repair, then `resolve`, then `link_gaps`: the lists of every lane, and the links with a gap.
pub fn lists_and_gaps(t: &Tables) -> (Lists, Vec<Wide>) {
    let found = linked(t);
    let lists = found.lists();
    let Linked { lanes, metas } = found;
    let row = |road: &str, section: usize, lane: i32| metas.iter().position(|m| m.road == road && m.section == section && m.od_id == lane).unwrap() as u32;
    let gaps = link_gaps(&lanes, &metas)
        .into_iter()
        .map(|w| {
            let Warning::LinkGap { road_id, section, lane, to_road_id, to_section, to_lane, gap } = w else { panic!("{w:?}") };
            let (from, to, bits) = (row(&road_id, section, lane), row(&to_road_id, to_section, to_lane), (gap as f32).to_bits());
            let pairs = pairs_of(&lanes[from as usize], &lanes[to as usize]);
            assert_eq!(bits, first_least(&pairs)[0], "`link_gaps` has another gap than the first least pair");
            Wide { words: [from, to, bits], pairs }
        })
        .collect();
    (lists, gaps)
}

/// A map in the original's form, read and not yet repaired.
pub struct Read {
    roads: HashMap<String, RoadInfo>,
    junctions: Vec<(String, u32, Vec<JunctionConn>)>,
    lanes: Vec<Lane>,
    metas: Vec<LaneMeta>,
}

/// The junction rows in the original's form: name, kind, connections.
fn junction_rows(t: &Tables) -> Vec<(String, u32, Vec<JunctionConn>)> {
    let number = |w: u32| w as i32;
    let connection = |c: &[u32]| JunctionConn {
        incoming_road: t.stand_in(c[0], c[1]),
        connecting_road: t.stand_in(c[2], c[3]),
        contact: if c[4] == 1 { Contact::End } else { Contact::Start },
        lane_links: t.pairs[2 * c[5] as usize..2 * (c[5] + c[6]) as usize].chunks(2).map(|p| (number(p[0]), number(p[1]))).collect(),
    };
    t.junctions
        .chunks(JUNCTION)
        .map(|j| {
            (
                t.stand_in(j[0], j[1]),
                j[2],
                t.connections[j[3] as usize * CONNECTION..(j[3] + j[4]) as usize * CONNECTION].chunks(CONNECTION).map(connection).collect(),
            )
        })
        .collect()
}

/// The tables' map in the original's form.
pub fn read(t: &Tables) -> Read {
    let (lanes, metas) = lanes(t);
    Read { roads: roads(t), junctions: junction_rows(t), lanes, metas }
}

/// The seconds of repair (without reading), `resolve` and `link_gaps`, and how many gap warnings there were.
pub fn timed(mut map: Read) -> ([f64; 3], usize) {
    let clock = std::time::Instant::now();
    let virtual_ids: Vec<String> = map.junctions.iter().filter(|j| j.1 == 2).map(|j| j.0.clone()).collect();
    for road in map.roads.values_mut() {
        if road.junction.as_ref().is_some_and(|j| virtual_ids.contains(j)) {
            for slot in [&mut road.predecessor, &mut road.successor] {
                if slot.as_ref().is_some_and(|t| t.along) {
                    *slot = None;
                }
            }
        }
    }
    let mut warnings = Vec::new();
    let mut conns = HashMap::new();
    for (id, kind, mut row) in map.junctions {
        crate::parse::links::repair_row(&id, kind, &mut row, &mut map.roads, &mut warnings);
        conns.insert(id, row);
    }
    let repair = clock.elapsed().as_secs_f64();
    let mut topo = Topology { roads: map.roads, junctions: conns, ..Topology::default() };
    for m in &map.metas {
        topo.registry.insert((m.road.clone(), m.section, m.od_id), m.id);
    }
    topo.metas = map.metas;
    let clock = std::time::Instant::now();
    resolve(&mut map.lanes, &topo);
    let lists = clock.elapsed().as_secs_f64();
    let clock = std::time::Instant::now();
    let gaps = link_gaps(&map.lanes, &topo.metas);
    let check = clock.elapsed().as_secs_f64();
    ([repair, lists, check], gaps.len())
}

/// A segment in the original's form.
pub type Segment = [Point; 2];

/// A segment of six coordinates.
pub fn segment(e: &[f32; 6]) -> Segment {
    [point(&e[0..3]), point(&e[3..6])]
}

/// The original's distance of two segments, built from their coordinates on the way.
#[inline(never)]
pub fn distance(first: &[f32; 6], second: &[f32; 6]) -> f32 {
    distance_in_place(&segment(first), &segment(second))
}

/// The original's distance of two segments that stand ready. Called and not inlined, as this library's is.
#[inline(never)]
pub fn distance_in_place(first: &Segment, second: &Segment) -> f32 {
    crate::parse::gaps::distance_of(first, second)
}

/// The original's distance of two segments, with the places u and v.
#[inline(never)]
pub fn closest(first: &[f32; 6], second: &[f32; 6]) -> [f32; 3] {
    closest_in_place(&segment(first), &segment(second))
}

/// The same of two segments that stand ready.
#[inline(never)]
pub fn closest_in_place(first: &Segment, second: &Segment) -> [f32; 3] {
    let (distance, u, v) = crate::parse::gaps::closest_of(first, second);
    [distance, u, v]
}

/// The original's length check: the sum that it reports.
pub fn road_length(starts: &[f64], lengths: &[f64], length: f64) -> Option<f64> {
    let geoms = starts.iter().zip(lengths).map(|(&s, &length)| crate::shim::Geom { s, length }).collect();
    match crate::parse::road_length(&crate::road::Road { od_id: String::new(), length, geoms }) {
        Some(Warning::RoadLengthMismatch { plan_view, .. }) => Some(plan_view),
        _ => None,
    }
}
