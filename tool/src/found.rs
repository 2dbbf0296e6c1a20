//! What the library finds in a map: its calls, one after the other.
use crate::map::Tables;
use std::collections::HashMap;
use vorzhyket::sizes::{CONNECTION, EDGE, GAP, LANE, MOST_IDENTITIES, PAIR, WARNING};
use vorzhyket::{ListOutputs, Lists, Refusal, RepairOutputs, ReversalOutputs, Side};

/// A link whose lanes do not meet: rows of lanes, the bits of its width, and how far along the lane's exit (u) and along
/// the successor's entry (v) they come closest, from 0 at an edge's first point to 1 at its second. `place` says where.
#[derive(Clone, Debug, PartialEq)]
pub struct Gap {
    pub lane: usize,
    pub successor: usize,
    pub bits: u32,
    pub u: f32,
    pub v: f32,
}

impl Gap {
    /// The gap of a row that the library wrote.
    fn of(row: &[u32]) -> Gap {
        Gap { lane: row[0] as usize, successor: row[1] as usize, bits: row[2], u: f32::from_bits(row[3]), v: f32::from_bits(row[4]) }
    }
}

/// The repaired map, its lists as rows of lanes in list order, and its gaps; none where the map has no edges.
#[derive(Clone, Debug, Default)]
pub struct Found {
    pub repaired: Tables,
    pub warnings: Vec<[u32; 4]>,
    pub successors: Vec<Vec<usize>>,
    pub predecessors: Vec<Vec<usize>>,
    pub gaps: Vec<Gap>,
}

/// A call that refused the map.
#[derive(Clone, Copy, Debug, PartialEq)]
pub struct Refused {
    pub call: &'static str,
    pub refusal: Refusal,
}

fn by(call: &'static str) -> impl Fn(Refusal) -> Refused {
    move |refusal| Refused { call, refusal }
}

/// Repairs a map: the repaired tables, and a warning for each road end.
pub fn repair(t: &Tables) -> Result<(Tables, Vec<[u32; 4]>), Refused> {
    // repair at most doubles connections and pairs, and warns at most once for each connection
    let mut out = t.clone();
    out.connections = vec![0; 2 * t.connections.len()];
    out.pairs = vec![0; 2 * t.pairs.len()];
    let mut warnings = vec![0; t.connections.len() / CONNECTION * WARNING];
    let outputs = RepairOutputs {
        roads: &mut out.roads,
        junctions: &mut out.junctions,
        connections: &mut out.connections,
        pairs: &mut out.pairs,
        warnings: &mut warnings,
    };
    let n = vorzhyket::repair(t.lent(), outputs).map_err(by("repair"))?;
    out.connections.truncate(n.connections * CONNECTION);
    out.pairs.truncate(n.pairs * PAIR);
    let warnings = warnings.chunks(WARNING).take(n.warnings).map(|w| [w[0], w[1], w[2], w[3]]).collect();
    Ok((out, warnings))
}

/// Repairs a map, lists its links and measures its gaps.
pub fn find(t: &Tables) -> Result<Found, Refused> {
    let (repaired, warnings) = repair(t)?;
    let packed = succession(&repaired)?;
    let gaps = gaps(&repaired, &packed)?;
    let rows: HashMap<u32, usize> = repaired.lanes.chunks(LANE).enumerate().map(|(row, l)| (l[0], row)).collect();
    let list = |row: usize, side: Side| vorzhyket::list(packed.lent(), row as u32, side).iter().map(|id| rows[id]).collect();
    let lists = |side: Side| (0..repaired.lanes.len() / LANE).map(|row| list(row, side)).collect();
    Ok(Found { successors: lists(Side::Onward), predecessors: lists(Side::Before), repaired, warnings, gaps })
}

/// The lists as the library writes them.
struct Packed {
    successor_offsets: Vec<u32>,
    successor_ids: Vec<u32>,
    predecessor_offsets: Vec<u32>,
    predecessor_ids: Vec<u32>,
}

impl Packed {
    fn lent(&self) -> Lists<'_> {
        Lists {
            successor_offsets: &self.successor_offsets,
            successor_ids: &self.successor_ids,
            predecessor_offsets: &self.predecessor_offsets,
            predecessor_ids: &self.predecessor_ids,
        }
    }
}

/// The lists of a map, which never have more than MOST_IDENTITIES entries (D14).
fn succession(t: &Tables) -> Result<Packed, Refused> {
    let offsets = || vec![0; t.lanes.len() / LANE + 1];
    let ids = || vec![0; MOST_IDENTITIES];
    let mut packed = Packed { successor_offsets: offsets(), successor_ids: ids(), predecessor_offsets: offsets(), predecessor_ids: ids() };
    let outputs = ListOutputs {
        successor_offsets: &mut packed.successor_offsets,
        successor_ids: &mut packed.successor_ids,
        predecessor_offsets: &mut packed.predecessor_offsets,
        predecessor_ids: &mut packed.predecessor_ids,
    };
    let n = vorzhyket::succession(t.lent(), &t.lanes, outputs).map_err(by("links"))?;
    packed.successor_ids.truncate(n.successor_ids);
    packed.predecessor_ids.truncate(n.predecessor_ids);
    Ok(packed)
}

/// The gaps of the lists' links.
fn gaps(t: &Tables, lists: &Packed) -> Result<Vec<Gap>, Refused> {
    if !t.has_edges() {
        return Ok(Vec::new());
    }
    let mut rows = vec![0; lists.successor_ids.len() * GAP];
    let n = vorzhyket::gaps(t.lent(), &t.lanes, &t.edges, &lists.successor_offsets, &lists.successor_ids, &mut rows).map_err(by("gaps"))?;
    Ok(rows.chunks(GAP).take(n).map(Gap::of).collect())
}

/// Reverses the reference lines of the marked roads, for the command `call`. A map without edges stays without.
pub fn reverse(t: &Tables, marks: &[u32], call: &'static str) -> Result<Tables, Refused> {
    let mut out = t.clone();
    let edges = if t.has_edges() { t.edges.clone() } else { vec![0.0; t.lanes.len() / LANE * EDGE] };
    out.edges = edges.clone();
    let outputs = ReversalOutputs {
        roads: &mut out.roads,
        sections: &mut out.sections,
        connections: &mut out.connections,
        pairs: &mut out.pairs,
        lanes: &mut out.lanes,
        edges: &mut out.edges,
    };
    vorzhyket::reverse(t.lent(), &t.lanes, &edges, marks, outputs).map_err(by(call))?;
    if !t.has_edges() {
        out.edges.clear();
    }
    Ok(out)
}
