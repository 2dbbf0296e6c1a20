//! This library, run on the tables' maps, with answers in the form of the original's.
use crate::calls;
use crate::original::{Connection, GapRow, Lists, Repaired, Target};
use crate::tables::{Tables, CONNECTION, GAP, JUNCTION, LANE, ROAD};

fn target(t: &Tables, at: usize) -> Target {
    let w = &t.roads[at..at + 7];
    (w[0] == 1).then(|| (w[1], t.stand_in(w[2], w[3]), w[4], w[5], w[6]))
}

/// Repair by this library: the tables that it wrote, and what they say.
pub fn repair(t: &Tables) -> (Tables, Repaired) {
    let long = [t.roads.len() + 1, t.junctions.len() + 1, 2 * t.connections.len() + 9, 2 * t.pairs.len() + 9, 4 * t.connections.len() + 3];
    let out = calls::repair(t, long);
    let [roads, junctions, connections, pairs, warnings]: [Vec<u32>; 5] = out.contents(&calls::REPAIR_WIDTHS).try_into().unwrap();
    let m = Tables { roads, junctions, connections, pairs, ..t.clone() };
    let mut found = Repaired::default();
    for r in 0..Tables::rows(&m.roads, ROAD) {
        assert_eq!((m.roads[r * ROAD + 2], m.roads[r * ROAD + 3]), (t.roads[r * ROAD + 2], t.roads[r * ROAD + 3]));
        found.roads.push((m.stand_in(m.roads[r * ROAD], m.roads[r * ROAD + 1]), target(&m, r * ROAD + 4), target(&m, r * ROAD + 11)));
    }
    for j in m.junctions.chunks(JUNCTION) {
        let cs = &m.connections[j[3] as usize * CONNECTION..(j[3] + j[4]) as usize * CONNECTION];
        found.junctions.push(
            cs.chunks(CONNECTION)
                .map(|c| -> Connection {
                    let ps = &m.pairs[c[5] as usize * 2..(c[5] + c[6]) as usize * 2];
                    (m.stand_in(c[0], c[1]), m.stand_in(c[2], c[3]), c[4], ps.chunks(2).map(|p| (p[0], p[1])).collect())
                })
                .collect(),
        );
    }
    for w in warnings.chunks(4) {
        assert_eq!(w[0], 3);
        let (j, r) = (w[1] as usize * JUNCTION, w[2] as usize * ROAD);
        found.warnings.push((m.stand_in(m.junctions[j], m.junctions[j + 1]), m.stand_in(m.roads[r], m.roads[r + 1]), w[3]));
    }
    (m, found)
}

/// Succession by this library: offsets and identities, successors first.
fn succession(m: &Tables) -> [Vec<u32>; 4] {
    let n = Tables::rows(&m.lanes, LANE);
    let ids = 2 * m.lanes.len() + 2 * m.pairs.len() + 5;
    calls::succession(m, [n + 2, ids, n + 3, ids]).contents(&calls::LIST_WIDTHS).try_into().unwrap()
}

/// The lists, lane by lane.
fn cut([so, si, po, pi]: &[Vec<u32>; 4]) -> Lists {
    let cut = |o: &[u32], i: &[u32]| o.windows(2).map(|w| i[w[0] as usize..w[1] as usize].to_vec()).collect::<Vec<_>>();
    Lists { successors: cut(so, si), predecessors: cut(po, pi) }
}

/// Succession by this library, on the tables as they are.
pub fn lists(m: &Tables) -> Lists {
    cut(&succession(m))
}

/// Succession and the gap check by this library, on repaired tables.
pub fn lists_and_gaps(m: &Tables) -> (Lists, Vec<GapRow>) {
    let packed = succession(m);
    let [so, si, ..] = &packed;
    let gaps = calls::gaps(m, so, si, GAP * si.len() + 3).contents(&[GAP]).remove(0);
    (cut(&packed), gaps.chunks(GAP).map(|r| r.try_into().unwrap()).collect())
}
