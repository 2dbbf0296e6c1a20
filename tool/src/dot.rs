//! The lane graph for Graphviz: a node for each lane, an arrow for each link. A link that runs both ways is one arrow
//! with two heads.
use crate::found::Found;
use crate::map::Tables;
use vorzhyket::sizes::LANE;

/// `lanes dot`
pub fn graph(found: &Found) -> Vec<u8> {
    let mut out = b"digraph lanes {\n  rankdir=LR;\n  node [shape=box];\n".to_vec();
    for lane in found.repaired.lanes.chunks(LANE) {
        node(&found.repaired, lane, &mut out);
    }
    for (row, list) in found.successors.iter().enumerate() {
        for &other in list {
            arrow(found, row, other, &mut out);
        }
    }
    out.extend(b"}\n");
    out
}

fn node(t: &Tables, lane: &[u32], out: &mut Vec<u8>) {
    out.extend(format!("  {} [label=\"", lane[0]).into_bytes());
    for &b in t.name(&lane[1..3]) {
        if b == b'"' || b == b'\\' {
            out.push(b'\\');
        }
        out.push(b);
    }
    out.extend(format!("/{}/{}\"];\n", lane[3], lane[4] as i32).into_bytes());
}

/// Does the lane's list have the other? Lists ascend by identity.
fn lists(found: &Found, row: usize, other: usize) -> bool {
    let identity = |row: usize| found.repaired.lane(row)[0];
    found.successors[row].binary_search_by_key(&identity(other), |&r| identity(r)).is_ok()
}

/// The arrow of one link; none where the link back has it.
fn arrow(found: &Found, row: usize, other: usize, out: &mut Vec<u8>) {
    let (from, to) = (found.repaired.lane(row)[0], found.repaired.lane(other)[0]);
    let both = lists(found, other, row);
    if both && to < from {
        return;
    }
    let heads = if both && to != from { " [dir=both]" } else { "" };
    out.extend(format!("  {from} -> {to}{heads};\n").into_bytes());
}
