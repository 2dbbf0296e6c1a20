//! Document 01's reversal, read once more and written plainly: the tables of a map with its marked roads reversed.
use crate::tables::{Tables, CONNECTION, EDGE, LANE, ROAD};

/// The row of the road of a name.
fn road_row(t: &Tables, n: &[u32]) -> Option<usize> {
    t.roads.chunks(ROAD).position(|r| t.bytes(r[0], r[1]) == t.bytes(n[0], n[1]))
}

fn sections<'a>(t: &'a Tables, road: &[u32]) -> &'a [u32] {
    &t.sections[road[18] as usize..(road[18] + road[19]) as usize]
}

/// First + last - i.
fn renumbered(sections: &[u32], i: u32) -> u32 {
    (u64::from(sections[0]) + u64::from(sections[sections.len() - 1]) - u64::from(i)) as u32
}

pub fn reversed(t: &Tables, marks: &[u32]) -> Tables {
    let marked = |n: &[u32]| road_row(t, n).is_some_and(|r| marks[r] == 1);
    let turned = |n: u32, turn: bool| if turn { n.wrapping_neg() } else { n };
    let target = |w: &[u32]| {
        let mut w = w.to_vec();
        if w[0] == 1 && w[1] == 0 && marked(&w[2..4]) {
            w[4] = 1 - w[4];
        }
        w
    };
    let mut out = t.clone();
    for (r, road) in t.roads.chunks(ROAD).enumerate() {
        let (mut a, mut b) = (target(&road[4..11]), target(&road[11..18]));
        if marks[r] == 1 {
            std::mem::swap(&mut a, &mut b);
            let list = sections(t, road);
            for (k, &s) in list.iter().rev().enumerate() {
                out.sections[road[18] as usize + k] = renumbered(list, s);
            }
        }
        out.roads[r * ROAD + 4..r * ROAD + 11].copy_from_slice(&a);
        out.roads[r * ROAD + 11..r * ROAD + 18].copy_from_slice(&b);
    }
    for (k, c) in t.connections.chunks(CONNECTION).enumerate() {
        let (from, to) = (marked(&c[0..2]), marked(&c[2..4]));
        if to {
            out.connections[k * CONNECTION + 4] = 1 - c[4];
        }
        for p in c[5] as usize..(c[5] + c[6]) as usize {
            out.pairs[2 * p] = turned(t.pairs[2 * p], from);
            out.pairs[2 * p + 1] = turned(t.pairs[2 * p + 1], to);
        }
    }
    for (k, l) in t.lanes.chunks(LANE).enumerate() {
        let r = road_row(t, &l[1..3]).unwrap();
        let road = &t.roads[r * ROAD..(r + 1) * ROAD];
        let list = sections(t, road);
        // the road that the link at an end leads to is marked: its own road if a further section lies that way, else the one that the end's target names
        let leads = |further: bool, w: &[u32]| if further { marks[r] == 1 } else { w[0] == 1 && w[1] == 0 && marked(&w[2..4]) };
        let next = [l[6], turned(l[7], leads(list.iter().any(|&s| s > l[3]), &road[11..18]))];
        let back = [l[8], turned(l[9], leads(list.iter().any(|&s| s < l[3]), &road[4..11]))];
        let new = &mut out.lanes[k * LANE..(k + 1) * LANE];
        new[6..8].copy_from_slice(&next);
        new[8..10].copy_from_slice(&back);
        if marks[r] == 1 {
            new[3] = renumbered(list, l[3]);
            new[4] = l[4].wrapping_neg();
            new[5] = [1, 0, 2][l[5] as usize];
            new[6..8].copy_from_slice(&back);
            new[8..10].copy_from_slice(&next);
            out.edges[k * EDGE..(k + 1) * EDGE].rotate_left(EDGE / 2);
        }
    }
    out
}
