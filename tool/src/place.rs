//! Where a gap is: the places at which a lane's exit and its successor's entry come closest.
use crate::found::Gap;
use crate::map::{Map, Tables};
use crate::way::Way;
use vorzhyket::sizes::{EDGE, LANE};

/// A place on one of a lane's two edges.
#[derive(Clone, Debug, PartialEq)]
pub struct Place {
    /// Is it the edge at the lane's end, and not that at its start?
    pub at_end: bool,
    /// How far along the edge, from 0 at its first point to 1 at its second; and the same in metres.
    pub part: f32,
    pub metres: f64,
    /// x and y in metres, from 0, 0.
    pub at: [f64; 2],
}

/// The two places of a gap: on the lane's exit, and on the successor's entry.
#[derive(Clone, Debug, PartialEq)]
pub struct Places {
    pub exit: Place,
    pub entry: Place,
}

impl Places {
    /// The places of a gap; none where it is infinite, since an edge's coordinates are no numbers or too large.
    ///
    /// A row does not say its ends: they are an exit and an entry as far apart as the gap is wide, at its u and v (-0
    /// equals 0). Of two-way lanes several pairs can be so. Then the smallest x, then y, of the exit counts, then of the
    /// entry, and last the edges' coordinates: never start or end, which swap where a reference line is reversed.
    pub fn of(map: &Map, gap: &Gap) -> Option<Places> {
        let mut chosen = None;
        for [exit, entry] in pairs(&map.tables, gap)? {
            let edges = [edge(&map.tables, gap.lane, exit)?, edge(&map.tables, gap.successor, entry)?];
            let near = vorzhyket::distance(&edges[0], &edges[1]);
            if near.gap.is_finite() && (near.gap.to_bits(), near.u, near.v) == (gap.bits, gap.u, gap.v) {
                let [exit, entry] = [place(map, edges[0], exit, gap.u), place(map, edges[1], entry, gap.v)];
                let key = (exit.at, entry.at, edges);
                if chosen.as_ref().is_none_or(|(least, _)| key < *least) {
                    chosen = Some((key, Places { exit, entry }));
                }
            }
        }
        chosen.map(|(_, places)| places)
    }
}

/// The exits of a gap's lane with the entries of its successor, one to four pairs: is each at its lane's end?
fn pairs(t: &Tables, gap: &Gap) -> Option<impl Iterator<Item = [bool; 2]>> {
    let way = |row: usize| t.lanes.get(row * LANE + 5).map(|&word| Way::of(word));
    let (exits, entries) = (way(gap.lane)?.exits(), way(gap.successor)?.entries());
    Some(exits.iter().flat_map(move |&exit| entries.iter().map(move |&entry| [exit, entry])))
}

/// The two points of a lane at its end, or at its start.
fn edge(t: &Tables, row: usize, at_end: bool) -> Option<[f32; 6]> {
    let from = row * EDGE + if at_end { EDGE / 2 } else { 0 };
    t.edges.get(from..from + EDGE / 2)?.try_into().ok()
}

/// The place at that part of an edge. All of it is f64.
fn place(map: &Map, edge: [f32; 6], at_end: bool, part: f32) -> Place {
    let e = edge.map(f64::from);
    let (along, share) = ([e[3] - e[0], e[4] - e[1], e[5] - e[2]], f64::from(part));
    let length = along.iter().map(|c| c * c).sum::<f64>().sqrt();
    let at = [0, 1].map(|k| map.origin[k] + (e[k] + share * along[k]));
    Place { at_end, part, metres: share * length, at }
}

#[cfg(test)]
mod tests {
    use super::*;
    use crate::{form, found};

    /// A ring of two roads: their lanes run as said, and have these edges.
    fn ring(ways: [&str; 2], edges: [String; 2]) -> Map {
        let text = format!(
            "road a from road b end to road b start sections 0\nroad b from road a end to road a start sections 0\n\
             lane 1 a 0 -1 {} next -1 back -1\nedges {}\nlane 2 b 0 -1 {} next -1 back -1\nedges {}\n",
            ways[0], edges[0], ways[1], edges[1]
        );
        form::read(text.as_bytes()).expect("a map")
    }

    /// Random rings, flat and on a coarse grid, so that ends are often equally near, and their gaps.
    fn rings() -> impl Iterator<Item = (Map, Vec<Gap>)> {
        let mut seed = 1u32;
        let mut roll = move |n: u32| {
            seed = seed.wrapping_mul(1_664_525).wrapping_add(1_013_904_223);
            (seed >> 16) % n
        };
        (0..3000).map(move |_| {
            let ways = [0, 1].map(|_| ["forward", "backward", "both", "both"][roll(4) as usize]);
            let size = 3 + roll(4);
            let map = ring(ways, [0, 1].map(|_| (0..4).map(|_| format!(" {} {} 0", roll(size), roll(size))).collect()));
            let gaps = gaps(&map);
            (map, gaps)
        })
    }

    fn gaps(map: &Map) -> Vec<Gap> {
        found::find(&map.tables).expect("no refusal").gaps
    }

    /// How near the two lanes of a gap come at these ends.
    fn near(map: &Map, gap: &Gap, [exit, entry]: [bool; 2]) -> vorzhyket::Closest {
        let side = |row: usize, at_end: bool| edge(&map.tables, row, at_end).expect("an edge");
        vorzhyket::distance(&side(gap.lane, exit), &side(gap.successor, entry))
    }

    /// Whichever way lanes run, the two places are as far apart as the gap is wide, and are those of the two edges.
    #[test]
    fn as_far_apart_as_the_gap_is_wide() {
        let (mut n, mut ends) = (0, [[0; 2]; 2]);
        for (map, gaps) in rings() {
            for gap in gaps {
                let Places { exit, entry } = Places::of(&map, &gap).expect("a place");
                let apart = (exit.at[0] - entry.at[0]).hypot(exit.at[1] - entry.at[1]);
                assert!((apart - f64::from(f32::from_bits(gap.bits))).abs() < 1e-5, "{gap:?} {exit:?} {entry:?}");
                let near = near(&map, &gap, [exit.at_end, entry.at_end]);
                assert_eq!([near.u, near.v], [gap.u, gap.v], "{gap:?}");
                n += 1;
                ends[usize::from(exit.at_end)][usize::from(entry.at_end)] += 1;
            }
        }
        assert!(n > 1000 && ends.iter().flatten().all(|&n| n > 100), "{n} gaps, {ends:?}");
    }

    /// Reversal of either road, and of both, leaves the gaps and all that is shown of their places but start and end:
    /// these swap, unless the two are one.
    #[test]
    fn reversal_leaves_the_places() {
        let mut ties = [0; 3];
        for (map, before) in rings().filter(|(_, gaps)| !gaps.is_empty()) {
            for marks in [[1, 0], [0, 1], [1, 1]] {
                let tables = found::reverse(&map.tables, &marks, "reverse").expect("no refusal");
                let turned = Map { tables, ..map.clone() };
                assert_eq!(gaps(&turned), before);
                for gap in &before {
                    let [was, is] = [&map, &turned].map(|map| Places::of(map, gap).expect("a place"));
                    for (row, was, is) in [(gap.lane, was.exit, is.exit), (gap.successor, was.entry, is.entry)] {
                        let one = edge(&map.tables, row, false) == edge(&map.tables, row, true);
                        let at_end = if one { is.at_end } else { was.at_end != (marks[row] == 1) };
                        assert_eq!(is, Place { at_end, ..was }, "{gap:?}");
                    }
                }
            }
            // that other pairs of ends are as far apart: at another u, at this u and another v, at this u and v
            for gap in &before {
                let all = pairs(&map.tables, gap).expect("pairs").map(|ends| near(&map, gap, ends));
                let least = all.filter(|n| n.gap.to_bits() == gap.bits);
                let (same_u, others): (Vec<_>, Vec<_>) = least.partition(|n| n.u == gap.u);
                let same = same_u.iter().filter(|n| n.v == gap.v).count();
                let tied = [!others.is_empty(), same_u.len() > same, same > 1];
                ties = [0, 1, 2].map(|k| ties[k] + usize::from(tied[k]));
            }
        }
        assert!(ties.iter().all(|&n| n > 50), "ties by u, by v, and by neither: {ties:?}");
    }

    /// Of pairs alike in width, u and v the smallest x of the exit counts, then its y, then x and y of the entry; then
    /// that edge of two at one place which has the smaller coordinates.
    #[test]
    fn ends_that_are_alike() {
        let point = |x: i32, y: i32| format!("{x} {y} 0 {x} {y} 0");
        // which exit and which entry, and x and y of both; the same whichever is a lane's start and whichever its end
        let shown = |exits: [String; 2], entries: [String; 2]| {
            let places = [[0, 0], [0, 1], [1, 0], [1, 1]].map(|[a, b]| {
                let lane = |edges: &[String; 2], start: usize| format!("{} {}", edges[start], edges[1 - start]);
                let map = ring(["both", "both"], [lane(&exits, a), lane(&entries, b)]);
                let Places { exit, entry } = Places::of(&map, &gaps(&map)[0]).expect("a place");
                (usize::from(exit.at_end) ^ a, usize::from(entry.at_end) ^ b, exit.at, entry.at)
            });
            assert!(places.iter().all(|p| *p == places[0]), "{places:?}");
            places[0]
        };
        let (here, far) = (|| point(0, 0), || point(99, 99));
        assert_eq!(shown([point(3, 0), point(-3, 9)], [point(3, 5), point(-3, 4)]), (1, 1, [-3.0, 9.0], [-3.0, 4.0]));
        assert_eq!(shown([point(0, 3), point(0, -3)], [here(), far()]), (1, 0, [0.0, -3.0], [0.0, 0.0]));
        assert_eq!(shown([here(), far()], [point(3, 4), point(-5, 0)]), (0, 1, [0.0, 0.0], [-5.0, 0.0]));
        assert_eq!(shown([here(), far()], [point(3, 4), point(3, -4)]), (0, 1, [0.0, 0.0], [3.0, -4.0]));
        // nearest at their middles, 3, 4 and -3, -4: the places count before the first points
        let slanted = || ["-1 7 0 7 1 0", "1 -7 0 -7 -1 0"].map(String::from);
        assert_eq!(shown(slanted(), [here(), far()]), (1, 0, [-3.0, -4.0], [0.0, 0.0]));
        assert_eq!(shown([here(), far()], slanted()), (0, 1, [0.0, 0.0], [-3.0, -4.0]));
        // nearest at the first point of both
        let forked = ["5 0 0 9 3 0", "5 0 0 9 -3 0"].map(String::from);
        assert_eq!(shown(forked, [here(), far()]), (1, 0, [5.0, 0.0], [0.0, 0.0]));
    }

    #[test]
    fn gaps_that_the_map_does_not_have() {
        let edges = ["0 0 0 0 4 0 0 0 0 0 4 0", "1 1 2 1 1 -2 9 0 0 9 4 0"].map(String::from);
        let map = ring(["forward", "forward"], edges);
        let gap = Gap { lane: 0, successor: 1, bits: 1f32.to_bits(), u: 0.25, v: 0.5 };
        let places = Places::of(&map, &gap).map(|p| [(p.exit.metres, p.exit.at), (p.entry.metres, p.entry.at)]);
        assert_eq!(places, Some([(1.0, [0.0, 1.0]), (2.0, [1.0, 1.0])]));
        for bits in [f32::INFINITY, f32::NAN, 2.0].map(f32::to_bits) {
            assert_eq!(Places::of(&map, &Gap { bits, ..gap.clone() }), None);
        }
        assert_eq!(Places::of(&map, &Gap { u: 0.5, ..gap.clone() }), None);
        assert_eq!(Places::of(&map, &Gap { v: 0.25, ..gap.clone() }), None);
        assert_eq!(Places::of(&map, &Gap { successor: 2, ..gap.clone() }), None);
        let blind = Map { tables: Tables { edges: Vec::new(), ..map.tables }, ..map };
        assert_eq!(Places::of(&blind, &gap), None);
    }
}
