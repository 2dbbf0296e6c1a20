//! The refusals of documents 01 and 02, read once more and written plainly: what the library must answer on any tables.
use crate::raw::{Raw, RAW_CONNECTION, RAW_JUNCTION, RAW_LINK, RAW_TARGET};
use crate::tables::{Tables, ABSENT, CONNECTION, EDGE, JUNCTION, LANE, PAIR, ROAD};

const ROWS: usize = 16_384;
const LEAST: u32 = 0x8000_0000;

fn sized(length: usize, width: usize, limit: usize) -> bool {
    length % width == 0 && length / width <= limit
}

fn map_sized(t: &Tables, links: usize) -> bool {
    t.text.len() <= 1_048_576
        && sized(t.roads.len(), ROAD, ROWS)
        && t.sections.len() <= ROWS
        && sized(t.junctions.len(), JUNCTION, ROWS)
        && sized(t.connections.len(), CONNECTION, links)
        && sized(t.pairs.len(), PAIR, links)
}

fn placed(t: &Tables, n: &[u32]) -> bool {
    u64::from(n[0]) + u64::from(n[1]) <= t.text.len() as u64
}

fn target_worded(t: &Tables, w: &[u32]) -> bool {
    match w[0] {
        0 => w[1..7].iter().all(|&x| x == 0),
        1 => w[1] <= 1 && placed(t, &w[2..4]) && w[4] <= 1 && w[5] <= 1 && w[6] <= 1,
        _ => false,
    }
}

fn map_worded(t: &Tables) -> bool {
    t.roads
        .chunks(ROAD)
        .all(|r| placed(t, &r[0..2]) && (r[2..4] == [ABSENT, 0] || placed(t, &r[2..4])) && target_worded(t, &r[4..11]) && target_worded(t, &r[11..18]))
        && t.junctions.chunks(JUNCTION).all(|j| placed(t, &j[0..2]) && j[2] <= 2)
        && t.connections.chunks(CONNECTION).all(|c| placed(t, &c[0..2]) && placed(t, &c[2..4]) && c[4] <= 1)
}

fn lanes_worded(t: &Tables) -> bool {
    t.lanes.chunks(LANE).all(|l| placed(t, &l[1..3]) && l[5] <= 2 && [6, 8].iter().all(|&k| l[k] == 1 || (l[k] == 0 && l[k + 1] == 0)))
}

fn repeats<T: Ord>(keys: impl Iterator<Item = T>) -> bool {
    let mut all: Vec<T> = keys.collect();
    all.sort();
    all.windows(2).any(|w| w[0] == w[1])
}

/// Parts that follow one another from row 0 and end with the last row.
fn follow(parts: impl Iterator<Item = (u32, u32)>, rows: usize) -> bool {
    let mut at = 0u64;
    for (first, count) in parts {
        if u64::from(first) != at {
            return false;
        }
        at += u64::from(count);
    }
    at == rows as u64
}

fn sections_fit(t: &Tables) -> bool {
    follow(t.roads.chunks(ROAD).map(|r| (r[18], r[19])), t.sections.len())
        && t.roads.chunks(ROAD).all(|r| t.sections[r[18] as usize..(r[18] + r[19]) as usize].windows(2).all(|w| w[0] < w[1]))
}

fn links_fit(t: &Tables) -> bool {
    follow(t.junctions.chunks(JUNCTION).map(|j| (j[3], j[4])), t.connections.len() / CONNECTION)
        && follow(t.connections.chunks(CONNECTION).map(|c| (c[5], c[6])), t.pairs.len() / PAIR)
}

fn first(rules: &[(u32, &dyn Fn() -> bool)]) -> u32 {
    rules.iter().find(|(_, holds)| !holds()).map_or(0, |r| r.0)
}

/// 3, 4 and 5.
fn map_rules(t: &Tables) -> u32 {
    first(&[(3, &|| !repeats(t.roads.chunks(ROAD).map(|r| t.bytes(r[0], r[1])))), (4, &|| sections_fit(t)), (5, &|| links_fit(t))])
}

/// The row of the road of a name.
fn road_row(t: &Tables, n: &[u32]) -> Option<usize> {
    t.roads.chunks(ROAD).position(|r| t.bytes(r[0], r[1]) == t.bytes(n[0], n[1]))
}

/// 6, 7 and 8.
fn lane_rules(t: &Tables) -> u32 {
    first(&[
        (6, &|| !repeats(t.lanes.chunks(LANE).map(|l| l[0]))),
        (7, &|| {
            t.lanes.chunks(LANE).all(|l| {
                road_row(t, &l[1..3]).is_some_and(|r| {
                    let r = &t.roads[r * ROAD..];
                    t.sections[r[18] as usize..(r[18] + r[19]) as usize].contains(&l[3])
                })
            })
        }),
        (8, &|| !repeats(t.lanes.chunks(LANE).map(|l| (t.bytes(l[1], l[2]), l[3], l[4])))),
    ])
}

fn then(a: u32, b: impl FnOnce() -> u32) -> u32 {
    if a == 0 {
        b()
    } else {
        a
    }
}

/// Repair, but for 9.
pub fn repair(t: &Tables) -> u32 {
    then(first(&[(1, &|| map_sized(t, ROWS / 2)), (2, &|| map_worded(t))]), || map_rules(t))
}

/// Succession, but for 9.
pub fn succession(t: &Tables) -> u32 {
    let begin = first(&[(1, &|| map_sized(t, ROWS) && sized(t.lanes.len(), LANE, ROWS)), (2, &|| map_worded(t) && lanes_worded(t))]);
    then(then(begin, || map_rules(t)), || lane_rules(t))
}

fn with_edges(t: &Tables, more: bool) -> u32 {
    let begin = first(&[
        (1, &|| map_sized(t, ROWS) && sized(t.lanes.len(), LANE, ROWS) && sized(t.edges.len(), EDGE, ROWS) && more),
        (2, &|| map_worded(t) && lanes_worded(t)),
    ]);
    let tables = then(then(begin, || map_rules(t)), || lane_rules(t));
    then(tables, || if t.edges.len() / EDGE == t.lanes.len() / LANE { 0 } else { 10 })
}

/// The gap check, but for 9.
pub fn gaps(t: &Tables, offsets: &[u32], ids: &[u32]) -> u32 {
    then(with_edges(t, offsets.len() <= ROWS + 1 && ids.len() <= 131_072), || {
        let right = offsets.len() == t.lanes.len() / LANE + 1
            && offsets[0] == 0
            && offsets.windows(2).all(|w| w[0] <= w[1])
            && *offsets.last().unwrap() as usize == ids.len()
            && ids.iter().all(|i| t.lanes.chunks(LANE).any(|l| l[0] == *i));
        if right {
            0
        } else {
            11
        }
    })
}

/// Both ends of the road name one junction, and some row of that name is direct.
fn two_ended(t: &Tables, r: &[u32]) -> bool {
    let names = |w: &[u32]| (w[0] == 1 && w[1] == 1).then(|| t.bytes(w[2], w[3]).to_vec());
    let (a, b) = (names(&r[4..11]), names(&r[11..18]));
    a.is_some() && a == b && t.junctions.chunks(JUNCTION).any(|j| j[2] == 1 && Some(t.bytes(j[0], j[1]).to_vec()) == a)
}

/// Reversal, but for 9.
pub fn reverse(t: &Tables, marks: &[u32]) -> u32 {
    then(with_edges(t, true), || {
        first(&[
            (12, &|| marks.len() == t.roads.len() / ROAD && marks.iter().all(|&m| m <= 1)),
            (13, &|| t.pairs.iter().all(|&n| n != LEAST) && t.lanes.chunks(LANE).all(|l| [4, 7, 9].iter().all(|&k| l[k] != LEAST))),
            (14, &|| t.roads.chunks(ROAD).zip(marks).all(|(r, &m)| m == 0 || !two_ended(t, r))),
        ])
    })
}

/// A name of a raw row: absent, or in the text.
fn raw_placed(raw: &Raw, n: &[u32]) -> bool {
    n == [ABSENT, 0] || u64::from(n[0]) + u64::from(n[1]) <= raw.text.len() as u64
}

fn raw_names(raw: &Raw, table: &[u32], width: usize, from: usize, names: usize) -> bool {
    table.chunks(width).all(|r| r[from..from + 2 * names].chunks(2).all(|n| raw_placed(raw, n)))
}

fn raw_text(raw: &Raw) -> bool {
    raw.text.len() <= 1_048_576
}

/// Reading of targets, two to a road, but for 9.
pub fn read_targets(raw: &Raw) -> u32 {
    first(&[
        (1, &|| raw_text(raw) && sized(raw.targets.len(), RAW_TARGET, ROWS) && raw.targets.len() % (2 * RAW_TARGET) == 0),
        (2, &|| {
            raw_names(raw, &raw.targets, RAW_TARGET, 1, 4)
                && raw.targets.chunks(RAW_TARGET).all(|r| r[0] == 1 || (r[0] == 0 && r[1..].chunks(2).all(|n| n == [ABSENT, 0])))
        }),
    ])
}

/// Reading of lanes, but for 9.
pub fn read_lanes(raw: &Raw) -> u32 {
    first(&[(1, &|| raw_text(raw) && sized(raw.lanes.len(), RAW_LINK, ROWS)), (2, &|| raw_names(raw, &raw.lanes, RAW_LINK, 0, 2))])
}

/// Reading of junctions, but for 9.
pub fn read_junctions(raw: &Raw) -> u32 {
    first(&[
        (1, &|| {
            raw_text(raw)
                && sized(raw.junctions.len(), RAW_JUNCTION, ROWS)
                && sized(raw.connections.len(), RAW_CONNECTION, ROWS)
                && sized(raw.links.len(), RAW_LINK, ROWS)
        }),
        (2, &|| {
            raw_names(raw, &raw.junctions, RAW_JUNCTION, 0, 3)
                && raw_names(raw, &raw.connections, RAW_CONNECTION, 0, 6)
                && raw_names(raw, &raw.links, RAW_LINK, 0, 2)
        }),
        (5, &|| {
            follow(raw.junctions.chunks(RAW_JUNCTION).map(|j| (j[6], j[7])), raw.connections.len() / RAW_CONNECTION)
                && follow(raw.connections.chunks(RAW_CONNECTION).map(|c| (c[12], c[13])), raw.links.len() / RAW_LINK)
        }),
    ])
}
