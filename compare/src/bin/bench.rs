//! The calls beside the original on the same maps in one run, best of many; root and distance beside f32::sqrt and gaps.rs.
use compare::calls;
use compare::original;
use compare::raw::{document, Raw};
use compare::readings::{connections_in, targets_in};
use compare::tables::{Dice, Tables, ABSENT, CONNECTION, EDGE, GAP, JUNCTION, LANE, PAIR, ROAD};
use std::hint::black_box;
use std::time::Instant;

/// A town: in each group of eight roads four arms meet at a junction, and four roads connect them. Two sections a road, five lanes a section.
fn town(roads: usize, lanes: usize) -> Tables {
    let mut t = Tables::default();
    let mut dice = Dice::new(5);
    let name = |t: &mut Tables, s: String| {
        let at = t.text.len() as u32;
        t.text.extend(s.bytes());
        (at, s.len() as u32)
    };
    let road: Vec<(u32, u32)> = (0..roads).map(|r| name(&mut t, format!("road{r}"))).collect();
    let junction: Vec<(u32, u32)> = (0..roads / 8).map(|j| name(&mut t, format!("junction{j}"))).collect();
    let to_road = |n: (u32, u32), contact: u32| [1, 0, n.0, n.1, contact, 1, 0];
    for r in 0..roads {
        let (j, k) = (r / 8, r % 8);
        let (a, b) = (road[8 * j + k % 4], road[8 * j + (k + 1) % 4]);
        let (inside, from, to) = if k < 4 {
            // an arm: from the next group's arm to the junction; one in eight leaves the junction out
            let next = road[(8 * (j + 1) + k) % roads];
            let end = if dice.one_in(8) { [0; 7] } else { [1, 1, junction[j].0, junction[j].1, 0, 0, 0] };
            ((ABSENT, 0), to_road(next, 0), end)
        } else {
            (junction[j], to_road(a, 1), to_road(b, 1))
        };
        t.roads.extend([road[r].0, road[r].1, inside.0, inside.1]);
        t.roads.extend(from);
        t.roads.extend(to);
        t.roads.extend([2 * r as u32, 2]);
        t.sections.extend([0, 1]);
    }
    for (j, n) in junction.iter().enumerate() {
        let first = (t.connections.len() / CONNECTION) as u32;
        for k in 0..4 {
            for (from, to, contact) in [(k, 4 + k, 0u32), ((k + 1) % 4, 4 + k, 1)] {
                let (a, b) = (road[8 * j + from], road[8 * j + to]);
                let begin = (t.pairs.len() / PAIR) as u32;
                for l in 1..6u32 {
                    t.pairs.extend([l.wrapping_neg(), if contact == 0 { l.wrapping_neg() } else { l }]);
                }
                t.connections.extend([a.0, a.1, b.0, b.1, contact, begin, 5]);
            }
        }
        t.junctions.extend([n.0, n.1, 0, first, 8]);
    }
    let more = lanes - 10 * roads;
    for r in 0..roads {
        for s in 0..2 {
            for l in 1..=(5 + u32::from(s == 0 && r < more)) {
                let id = (t.lanes.len() / LANE) as u32;
                let way = if dice.one_in(10) { 2 } else { 0 };
                let number = l.wrapping_neg();
                t.lanes.extend([id, road[r].0, road[r].1, s, number, way, 1, number, 1, number]);
                let x = dice.below(1000) as f32;
                for e in 0..2 {
                    for side in 0..2 {
                        t.edges.extend([x + e as f32 * 30.0 + dice.below(3) as f32 * 0.06, l as f32 * 3.5 + side as f32 * 3.5, 0.0]);
                    }
                }
            }
        }
    }
    t
}

/// The same town with one junction that has all connections.
fn one_junction(mut t: Tables) -> Tables {
    let name = [t.junctions[0], t.junctions[1]];
    let all = (t.connections.len() / CONNECTION) as u32;
    t.junctions = vec![name[0], name[1], 0, 0, all];
    for r in t.roads.chunks_mut(ROAD) {
        if r[2..4] != [ABSENT, 0] {
            r[2..4].copy_from_slice(&name);
        }
        if r[11..13] == [1, 1] {
            r[13..15].copy_from_slice(&name);
        }
    }
    t
}

/// The joint that an end of a lane is at.
fn joint(joints: &mut [usize], mut end: usize) -> usize {
    while joints[end] != end {
        joints[end] = joints[joints[end]];
        end = joints[end];
    }
    end
}

/// The same map with lanes that meet, as the lanes of real maps do: the ends that a link joins lie along one line of 3.5 m, each
/// coordinate up to 1 cm off either way. A two-way lane is left by its end and entered by its start.
fn meeting(t: &Tables, offsets: &[u32], ids: &[u32]) -> Tables {
    let n = t.lanes.len() / LANE;
    let way = |lane: usize| t.lanes[lane * LANE + 5];
    let mut joints: Vec<usize> = (0..2 * n).collect();
    for lane in 0..n {
        for &next in &ids[offsets[lane] as usize..offsets[lane + 1] as usize] {
            let next = next as usize; // an identity is a row here
            let exit = joint(&mut joints, 2 * lane + usize::from(way(lane) != 1));
            let entry = joint(&mut joints, 2 * next + usize::from(way(next) == 1));
            joints[exit] = entry;
        }
    }
    let mut dice = Dice::new(6);
    let lines: Vec<[f32; 6]> = (0..2 * n).map(|_| line(3.5, &mut dice)).collect();
    let mut near = |x: f32| x + (dice.below(2001) as f32 - 1000.0) * 1.0e-5;
    let edges = (0..2 * n).flat_map(|end| lines[joint(&mut joints, end)].map(&mut near)).collect();
    Tables { edges, ..t.clone() }
}

/// The least seconds of many runs.
fn best(times: usize, mut run: impl FnMut() -> f64) -> f64 {
    (0..times).map(|_| run()).fold(f64::INFINITY, f64::min)
}

fn clocked<T>(run: impl FnOnce() -> T) -> f64 {
    let clock = Instant::now();
    black_box(run());
    clock.elapsed().as_secs_f64()
}

/// The repaired tables, the successors' offsets and identities, and the seconds of repair and succession of this library.
fn linked(t: &Tables, times: usize) -> (Tables, [Vec<u32>; 2], [f64; 2]) {
    let n = t.lanes.len() / LANE;
    let mut out = calls::Buffers::new([t.roads.len(), t.junctions.len(), 2 * t.connections.len(), 2 * t.pairs.len(), 4 * t.connections.len()]);
    let repair = best(times, || clocked(|| assert_eq!(out.repair(t), 0)));
    let [roads, junctions, connections, pairs, _]: [Vec<u32>; 5] = out.contents(&calls::REPAIR_WIDTHS).try_into().unwrap();
    let m = Tables { roads, junctions, connections, pairs, ..t.clone() };
    let mut out = calls::Buffers::new([n + 1, 131_072, n + 1, 131_072]);
    let lists = best(times, || clocked(|| assert_eq!(out.succession(&m), 0)));
    let [offsets, ids, _, _]: [Vec<u32>; 4] = out.contents(&calls::LIST_WIDTHS).try_into().unwrap();
    (m, [offsets, ids], [repair, lists])
}

/// Repair, succession, gap check and reversal of this library, in seconds, and how many gap rows there were.
fn ours(t: &Tables, times: usize) -> ([f64; 4], usize) {
    let n = t.lanes.len() / LANE;
    let (m, [offsets, ids], [repair, lists]) = linked(t, times);
    let mut out = calls::Buffers::new([GAP * ids.len()]);
    let check = best(times, || clocked(|| assert_eq!(out.gaps(&m, &offsets, &ids), 0)));
    let rows = out.written[0] as usize;
    let marks: Vec<u32> = (0..t.roads.len() / ROAD).map(|r| (r % 2) as u32).collect();
    let mut out = calls::Buffers::new([t.roads.len(), t.sections.len(), t.connections.len(), t.pairs.len(), t.lanes.len()]);
    let mut edges = vec![0.0; n * EDGE];
    let turn = best(times, || clocked(|| assert_eq!(out.reverse(t, &marks, &mut edges), 0)));
    ([repair, lists, check, turn], rows)
}

fn main() {
    let times: usize = std::env::args().nth(1).and_then(|a| a.parse().ok()).unwrap_or(200);
    let mut totals = Vec::new();
    println!("| map | call | this library, us | original, us | ratio |");
    println!("|---|---|---:|---:|---:|");
    for (roads, lanes, joined) in [(400, 4_000, false), (1_600, 16_384, false), (1_600, 16_384, true)] {
        let t = if joined { one_junction(town(roads, lanes)) } else { town(roads, lanes) };
        assert_eq!((t.lanes.len() / LANE, t.junctions.len() / JUNCTION), (lanes, if joined { 1 } else { roads / 8 }));
        let map = format!("{roads} roads, {lanes} lanes{}", if joined { ", one junction" } else { "" });
        let (a, rows) = ours(&t, times);
        let mut b = [f64::INFINITY; 3];
        for _ in 0..times.min(if joined { 5 } else { 60 }) {
            let (s, gaps) = original::timed(original::read(&t));
            assert_eq!(gaps, rows, "the two find other gaps");
            (0..3).for_each(|k| b[k] = b[k].min(s[k]));
        }
        let us = |s: f64| format!("{:.1}", s * 1e6);
        for (k, call) in ["repair", "succession", "gap check"].iter().enumerate() {
            println!("| {map} | {call} | {} | {} | {:.2} |", us(a[k]), us(b[k]), a[k] / b[k]);
        }
        let (x, y) = (a[..3].iter().sum::<f64>(), b.iter().sum::<f64>());
        println!("| {map} | the three together | {} | {} | {:.2} |", us(x), us(y), x / y);
        println!("| {map} | reversal | {} | | |", us(a[3]));
        totals.push((x, y));
    }
    println!("\nFrom 4,000 to 16,384 lanes: this library {:.2} times, the original {:.2} times.", totals[1].0 / totals[0].0, totals[1].1 / totals[0].1);
    gap_checks(times);
    readings(times);
    geometry(times);
}

/// A map's targets, junctions and connections as a file has their attributes, with those spellings of start and end.
fn attributes(t: &Tables, contacts: [&str; 2]) -> Raw {
    let mut raw = Raw { text: t.text.clone(), ..Raw::default() };
    let mut word = |s: &str| {
        raw.text.extend(s.bytes());
        [(raw.text.len() - s.len()) as u32, s.len() as u32]
    };
    let (kinds, contacts, none) = (["road", "junction"].map(&mut word), contacts.map(&mut word), [ABSENT, 0]);
    for w in t.roads.chunks(ROAD).flat_map(|r| [&r[4..11], &r[11..18]]) {
        let names = if w[0] == 0 { [none; 4] } else { [kinds[w[1] as usize], [w[2], w[3]], contacts[w[4] as usize], none] };
        raw.targets.push(w[0]);
        raw.targets.extend(names.concat());
    }
    raw.links = t.pairs.iter().flat_map(|&n| word(&(n as i32).to_string())).collect();
    raw.junctions = t.junctions.chunks(JUNCTION).flat_map(|j| [[j[0], j[1]], none, none, [j[3], j[4]]].concat()).collect();
    let connection = |c: &[u32]| [none, none, [c[0], c[1]], [c[2], c[3]], none, contacts[c[4] as usize], [c[5], c[6]]].concat();
    raw.connections = t.connections.chunks(CONNECTION).flat_map(connection).collect();
    raw
}

/// Reading of the larger town's attributes beside `road_link` and the first half of `junctions` on a document that is parsed before, the two in turns.
fn readings(times: usize) {
    println!("\n| reading | rows | this library, us | original, us | ratio |\n|---|---:|---:|---:|---:|");
    let t = town(1_600, 16_384);
    for (spelled, contacts) in [("\"start\" and \"end\"", ["start", "end"]), ("\"Start\" and \"End\"", ["Start", "End"])] {
        let raw = attributes(&t, contacts);
        let text = document(&raw);
        let doc = roxmltree::Document::parse(&text).unwrap();
        let mut targets = calls::Buffers::new([raw.targets.len(); 2]);
        let mut junctions = calls::Buffers::new([raw.junctions.len(), raw.connections.len(), raw.links.len(), raw.connections.len()]);
        let mut least = [[f64::INFINITY; 2]; 2];
        for _ in 0..times {
            let a = [clocked(|| assert_eq!(targets.read_targets(&raw), 0)), clocked(|| targets_in(&doc))];
            let b = [clocked(|| assert_eq!(junctions.read_junctions(&raw), 0)), clocked(|| connections_in(&doc))];
            for (l, n) in least.iter_mut().flatten().zip([a, b].iter().flatten()) {
                *l = l.min(*n);
            }
        }
        let there = targets.contents(&calls::TARGET_WIDTHS)[0].chunks(7).filter(|w| w[0] == 1).count();
        let rows = [(there, targets_in(&doc)), (junctions.written[1] as usize, connections_in(&doc))];
        for ((what, (ours, theirs)), [a, b]) in ["targets", "connections"].into_iter().zip(rows).zip(least) {
            assert_eq!(ours, theirs, "the two read other {what}");
            println!("| {what}, {spelled} | {ours} | {:.1} | {:.1} | {:.2} |", a * 1e6, b * 1e6, a / b);
        }
    }
}

/// The same map with each lane's end drawn where its start is: all pairs of ends of a link between two-way lanes are equally near.
fn ends_alike(t: &Tables) -> Tables {
    let mut edges = t.edges.clone();
    edges.chunks_mut(EDGE).for_each(|lane| lane.copy_within(..EDGE / 2, EDGE / 2));
    Tables { edges, ..t.clone() }
}

/// The gap check alone, the two in turns: on towns of which nearly all lanes meet, on towns of which nearly none do, on the same with all lanes two-way,
/// and with all ends of a link equally near.
fn gap_checks(times: usize) {
    println!("\n| map | links | gaps | this library, us | original, us | ratio |\n|---|---:|---:|---:|---:|---:|");
    for (roads, lanes) in [(400, 4_000), (1_600, 16_384)] {
        let mut both = town(roads, lanes);
        let apart = linked(&both, 1);
        let meets = meeting(&apart.0, &apart.1[0], &apart.1[1]);
        both.lanes.chunks_mut(LANE).for_each(|lane| lane[5] = 2);
        let both = linked(&both, 1);
        let alike = ends_alike(&both.0);
        for (map, m, [offsets, ids], few) in [
            ("a town whose lanes meet", &meets, &apart.1, true),
            ("the town above", &apart.0, &apart.1, false),
            ("the town above, all lanes two-way", &both.0, &both.1, false),
            ("the same, both ends of a lane alike", &alike, &both.1, false),
        ] {
            let links = ids.len();
            let theirs = original::linked(m);
            let mut out = calls::Buffers::new([GAP * links]);
            let mut least = [f64::INFINITY; 2];
            for _ in 0..times {
                least[0] = least[0].min(clocked(|| assert_eq!(out.gaps(m, offsets, ids), 0)));
                least[1] = least[1].min(clocked(|| original::gap_count(&theirs)));
            }
            let gaps = out.written[0] as usize;
            assert_eq!(gaps, original::gap_count(&theirs), "the two find other gaps");
            assert!(if few { 100 * gaps < links } else { 10 * gaps > 9 * links }, "{gaps} gaps of {links} links");
            let [a, b] = least;
            println!("| {map}, {lanes} lanes | {links} | {gaps} | {:.1} | {:.1} | {:.2} |", a * 1e6, b * 1e6, a / b);
        }
    }
}

/// How many places the loops below go through: too many for a processor to learn their branches by heart.
const PLACES: usize = 65_536;

/// The seconds of calls that do not wait for each other. Bits are added up: a float would be put away and fetched around
/// each call, which takes longer than a root.
fn apart(call: impl Fn(usize) -> f32) -> f64 {
    clocked(|| (0..PLACES).fold(0u32, |sum, i| sum.wrapping_add(call(i).to_bits())))
}

/// The seconds of calls of which each waits for the last: its place is worked out with the last result, of which no bit is kept.
fn chained(call: impl Fn(usize) -> f32) -> f64 {
    let none = black_box(0);
    clocked(|| (0..PLACES).fold(0u32, |last, i| call(i + (last & none) as usize).to_bits()))
}

/// Two rows of the table. The three take turns, so that all meet the same machine.
fn rows(what: &str, times: usize, ours: impl Fn(usize) -> f32, theirs: impl Fn(usize) -> f32, empty: impl Fn(usize) -> f32) {
    let mut least = [[f64::INFINITY; 3]; 2];
    for _ in 0..times {
        let now = [[apart(&ours), apart(&theirs), apart(&empty)], [chained(&ours), chained(&theirs), chained(&empty)]];
        for (l, n) in least.iter_mut().flatten().zip(now.iter().flatten()) {
            *l = l.min(*n);
        }
    }
    for (calls, [a, b, c]) in ["apart", "in a chain"].iter().zip(least) {
        let ns = |s: f64| s * 1e9 / PLACES as f64;
        println!("| {what} | {calls} | {:.2} | {:.2} | {:.2} | {:.2} |", ns(a), ns(b), a / b, ns(c));
    }
}

fn roots(what: &str, times: usize, xs: &[f32]) {
    let nothing: fn(f32) -> f32 = black_box(|x| x);
    rows(what, times, |i| calls::root(xs[i]).1, |i| plain_sqrt(xs[i]), |i| nothing(xs[i]));
}

type Two = [[f32; 6]; 2];

/// The original is handed segments that stand ready, or segments that were stored just before. It answers the distance alone, or as this library does the
/// places u and v too.
fn distances(what: &str, times: usize, two: &[Two], ready: bool, places: bool) {
    let nothing: fn(&[f32; 6], &[f32; 6]) -> f32 = black_box(|a, _| a[0]);
    let ours = |i: usize| calls::distance(&two[i][0], &two[i][1])[0];
    let empty = |i: usize| nothing(&two[i][0], &two[i][1]);
    if ready {
        let theirs: Vec<[original::Segment; 2]> = two.iter().map(|t| [original::segment(&t[0]), original::segment(&t[1])]).collect();
        if places {
            rows(what, times, ours, |i| original::closest_in_place(&theirs[i][0], &theirs[i][1])[0], empty);
        } else {
            rows(what, times, ours, |i| original::distance_in_place(&theirs[i][0], &theirs[i][1]), empty);
        }
    } else {
        rows(what, times, ours, |i| original::distance(&two[i][0], &two[i][1]), empty);
    }
}

/// A level line of a length some kilometres from the origin, turned anyhow.
fn line(wide: f32, dice: &mut Dice) -> [f32; 6] {
    let (x, y, z) = (dice.below(100_000) as f32 * 0.05, dice.below(100_000) as f32 * 0.05, dice.below(1000) as f32 * 0.1);
    let turn = dice.below(6283) as f32 * 0.001;
    [x, y, z, x + turn.cos() * wide, y + turn.sin() * wide, z]
}

/// The lines across two lanes that meet: some metres long, some kilometres from the origin, up to a centimetre apart. One
/// lane in eight opens out of nothing, one in eight is half as wide.
fn lane_ends(dice: &mut Dice) -> Two {
    let (x, y, z) = (dice.below(100_000) as f32 * 0.05, dice.below(100_000) as f32 * 0.05, dice.below(1000) as f32 * 0.1);
    let (turn, wide) = (dice.below(6283) as f32 * 0.001, 2.5 + dice.below(150) as f32 * 0.01);
    let other = wide * dice.pick(&[0.0, 0.5, 1.0, 1.0, 1.0, 1.0, 1.0, 1.0]);
    let mut off = || (dice.below(11) as f32 - 5.0) * 0.001;
    let (c, s) = (turn.cos(), turn.sin());
    let (u, v) = (x + off(), y + off());
    [[x, y, z, x + c * wide, y + s * wide, z], [u, v, z, u + c * other, v + s * other, z]]
}

/// Root and distance beside Rust's, a call each.
fn geometry(times: usize) {
    let mut dice = Dice::new(9);
    println!("\n| | calls | this library, ns | Rust, ns | ratio | an empty call, ns |\n|---|---|---:|---:|---:|---:|");
    let mut many = |number: fn(&mut Dice) -> f32| -> Vec<f32> { (0..PLACES).map(|_| number(&mut dice)).collect() };
    roots("root, any number above zero", times, &many(|d| f32::from_bits((d.word() % 0x7f80_0000) as u32)));
    roots("root, 0 to 1000", times, &many(|d| d.below(1_000_000) as f32 * 0.001));
    let random: Vec<Two> = (0..PLACES).map(|_| [(); 2].map(|_| std::array::from_fn(|_| dice.below(1000) as f32 * 0.01))).collect();
    let lanes: Vec<Two> = (0..PLACES).map(|_| lane_ends(&mut dice)).collect();
    distances("distance, random", times, &random, true, false);
    distances("distance, lane ends", times, &lanes, true, false);
    distances("distance, lane ends, the Rust with u and v too", times, &lanes, true, true);
    distances("distance, one pair of lane ends again and again", times, &vec![lanes[0]; PLACES], true, false);
    distances("distance, lane ends, stored just before for the Rust", times, &lanes, false, false);
}

/// Called and not inlined, as this library's functions are.
#[inline(never)]
fn plain_sqrt(x: f32) -> f32 {
    x.sqrt()
}
