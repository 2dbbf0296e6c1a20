//! A map's rows as lines, in the words of the plain-text form, so that tests can be read.
use lanes::map::Tables;
use vorzhyket::sizes::{CONNECTION, JUNCTION, LANE, PAIR, ROAD};
use vorzhyket::ABSENT;

const ENDS: [&str; 2] = ["start", "end"];

fn name(t: &Tables, words: &[u32]) -> String {
    String::from_utf8_lossy(t.name(words)).into_owned()
}

fn target(t: &Tables, w: &[u32]) -> Option<String> {
    let (kind, end) = (["road", "junction"][w[1] as usize], ENDS[w[4] as usize]);
    let given = if w[5] == 1 { "" } else { "?" };
    let along = if w[6] == 1 { " along" } else { "" };
    (w[0] == 1).then(|| format!("{kind} {} {end}{given}{along}", name(t, &w[2..4])))
}

pub fn roads(t: &Tables) -> Vec<String> {
    let road = |r: &[u32]| {
        let inside = (r[2] != ABSENT).then(|| format!(" inside {}", name(t, &r[2..4])));
        let [from, to] = [("from", 4), ("to", 11)].map(|(word, at)| target(t, &r[at..at + 7]).map(|target| format!(" {word} {target}")));
        let sections: String = t.sections[r[18] as usize..][..r[19] as usize].iter().map(|s| format!(" {s}")).collect();
        [format!("road {}", name(t, &r[0..2])), inside.unwrap_or_default(), from.unwrap_or_default(), to.unwrap_or_default(), " sections".into(), sections]
            .concat()
    };
    t.roads.chunks(ROAD).map(road).collect()
}

/// Junctions, connections and pairs; each part begins where the one before it ends.
pub fn junctions(t: &Tables) -> Vec<String> {
    let (mut lines, mut connections, mut pairs) = (Vec::new(), 0, 0);
    for j in t.junctions.chunks(JUNCTION) {
        lines.push(format!("junction {} {}", name(t, &j[0..2]), ["common", "direct", "virtual"][j[2] as usize]));
        assert_eq!(j[3], connections);
        connections += j[4];
        for c in t.connections[j[3] as usize * CONNECTION..][..j[4] as usize * CONNECTION].chunks(CONNECTION) {
            lines.push(format!("connection {} {} {}", name(t, &c[0..2]), name(t, &c[2..4]), ENDS[c[4] as usize]));
            assert_eq!(c[5], pairs);
            pairs += c[6];
            let part = &t.pairs[c[5] as usize * PAIR..][..c[6] as usize * PAIR];
            lines.extend(part.chunks(PAIR).map(|p| format!("pair {} {}", p[0] as i32, p[1] as i32)));
        }
    }
    assert_eq!([connections as usize, pairs as usize], [t.connections.len() / CONNECTION, t.pairs.len() / PAIR]);
    lines
}

pub fn lanes(t: &Tables) -> Vec<String> {
    let lane = |l: &[u32]| {
        let [next, back] = [("next", 6), ("back", 8)].map(|(word, at)| if l[at] == 1 { format!(" {word} {}", l[at + 1] as i32) } else { String::new() });
        let way = ["forward", "backward", "both"][l[5] as usize];
        format!("lane {} {} {} {} {way}{next}{back}", l[0], name(t, &l[1..3]), l[3], l[4] as i32)
    };
    t.lanes.chunks(LANE).map(lane).collect()
}
