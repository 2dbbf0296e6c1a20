//! Random maps that the rules admit: small and dense, so that names, numbers and places meet often.
use crate::tables::{Dice, Tables, ABSENT, CONNECTION, EDGE, JUNCTION, PAIR, ROAD};

/// Names of length 0, names that are not UTF-8, names that XML cannot carry, names that begin alike.
const NAMES: [&[u8]; 9] = [b"", b"a", b"b", b"ab", b"ba", &[0xff], &[0xff, b'a'], b"\0", b"b\""];

/// A text in which each name stands more than once, and the places of each.
fn text(dice: &mut Dice) -> (Vec<u8>, Vec<Vec<(u32, u32)>>) {
    let mut text = Vec::new();
    let mut places = vec![Vec::new(); NAMES.len()];
    for _ in 0..3 {
        for (i, n) in NAMES.iter().enumerate() {
            places[i].push((text.len() as u32, n.len() as u32));
            text.extend_from_slice(n);
            if dice.one_in(3) {
                text.push(b'z');
            }
        }
    }
    places[0].push((text.len() as u32, 0));
    (text, places)
}

fn float(dice: &mut Dice) -> f32 {
    match dice.below(24) {
        0 => f32::NAN,
        1 => f32::INFINITY,
        2 => f32::NEG_INFINITY,
        3 => -0.0,
        4 => f32::MAX,
        5 => f32::from_bits(1),
        6 => f32::from_bits(dice.word() as u32),
        7 => 0.1,
        8 => 0.100_000_01,
        n => (n as f32 - 16.0) * 0.025 + dice.below(3) as f32,
    }
}

/// The points across the lanes of half of the maps anew: each lane's on a coarse grid of its own height. There several pairs
/// of ends of two-way lanes are equally far apart, at other places, and places are -0; or nearly so, by a square that differs
/// where its root may not. Now and then a coordinate is one that no grid has.
pub fn on_a_grid(t: &mut Tables, dice: &mut Dice) {
    if dice.one_in(2) {
        return;
    }
    let (size, nearly) = (2 + dice.below(3), dice.one_in(3));
    for lane in t.edges.chunks_mut(EDGE) {
        let height = dice.below(3) as f32 * 0.5;
        for (k, x) in lane.iter_mut().enumerate() {
            *x = match dice.below(200) {
                0..=3 => float(dice),
                4..=9 => -0.0,
                _ if k % 3 == 2 => height,
                _ => (dice.below(size) as f32 - 1.0) * 0.5 + if nearly { dice.below(4) as f32 / 4096.0 } else { 0.0 },
            };
        }
    }
}

/// The points across the lanes of one in four maps anew: each edge runs along one slope, or straight off it from a
/// point beside it or above its top. All of these are equally near the slope, at places along it that differ, and at -0
/// or +0 of the edge that runs off.
pub fn on_a_slope(t: &mut Tables, dice: &mut Dice) {
    if !dice.one_in(4) {
        return;
    }
    for lane in t.edges.chunks_mut(EDGE) {
        let along = dice.one_in(2);
        for edge in lane.chunks_mut(EDGE / 2) {
            let [[x, y, z], [dx, dy, dz]] = if along != dice.one_in(8) {
                let (down, up) = ([[0.0, 1.0, 1.0], [0.0, -1.0, -1.0]], [[0.0; 3], [0.0, 1.0, 1.0]]);
                dice.pick(&[down, down, down, up])
            } else {
                let (down, beside) = if dice.one_in(4) { (-0.5, 0.0) } else { (dice.below(5) as f32 / 8.0, dice.pick(&[0.5, -0.5])) };
                [[0.0, 1.0 - down + beside, 1.0 - down - beside], [dice.pick(&[1.0, -1.0]), 0.0, 0.0]]
            };
            edge.copy_from_slice(&[x, y, z, x + dx, y + dy, z + dz]);
        }
    }
}

/// The points across the starts of the lanes of one in four maps anew: those across their ends, turned half round one
/// upright axis. Start and start are then as far apart as end and end, at the same places u and v, and elsewhere.
pub fn half_round(t: &mut Tables, dice: &mut Dice) {
    if !dice.one_in(4) {
        return;
    }
    let about = [dice.below(3) as f32 * 0.5, 9.0];
    for lane in t.edges.chunks_mut(EDGE) {
        let (start, end) = lane.split_at_mut(EDGE / 2);
        start.copy_from_slice(end);
        start.chunks_mut(3).for_each(|p| (0..2).for_each(|k| p[k] = about[k] - p[k]));
    }
}

/// What a random map is made with.
struct Maker<'a> {
    dice: &'a mut Dice,
    places: Vec<Vec<(u32, u32)>>,
    /// How many of the names are used.
    kinds: usize,
    /// Whether links mostly lead to junctions.
    junctions: bool,
    /// Whether lane numbers are mostly 1 and -1, so that links find lanes.
    narrow: bool,
}

impl Maker<'_> {
    fn name(&mut self, i: usize) -> (u32, u32) {
        let k = self.dice.below(self.places[i].len());
        self.places[i][k]
    }
    fn any(&mut self) -> (u32, u32) {
        let i = self.dice.below(self.kinds);
        self.name(i)
    }
    fn number(&mut self) -> u32 {
        if self.narrow && !self.dice.one_in(12) {
            return self.dice.pick(&[1, u32::MAX]);
        }
        match self.dice.below(60) {
            0 => 0x7fff_ffff,
            1 => 0x8000_0001,
            2 => 0x8000_0000,
            3 => 0,
            _ => self.dice.pick(&[1, 2, u32::MAX, u32::MAX - 1, 1, u32::MAX]),
        }
    }
    fn target(&mut self) -> [u32; 7] {
        if self.dice.one_in(4) {
            return [0; 7];
        }
        let n = self.any();
        let kind = u32::from(if self.junctions { !self.dice.one_in(3) } else { self.dice.one_in(3) });
        [1, kind, n.0, n.1, self.dice.below(2) as u32, u32::from(!self.dice.one_in(4)), u32::from(self.dice.one_in(5))]
    }
    fn road(&mut self, t: &mut Tables, i: usize) {
        let n = self.name(i);
        let junction = if self.dice.one_in(2) { (ABSENT, 0) } else { self.any() };
        let first = t.sections.len() as u32;
        let mut s = if self.dice.one_in(30) { u32::MAX - 8 } else { self.dice.below(3) as u32 };
        let count = if self.dice.one_in(12) { 0 } else { 1 + self.dice.below(3) };
        for _ in 0..count {
            t.sections.push(s);
            s += 1 + if self.dice.one_in(4) { self.dice.below(2) as u32 } else { 0 };
        }
        t.roads.extend([n.0, n.1, junction.0, junction.1]);
        t.roads.extend(self.target());
        t.roads.extend(self.target());
        t.roads.extend([first, count as u32]);
    }
    fn connection(&mut self, t: &mut Tables) {
        let (a, b) = (self.any(), self.any());
        let begin = Tables::rows(&t.pairs, PAIR) as u32;
        for _ in 0..self.dice.below(4) {
            let p = [self.number(), self.number()];
            t.pairs.extend(p);
            if self.dice.one_in(6) {
                t.pairs.extend(p);
            }
        }
        let pairs = Tables::rows(&t.pairs, PAIR) as u32 - begin;
        t.connections.extend([a.0, a.1, b.0, b.1, self.dice.below(2) as u32, begin, pairs]);
    }
    fn junction(&mut self, t: &mut Tables) {
        let n = self.any();
        let first = Tables::rows(&t.connections, CONNECTION) as u32;
        let count = self.dice.below(5) as u32;
        for _ in 0..count {
            self.connection(t);
        }
        let kind = self.dice.pick(&[0, 0, 0, 1, 1, 1, 2]);
        t.junctions.extend([n.0, n.1, kind, first, count]);
    }
    fn link(&mut self) -> [u32; 2] {
        if self.dice.one_in(6) {
            [0, 0]
        } else {
            [1, self.number()]
        }
    }
    fn lane(&mut self, t: &mut Tables, r: usize, s: u32, n: u32, id: u32) {
        // another place of the same name, where there is one
        let bytes = t.bytes(t.roads[r], t.roads[r + 1]).to_vec();
        let i = NAMES.iter().position(|x| *x == bytes).unwrap();
        let spot = self.name(i);
        let (succ, pred) = (self.link(), self.link());
        let way = self.dice.pick(&[0, 0, 1, 1, 2, 2]);
        t.lanes.extend([id, spot.0, spot.1, s, n, way, succ[0], succ[1], pred[0], pred[1]]);
        for _ in 0..EDGE {
            t.edges.push(float(self.dice));
        }
    }
    /// Makes it likely that repair has something to do: connecting roads that link back to a vacant end.
    fn leave_out(&mut self, t: &mut Tables) {
        let find = |t: &Tables, n: &[u32]| t.roads.chunks(ROAD).position(|r| t.bytes(r[0], r[1]) == t.bytes(n[0], n[1]));
        for c in 0..Tables::rows(&t.connections, CONNECTION) {
            let w: Vec<u32> = t.connections[c * CONNECTION..(c + 1) * CONNECTION].to_vec();
            let (Some(from), Some(to)) = (find(t, &w[0..2]), find(t, &w[2..4])) else { continue };
            if from == to || self.dice.one_in(3) {
                continue;
            }
            let end = self.dice.below(2);
            let back = to * ROAD + 4 + 7 * w[4] as usize;
            t.roads[back..back + 7].copy_from_slice(&[1, 0, w[0], w[1], end as u32, 1, 0]);
            if self.dice.one_in(3) {
                // a direct junction's incoming road that names it
                if let Some(j) = t.junctions.chunks(JUNCTION).find(|j| (j[3]..j[3] + j[4]).contains(&(c as u32))) {
                    let at = from * ROAD + 4 + 7 * end;
                    t.roads[at..at + 7].copy_from_slice(&[1, 1, j[0], j[1], self.dice.below(2) as u32, 1, 0]);
                }
            } else if !self.dice.one_in(3) {
                let vacant = from * ROAD + 4 + 7 * end;
                t.roads[vacant..vacant + 7].fill(0);
            }
        }
    }
}

/// A random map that the rules admit.
pub fn random(dice: &mut Dice) -> Tables {
    let (text, places) = text(dice);
    let mut t = Tables { text, ..Tables::default() };
    let kinds = 2 + dice.below(NAMES.len() - 1);
    let (junctions, narrow) = (dice.one_in(2), !dice.one_in(3));
    let mut m = Maker { dice, places, kinds, junctions, narrow };
    let mut order: Vec<usize> = (0..kinds).collect();
    m.dice.shuffle(&mut order);
    let roads = if m.dice.one_in(4) { m.dice.below(kinds + 1) } else { kinds };
    for &i in order.iter().take(roads) {
        m.road(&mut t, i);
    }
    for _ in 0..m.dice.below(6) {
        m.junction(&mut t);
    }
    if m.dice.one_in(2) {
        m.leave_out(&mut t);
    }
    let mut used = Vec::new();
    for _ in 0..m.dice.below(40) {
        if t.roads.is_empty() {
            break;
        }
        let r = m.dice.below(Tables::rows(&t.roads, ROAD)) * ROAD;
        let (first, count) = (t.roads[r + 18] as usize, t.roads[r + 19] as usize);
        if count == 0 {
            continue;
        }
        let s = t.sections[first + m.dice.below(count)];
        let n = m.number();
        let id = match m.dice.below(20) {
            0 => u32::MAX,
            1 => 0,
            2 => 16_384 * m.dice.below(4) as u32 + 7,
            _ => m.dice.below(60) as u32,
        };
        if !used.iter().any(|&(a, b, c, d)| a == id || (b, c, d) == (r, s, n)) {
            used.push((id, r, s, n));
            m.lane(&mut t, r, s, n, id);
        }
    }
    t
}
