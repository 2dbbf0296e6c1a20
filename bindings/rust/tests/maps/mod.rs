//! Small maps, and calls with outputs of their own that are filled with a mark before.
#![allow(dead_code)]
use vorzhyket::*;

pub const NONE: [u32; 7] = [0; 7];
pub const FILL: u32 = 0xFEEDFACE;
pub const FLOAT: f32 = 1234.5;

/// Present, kind, name, contact, given and along.
pub fn target(kind: u32, name: [u32; 2], contact: u32) -> [u32; 7] {
    [1, kind, name[0], name[1], contact, 1, 0]
}

pub fn road(name: [u32; 2], junction: [u32; 2], predecessor: [u32; 7], successor: [u32; 7], sections: [u32; 2]) -> Vec<u32> {
    [&name[..], &junction, &predecessor, &successor, &sections].concat()
}

/// An identity, a road name, section, number, direction, and the numbers that it is linked to onward and back.
pub fn lane(identity: u32, road: [u32; 2], section: u32, number: i32, direction: u32, onward: Option<i32>, back: Option<i32>) -> Vec<u32> {
    let link = |l: Option<i32>| l.map_or([0, 0], |n| [1, n as u32]);
    [&[identity, road[0], road[1], section, number as u32, direction][..], &link(onward), &link(back)].concat()
}

/// Tables that can be changed.
#[derive(Clone, Debug, Default, PartialEq)]
pub struct Owned {
    pub text: Vec<u8>,
    pub roads: Vec<u32>,
    pub sections: Vec<u32>,
    pub junctions: Vec<u32>,
    pub connections: Vec<u32>,
    pub pairs: Vec<u32>,
    pub lanes: Vec<u32>,
    pub edges: Vec<f32>,
}

impl Owned {
    pub fn map(&self) -> Map<'_> {
        Map { text: &self.text, roads: &self.roads, sections: &self.sections, junctions: &self.junctions, connections: &self.connections, pairs: &self.pairs }
    }

    pub fn lane_count(&self) -> usize {
        self.lanes.len() / 10
    }
}

const ABSENT_NAME: [u32; 2] = [ABSENT, 0];
pub const A: [u32; 2] = [0, 1];
pub const B: [u32; 2] = [1, 1];
pub const C: [u32; 2] = [2, 1];

/// Edges of lanes that lie one behind the other, each a metre long: lane i runs from x = i to x = i + 1.
pub fn in_a_row(lanes: usize) -> Vec<f32> {
    (0..lanes)
        .flat_map(|i| {
            let x = i as f32;
            [x, 0., 0., x, 2., 0., x + 1., 0., 0., x + 1., 2., 0.]
        })
        .collect()
}

/// Road a (section 0), successor b at start; b (0, 1); forward lanes numbered -1: 7 on a, 3 and 5 on b.
pub fn three_lanes() -> Owned {
    Owned {
        text: b"ab".to_vec(),
        roads: [road(A, ABSENT_NAME, NONE, target(0, B, 0), [0, 1]), road(B, ABSENT_NAME, target(0, A, 1), NONE, [1, 2])].concat(),
        sections: vec![0, 0, 1],
        lanes: [lane(7, A, 0, -1, 0, Some(-1), None), lane(3, B, 0, -1, 0, Some(-1), Some(-1)), lane(5, B, 1, -1, 0, None, Some(-1))].concat(),
        edges: in_a_row(3),
        ..Owned::default()
    }
}

/// Road a leads into junction c of that kind, from which road b leads on; a names the junction at its end if `named`.
pub fn junction(kind: u32, named: bool, pairs: &[[i32; 2]]) -> Owned {
    let successor = if named { target(1, C, 0) } else { NONE };
    Owned {
        text: b"abc".to_vec(),
        roads: [road(A, ABSENT_NAME, NONE, successor, [0, 1]), road(B, C, target(0, A, 1), NONE, [1, 1])].concat(),
        sections: vec![0, 0],
        junctions: vec![C[0], C[1], kind, 0, 1],
        connections: vec![A[0], A[1], B[0], B[1], 0, 0, pairs.len() as u32],
        pairs: pairs.iter().flatten().map(|n| *n as u32).collect(),
        lanes: [lane(7, A, 0, -1, 0, None, None), lane(9, B, 0, -1, 0, None, None)].concat(),
        edges: in_a_row(2),
    }
}

/// Two-way lane 1 on road a is linked to lane 2 on road b, which has that direction.
pub fn two_way(direction: u32) -> Owned {
    Owned {
        text: b"ab".to_vec(),
        roads: [road(A, ABSENT_NAME, NONE, target(0, B, 0), [0, 1]), road(B, ABSENT_NAME, NONE, NONE, [1, 1])].concat(),
        sections: vec![0, 0],
        lanes: [lane(1, A, 0, -1, 2, Some(-1), None), lane(2, B, 0, -1, direction, None, None)].concat(),
        edges: in_a_row(2),
        ..Owned::default()
    }
}

/// Repaired tables and warnings, cut to what was written; the words after it are tested here.
pub fn repaired(m: &Owned, room: usize) -> Result<(RepairCounts, [Vec<u32>; 5]), Refusal> {
    let mut o: [Vec<u32>; 5] = std::array::from_fn(|_| vec![FILL; room]);
    let [roads, junctions, connections, pairs, warnings] = &mut o;
    let answer = repair(m.map(), RepairOutputs { roads, junctions, connections, pairs, warnings });
    let Ok(n) = answer else {
        assert!(o.iter().flatten().all(|w| *w == FILL), "a refusal wrote");
        return Err(answer.unwrap_err());
    };
    let lengths = [n.roads * 20, n.junctions * 5, n.connections * 7, n.pairs * 2, n.warnings * 4];
    Ok((n, cut(o, lengths)))
}

pub fn lists(m: &Owned, room: usize) -> Result<[Vec<u32>; 4], Refusal> {
    let mut o: [Vec<u32>; 4] = std::array::from_fn(|_| vec![FILL; room]);
    let [successor_offsets, successor_ids, predecessor_offsets, predecessor_ids] = &mut o;
    let answer = succession(m.map(), &m.lanes, ListOutputs { successor_offsets, successor_ids, predecessor_offsets, predecessor_ids });
    let Ok(n) = answer else {
        assert!(o.iter().flatten().all(|w| *w == FILL), "a refusal wrote");
        return Err(answer.unwrap_err());
    };
    Ok(cut(o, [n.successor_offsets, n.successor_ids, n.predecessor_offsets, n.predecessor_ids]))
}

pub fn gap_rows(m: &Owned, offsets: &[u32], ids: &[u32], room: usize) -> Result<Vec<u32>, Refusal> {
    let mut out = vec![FILL; room];
    let answer = gaps(m.map(), &m.lanes, &m.edges, offsets, ids, &mut out);
    let Ok(n) = answer else {
        assert!(out.iter().all(|w| *w == FILL), "a refusal wrote");
        return Err(answer.unwrap_err());
    };
    let [out] = cut([out], [n * sizes::GAP]);
    Ok(out)
}

pub fn reversed(m: &Owned, marks: &[u32], room: usize) -> Result<Owned, Refusal> {
    let mut o: [Vec<u32>; 5] = std::array::from_fn(|_| vec![FILL; room]);
    let mut e = vec![FLOAT; room];
    let [roads, sections, connections, pairs, lanes] = &mut o;
    let answer = reverse(m.map(), &m.lanes, &m.edges, marks, ReversalOutputs { roads, sections, connections, pairs, lanes, edges: &mut e });
    let Ok(n) = answer else {
        assert!(o.iter().flatten().all(|w| *w == FILL) && e.iter().all(|f| *f == FLOAT), "a refusal wrote");
        return Err(answer.unwrap_err());
    };
    assert!(e[n.edges * 12..].iter().all(|f| *f == FLOAT));
    e.truncate(n.edges * 12);
    let [roads, sections, connections, pairs, lanes] = cut(o, [n.roads * 20, n.sections, n.connections * 7, n.pairs * 2, n.lanes * 10]);
    Ok(Owned { text: m.text.clone(), roads, sections, junctions: m.junctions.clone(), connections, pairs, lanes, edges: e })
}

/// The words written; those after them are as they were.
pub fn cut<const N: usize>(o: [Vec<u32>; N], lengths: [usize; N]) -> [Vec<u32>; N] {
    let mut lengths = lengths.into_iter();
    o.map(|mut words| {
        let n = lengths.next().unwrap();
        assert!(words[n..].iter().all(|w| *w == FILL));
        words.truncate(n);
        words
    })
}
