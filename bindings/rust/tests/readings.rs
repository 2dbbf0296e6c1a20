//! Attributes read, and the length check; the refusals of both.
mod maps;
use maps::{cut, FILL};
use vorzhyket::*;

const ROOM: usize = 60;
const NONE: [u32; 2] = [ABSENT, 0];

/// A text that grows, name by name.
#[derive(Default)]
struct Text(Vec<u8>);

impl Text {
    fn name(&mut self, bytes: &str) -> [u32; 2] {
        let start = self.0.len() as u32;
        self.0.extend(bytes.as_bytes());
        [start, bytes.len() as u32]
    }
}

/// Outputs of these lengths, filled with a mark.
fn lent<const N: usize>(rooms: [usize; N]) -> [Vec<u32>; N] {
    rooms.map(|n| vec![FILL; n])
}

/// The words written to outputs, rows of those widths; the words after them, and all of them after a refusal, are as they were.
fn kept<const N: usize>(outputs: [Vec<u32>; N], rows: Result<[usize; N], Refusal>, widths: [usize; N]) -> Result<[Vec<u32>; N], Refusal> {
    let words = cut(outputs, std::array::from_fn(|k| rows.map_or(0, |rows| rows[k] * widths[k])));
    rows.map(|_| words)
}

/// Targets and warnings.
fn targets(text: &[u8], raw: &[u32], rooms: [usize; 2]) -> Result<[Vec<u32>; 2], Refusal> {
    let mut o = lent(rooms);
    let [targets, warnings] = &mut o;
    let answer = read_targets(text, raw, TargetOutputs { targets, warnings });
    kept(o, answer.map(|n| [n.targets, n.warnings]), [7, 4])
}

fn lanes(text: &[u8], raw: &[u32], room: usize) -> Result<Vec<u32>, Refusal> {
    let mut o = lent([room]);
    let answer = read_lanes(text, raw, &mut o[0]);
    kept(o, answer.map(|n| [n]), [4]).map(|[links]| links)
}

/// Junctions, connections, pairs and warnings.
fn junctions(raw: RawJunctions, rooms: [usize; 4]) -> Result<[Vec<u32>; 4], Refusal> {
    let mut o = lent(rooms);
    let [junctions, connections, pairs, warnings] = &mut o;
    let answer = read_junctions(raw, JunctionOutputs { junctions, connections, pairs, warnings });
    kept(o, answer.map(|n| [n.junctions, n.connections, n.pairs, n.warnings]), [5, 7, 2, 4])
}

/// Every output one word too short, one after the other, is refused by 9; outputs that just fit are not.
fn each_too_short<const N: usize>(read: impl Fn([usize; N]) -> Result<[Vec<u32>; N], Refusal>) {
    let found = read([ROOM; N]).unwrap();
    let need: [usize; N] = std::array::from_fn(|k| found[k].len());
    assert_eq!(read(need), Ok(found));
    for k in 0..N {
        let mut rooms = need;
        rooms[k] = rooms[k].checked_sub(1).expect("each output has a row");
        assert_eq!(read(rooms), Err(Refusal::OutputShort), "output {k}");
    }
}

/// Tables of a direct junction with three connections: one with two lane links, of which the second has no number; one
/// without linkedRoad; one without lane links, whose contactPoint is "a". Then a junction without id, with one connection.
#[derive(Default)]
struct Raw {
    text: Text,
    junctions: Vec<u32>,
    connections: Vec<u32>,
    lane_links: Vec<u32>,
}

impl Raw {
    fn tables(&self) -> RawJunctions<'_> {
        RawJunctions { text: &self.text.0, junctions: &self.junctions, connections: &self.connections, lane_links: &self.lane_links }
    }
}

fn small() -> Raw {
    let mut t = Text::default();
    let [id, direct, a, b, end, one, x] = ["id", "direct", "a", "b", "end", "-1", "x"].map(|n| t.name(n));
    let connection = |incoming, linked, contact, part| [NONE, NONE, incoming, NONE, linked, contact, part].concat();
    Raw {
        text: t,
        junctions: [id, direct, NONE, [0, 3], NONE, NONE, NONE, [3, 1]].concat(),
        connections: [connection(a, b, end, [0, 2]), connection(a, NONE, end, [2, 0]), connection(b, a, a, [2, 0]), connection(a, b, end, [2, 0])].concat(),
        lane_links: [one, one, one, x].concat(),
    }
}

#[test]
fn a_small_junction() {
    let [j, c, p, w] = junctions(small().tables(), [ROOM; 4]).unwrap();
    assert_eq!(j, [0, 2, 1, 0, 2]);
    assert_eq!(c, [8, 1, 9, 1, 1, 0, 1, 9, 1, 8, 1, 0, 1, 0]);
    assert_eq!(p, [-1i32 as u32, -1i32 as u32]);
    assert_eq!(w, [[2, 0, 0, 1], [1, 0, 1, 0], [4, 0, 2, 0], [1, 1, 3, 0]].concat());
    assert_eq!(junctions(RawJunctions::default(), [0; 4]).unwrap(), [vec![], vec![], vec![], vec![]]);
    each_too_short(|rooms| junctions(small().tables(), rooms));
}

#[test]
fn virtual_connections_are_passed_over() {
    let mut t = Text::default();
    let [id, main, a, b] = ["virtual", "main", "a", "b"].map(|n| t.name(n));
    let connection = |kind, incoming| [NONE, kind, incoming, b, NONE, NONE, [0, 0]].concat();
    let raw = Raw {
        text: t,
        junctions: [id, id, main, [0, 3]].concat(),
        connections: [connection(id, a), connection(NONE, main), connection(NONE, a)].concat(),
        lane_links: vec![],
    };
    let [j, c, p, w] = junctions(raw.tables(), [ROOM; 4]).unwrap();
    assert_eq!((j, c), (vec![0, 7, 2, 0, 1], vec![a[0], 1, b[0], 1, 0, 0, 0]));
    assert!(p.is_empty() && w.is_empty());
}

#[test]
fn lane_numbers() {
    let parsed = |s: &str| s.parse::<i32>().map_or([0, 0], |n| [1, n as u32]);
    for (number, words) in [("+1", [1, 1]), ("-2147483648", [1, 1 << 31]), ("2147483648", [0, 0]), ("2147483647", [1, i32::MAX as u32])] {
        let n = [0, number.len() as u32];
        assert_eq!(lanes(number.as_bytes(), &[n, NONE].concat(), 4).unwrap(), [words, [0, 0]].concat());
        assert_eq!(lanes(number.as_bytes(), &[NONE, n].concat(), ROOM).unwrap(), [[0, 0], words].concat());
        assert_eq!(parsed(number), words);
    }
    for number in ["", "+", "-", "-0", "+-1", "1 ", " 1", "-2147483649", "007", "1e3", "٣", "99999999999999999999999"] {
        assert_eq!(lanes(number.as_bytes(), &[[0, number.len() as u32], NONE].concat(), 4).unwrap()[..2], parsed(number), "{number:?}");
    }
}

/// A raw target that is there, and one that is not.
fn raw_target(kind: [u32; 2], name: [u32; 2], contact: [u32; 2], along: [u32; 2]) -> Vec<u32> {
    [&[1][..], &kind, &name, &contact, &along].concat()
}

fn no_target() -> Vec<u32> {
    [&[0][..], &NONE, &NONE, &NONE, &NONE].concat()
}

#[test]
fn targets_of_every_sort() {
    let mut t = Text::default();
    let [junction, road, id, end, start] = ["junction", "road", "id", "end", "start"].map(|n| t.name(n));
    let rows = [
        raw_target(junction, id, NONE, NONE),
        raw_target(road, id, end, NONE),
        raw_target(NONE, id, start, end),
        raw_target(road, NONE, end, NONE),
        no_target(),
        raw_target(road, id, NONE, NONE),
    ]
    .concat();
    let (at, n) = (id[0], id[1]);
    let read = [[1, 1, at, n, 0, 0, 0], [1, 0, at, n, 1, 1, 0], [1, 0, at, n, 0, 1, 1], [0; 7], [0; 7], [1, 0, at, n, 0, 0, 0]].concat();
    assert_eq!(targets(&t.0, &rows, [42, 0]).unwrap(), [read, vec![]]);
    assert_eq!(targets(&t.0, &rows, [41, 0]), Err(Refusal::OutputShort));
    assert_eq!(targets(&t.0, &rows[..45], [ROOM; 2]), Err(Refusal::BadSize), "an odd count");
    assert_eq!(targets(b"", &[], [0; 2]).unwrap(), [vec![], vec![]]);
}

/// Whatever else a contactPoint is, it reads as start, is not given, and gives a warning where the target is there.
#[test]
fn loose_targets() {
    for loose in ["End", "END", "Start", "ends", "en", "start ", " end", "\u{0}end", "", "starte", "anfang"] {
        let mut t = Text::default();
        let [junction, id, end, contact] = ["junction", "id", "end", loose].map(|n| t.name(n));
        let rows = [
            raw_target(NONE, id, end, NONE),
            raw_target(NONE, id, contact, NONE),
            raw_target(junction, NONE, contact, NONE),
            no_target(),
            raw_target(junction, id, contact, end),
            raw_target(NONE, id, NONE, NONE),
        ]
        .concat();
        let (at, n) = (id[0], id[1]);
        let read = [[1, 0, at, n, 1, 1, 0], [1, 0, at, n, 0, 0, 0], [0; 7], [0; 7], [1, 1, at, n, 0, 0, 1], [1, 0, at, n, 0, 0, 0]].concat();
        let warnings = [[4, NO_ROW, 0, 1], [4, NO_ROW, 2, 0]].concat();
        assert_eq!(targets(&t.0, &rows, [ROOM; 2]).unwrap(), [read, warnings], "{loose:?}");
        each_too_short(|rooms| targets(&t.0, &rows, rooms));
    }
}

/// Warning 4 of a connection stands ahead of its lane links'; one that is dropped or passed over has none.
#[test]
fn loose_connections() {
    let mut t = Text::default();
    let [id, virtually, a, b, x, loose] = ["id", "virtual", "a", "b", "x", "End"].map(|n| t.name(n));
    let connection = |kind, incoming, connecting, links| [NONE, kind, incoming, connecting, NONE, loose, links].concat();
    let raw = Raw {
        text: t,
        junctions: [id, NONE, NONE, [0, 3], NONE, NONE, NONE, [3, 1], id, virtually, a, [4, 3]].concat(),
        connections: [
            connection(NONE, a, b, [0, 2]),
            connection(virtually, a, b, [2, 0]),
            connection(NONE, a, NONE, [2, 1]),
            connection(NONE, a, b, [3, 0]),
            connection(NONE, a, b, [3, 0]),
            connection(virtually, b, a, [3, 0]),
            connection(NONE, b, a, [3, 0]),
        ]
        .concat(),
        lane_links: [x, x, NONE, x, x, x].concat(),
    };
    let [j, c, p, w] = junctions(raw.tables(), [ROOM; 4]).unwrap();
    assert_eq!(j, [id[0], 2, 0, 0, 2, id[0], 2, 2, 2, 1]);
    assert!(p.is_empty() && c.chunks(7).all(|c| c[4] == 0), "a loose contact is the start");
    assert_eq!(w, [[4, 0, 0, 0], [2, 0, 0, 0], [2, 0, 0, 1], [4, 0, 1, 0], [1, 0, 2, 0], [1, 1, 3, 0], [4, 2, 6, 0]].concat());
}

#[test]
fn lengths() {
    let (starts, lengths) = ([0.0, 30.0], [30.0, 20.0]);
    assert_eq!(length_check(&starts, &lengths, 50.02), Ok(Some(50.0)));
    assert_eq!(length_check(&starts, &lengths, 49.98), Ok(Some(50.0)));
    assert_eq!(length_check(&starts, &lengths, 50.005), Ok(None));
    assert_eq!(length_check(&starts, &lengths, f64::NAN), Ok(None));
    assert_eq!(length_check(&starts, &lengths, f64::INFINITY), Ok(Some(50.0)));
    assert_eq!(length_check(&[], &[], 50.0), Ok(None));
    assert_eq!(length_check(&starts, &lengths[..1], 50.0), Err(Refusal::Uneven));
    assert_eq!(Refusal::Uneven.number(), 16);
}

#[test]
fn refusals_of_reading() {
    let short = [0; 3];
    assert_eq!((targets(b"", &short, [ROOM; 2]), lanes(b"", &short, ROOM)), (Err(Refusal::BadSize), Err(Refusal::BadSize)));
    let outside = [0, 1, ABSENT, 0];
    assert_eq!(lanes(b"", &outside, ROOM), Err(Refusal::BadWord));
    let mut flagless = [[&[0][..], &[0, 0], &NONE, &NONE, &NONE].concat(), no_target()].concat();
    assert_eq!(targets(b"", &flagless, [ROOM; 2]), Err(Refusal::BadWord));
    flagless[0] = 2;
    assert_eq!(targets(b"", &flagless, [ROOM; 2]), Err(Refusal::BadWord));
    assert_eq!(targets(b"", &flagless[..9], [ROOM; 2]), Err(Refusal::BadSize), "an odd count comes before the words");
    let most = no_target().repeat(16384);
    assert_eq!(targets(b"", &most, [16384 * 7, 0]).unwrap(), [vec![0; 16384 * 7], vec![]]);
    assert_eq!(targets(b"", &no_target().repeat(16386), [16386 * 7, 0]), Err(Refusal::BadSize));
    assert_eq!(lanes(b"1", &outside, 3), Err(Refusal::OutputShort));
    let damages: [(Refusal, fn(&mut Raw)); 6] = [
        (Refusal::BadSize, |r| r.junctions.truncate(15)),
        (Refusal::BadSize, |r| r.lane_links.resize(16385 * 4, 0)),
        (Refusal::BadWord, |r| r.connections[1] = 1),
        (Refusal::BadWord, |r| r.text.0.truncate(3)),
        (Refusal::BadParts, |r| r.junctions[14] = 2),
        (Refusal::BadParts, |r| r.connections[13] = 3),
    ];
    for (refusal, damage) in damages {
        let mut r = small();
        damage(&mut r);
        assert_eq!(junctions(r.tables(), [ROOM; 4]), Err(refusal));
    }
}
