//! Damaged files: each is read or refused, and none brings the reader down.
use crate::file;
use lanes::xodr::{self, Choice};
use vorzhyket::sizes::{CONNECTION, EDGE, JUNCTION, LANE, PAIR, ROAD};

/// Numbers that are the same on every run (xorshift).
struct Dice(u64);

impl Dice {
    fn below(&mut self, n: usize) -> usize {
        self.0 ^= self.0 << 13;
        self.0 ^= self.0 >> 7;
        self.0 ^= self.0 << 17;
        (self.0 % n.max(1) as u64) as usize
    }

    /// One of the places where the bytes stand.
    fn place(&mut self, data: &[u8], sought: &[u8]) -> Option<usize> {
        let from = self.below(data.len());
        let after = |from: usize| data[from..].windows(sought.len()).position(|w| w == sought).map(|i| from + i);
        after(from).or_else(|| after(0))
    }

    /// One of the attributes: where it begins, where its value does, and where that ends.
    fn attribute(&mut self, data: &[u8]) -> Option<[usize; 3]> {
        let value = self.place(data, b"=\"")? + 2;
        let first = data[..value].iter().rposition(|&b| b == b' ')?;
        let end = value + data[value..].iter().position(|&b| b == b'"')?;
        Some([first, value, end])
    }
}

const VALUES: [&str; 14] = ["", "-1", "0", "nan", "inf", "1e308", "-1e308", "1e-320", "-7", "x", "1e12", "2147483648", "&amp;", "1e9"];

/// Changes the data in one of nine ways.
fn damage(dice: &mut Dice, data: &mut Vec<u8>) -> Option<()> {
    match dice.below(9) {
        0 => data.truncate(dice.below(data.len())),
        1 => {
            let at = dice.below(data.len());
            *data.get_mut(at)? ^= 1 << dice.below(8);
        }
        2 => {
            let first = dice.below(data.len());
            let last = (first + dice.below(300)).min(data.len());
            data.drain(first..last);
        }
        3 => {
            let first = dice.place(data, b"<")?;
            let last = first + data[first..].iter().position(|&b| b == b'>')? + 1;
            let element = data[first..last].to_vec();
            data.splice(last..last, element);
        }
        4 => {
            let [first, _, last] = dice.attribute(data)?;
            data.drain(first..last + 1);
        }
        5 => {
            let [_, first, last] = dice.attribute(data)?;
            let value = VALUES[dice.below(VALUES.len())];
            data.splice(first..last, value.bytes());
        }
        6 => {
            let ([_, a, a_end], [_, b, b_end]) = (dice.attribute(data)?, dice.attribute(data)?);
            if a_end < b {
                let (first, second) = (data[a..a_end].to_vec(), data[b..b_end].to_vec());
                data.splice(b..b_end, first);
                data.splice(a..a_end, second);
            }
        }
        7 => {
            let tags: [(&[u8], &[u8]); 4] = [(b"<line/>", b"<arc/>"), (b"<lane ", b"<link "), (b"<width ", b"<border "), (b"paramPoly3", b"poly3")];
            let (old, new) = tags[dice.below(4)];
            let at = dice.place(data, old)?;
            data.splice(at..at + old.len(), new.iter().copied());
        }
        _ => {
            let first = dice.place(data, b"<lane id")?;
            let last = first + data[first..].windows(7).position(|w| w == b"</lane>")? + 7;
            let lane = data[first..last].to_vec();
            data.splice(last..last, lane);
        }
    }
    Some(())
}

/// A file damaged some times over; half of the long ones are a few roads alone, so that damage meets what is read.
fn damaged(dice: &mut Dice, whole: &[u8]) -> Vec<u8> {
    let mut data = whole.to_vec();
    if data.len() > 24000 && dice.below(2) == 0 {
        let few = 4000 + dice.below(20000);
        data.truncate(whole[..few].windows(8).rposition(|w| w == b"</road>\n").map_or(few, |at| at + 7));
        data.extend(b"</OpenDRIVE>");
    }
    for _ in 0..1 + dice.below(6) {
        damage(dice, &mut data);
    }
    data
}

/// Reads damaged files, and tells how many were read and how many refused. What was read is whole.
fn read_damaged(whole: &[u8], count: usize, seed: u64) -> [usize; 2] {
    let (mut dice, mut read, mut refused) = (Dice(seed), 0, 0);
    for i in 0..count {
        let data = damaged(&mut dice, whole);
        let area = (i % 5 == 0).then_some([0.0, 0.0, 100.0, 100.0]);
        let choice = Choice { types: (i % 7 == 0).then(|| vec!["driving".to_string()]), area, edges: i % 3 != 0, outlines: i % 2 == 0 };
        match xodr::read(&data, &choice) {
            Ok(map) => {
                read += 1;
                let (t, l) = (&map.tables, &map.lines);
                assert_eq!([t.roads.len(), t.junctions.len()], [l.roads.len() * ROAD, l.junctions.len() * JUNCTION]);
                assert_eq!([t.connections.len(), t.pairs.len(), t.lanes.len()], [l.connections.len() * CONNECTION, l.pairs.len() * PAIR, l.lanes.len() * LANE]);
                assert_eq!(t.edges.len(), if choice.edges { l.lanes.len() * EDGE } else { 0 });
                assert_eq!(map.outlines.len(), if choice.outlines { l.lanes.len() } else { 0 });
                assert!(map.loose_contacts.iter().all(|c| c.line > 0 && !matches!(&c.value[..], "start" | "end")));
                assert!(l.roads.iter().chain(&l.lanes).all(|&line| line > 0) && !l.roads.is_empty());
            }
            Err(fault) => {
                refused += 1;
                assert!(!fault.what.is_empty());
            }
        }
    }
    [read, refused]
}

#[test]
fn damaged_networks_are_read_or_refused() {
    let [read, refused] = read_damaged(&file("../examples/real/grid2.xodr"), 2000, 0x9e37_79b9_7f4a_7c15);
    assert!(read > 400 && refused > 400, "{read} read, {refused} refused");
}

#[test]
fn damaged_roads_of_every_kind_are_read_or_refused() {
    for (i, name) in ["across", "area", "contacts", "directions", "junctions", "left-out", "shapes", "surface", "utm"].iter().enumerate() {
        let [read, refused] = read_damaged(&file(&format!("tests/data/{name}.xodr")), 500, 1 + i as u64);
        assert!(read > 50 && refused > 50, "{name}: {read} read, {refused} refused");
    }
}
