//! The raw tables: made at random, damaged, and as XML.
use crate::tables::{Dice, ABSENT};
use std::ops::Range;

pub const RAW_TARGET: usize = 9;
pub const RAW_JUNCTION: usize = 8;
pub const RAW_CONNECTION: usize = 14;
pub const RAW_LINK: usize = 4;
/// Where contactPoint stands in a raw target and in a raw connection.
pub const TARGET_CONTACT: usize = 5;
pub const CONNECTION_CONTACT: usize = 10;

/// The raw tables. Raw targets are two to a road; the roads have the names of ROADS.
#[derive(Clone, Debug, Default, PartialEq)]
pub struct Raw {
    pub text: Vec<u8>,
    pub targets: Vec<u32>,
    pub lanes: Vec<u32>,
    pub junctions: Vec<u32>,
    pub connections: Vec<u32>,
    pub links: Vec<u32>,
}

const WORDS: [&str; 12] = ["", "a", "b", "end", "End", "start", "junction", "road", "direct", "virtual", "default", "a\"<&"];
pub const ROADS: [&str; 4] = ["a", "b", "c", "d"];
const SPELLED: [&str; 2] = ["end", "start"];
const LOOSE: [&str; 10] = ["End", "END", "ends", "en", "\u{ff45}nd", "Start", "start ", "star", "a\"<&", ""];
const NUMBERS: [&str; 26] = [
    "1",
    "-1",
    "2",
    "-2",
    "+1",
    "+",
    "-",
    "",
    "+-1",
    "-+1",
    "007",
    "-0",
    "+0",
    "0",
    "2147483647",
    "2147483648",
    "-2147483648",
    "-2147483649",
    "+2147483647",
    "00000000000000000000000000001",
    "-00000000002147483648",
    "99999999999999999999",
    " 1",
    "1 ",
    "1x",
    "\u{661}",
];

impl Raw {
    fn bytes(&self, n: &[u32]) -> &[u8] {
        &self.text[n[0] as usize..n[0] as usize + n[1] as usize]
    }
    /// An attribute: none where it is absent; a stand-in where XML cannot carry the bytes.
    pub fn attribute(&self, n: &[u32]) -> Option<String> {
        (n != [ABSENT, 0]).then(|| match std::str::from_utf8(self.bytes(n)) {
            Ok(s) if s.chars().all(|c| c >= ' ') => s.to_string(),
            _ => self.bytes(n).iter().fold(String::from("\u{e000}"), |s, b| s + &format!("{b:02x}")),
        })
    }
    /// Is a contactPoint there, and neither of the two spellings?
    pub fn is_loose(&self, contact: &[u32]) -> bool {
        self.attribute(contact).is_some_and(|c| !SPELLED.contains(&c.as_str()))
    }
    /// The tables with every loose contactPoint taken out, and how many those are.
    pub fn without_loose(&self) -> (Raw, usize) {
        let (mut raw, mut count) = (self.clone(), 0);
        let targets = raw.targets.chunks_mut(RAW_TARGET).map(|r| &mut r[TARGET_CONTACT..][..2]);
        let connections = raw.connections.chunks_mut(RAW_CONNECTION).map(|r| &mut r[CONNECTION_CONTACT..][..2]);
        for contact in targets.chain(connections).filter(|c| self.is_loose(c)) {
            contact.copy_from_slice(&[ABSENT, 0]);
            count += 1;
        }
        (raw, count)
    }
}

fn escaped(s: &str) -> String {
    s.replace('&', "&amp;").replace('<', "&lt;").replace('"', "&quot;")
}

/// Attributes of a row: the words at which they stand, and their names.
pub fn attributes(raw: &Raw, row: &[u32], names: &[(usize, &str)]) -> String {
    names.iter().filter_map(|&(k, name)| raw.attribute(&row[k..k + 2]).map(|v| format!(" {name}=\"{}\"", escaped(&v)))).collect()
}

/// A road with its two raw targets as XML.
pub fn road_xml(raw: &Raw, two: &[u32]) -> String {
    let element = |tag: &str, r: &[u32]| {
        if r[0] == 1 {
            format!("<{tag}{}/>", attributes(raw, r, &[(1, "elementType"), (3, "elementId"), (TARGET_CONTACT, "contactPoint"), (7, "elementS")]))
        } else {
            String::new()
        }
    };
    let (p, s) = two.split_at(RAW_TARGET);
    format!("<road><link>{}{}</link></road>", element("predecessor", p), element("successor", s))
}

/// All rows.
pub const ALL: Range<usize> = 0..usize::MAX;

/// Those rows of junctions as XML, with those rows of connections.
pub fn xml(raw: &Raw, js: Range<usize>, cs: Range<usize>) -> String {
    let mut s = String::from("<OpenDRIVE>");
    for j in raw.junctions.chunks(RAW_JUNCTION).take(js.end).skip(js.start) {
        s += &format!("<junction{}>", attributes(raw, j, &[(0, "id"), (2, "type"), (4, "mainRoad")]));
        for (_, c) in raw.connections.chunks(RAW_CONNECTION).enumerate().skip(j[6] as usize).take(j[7] as usize).filter(|(c, _)| cs.contains(c)) {
            let names = [(0, "id"), (2, "type"), (4, "incomingRoad"), (6, "connectingRoad"), (8, "linkedRoad"), (CONNECTION_CONTACT, "contactPoint")];
            s += &format!("<connection{}>", attributes(raw, c, &names));
            for l in raw.links.chunks(RAW_LINK).skip(c[12] as usize).take(c[13] as usize) {
                s += &format!("<laneLink{}/>", attributes(raw, l, &[(0, "from"), (2, "to")]));
            }
            s += "</connection>";
        }
        s += "</junction>";
    }
    s + "</OpenDRIVE>"
}

/// All roads and junctions in one document, for the benchmark.
pub fn document(raw: &Raw) -> String {
    let roads: String = raw.targets.chunks(2 * RAW_TARGET).map(|two| road_xml(raw, two)).collect();
    xml(raw, ALL, ALL).replacen("<OpenDRIVE>", &format!("<OpenDRIVE>{roads}"), 1)
}

struct Maker<'a> {
    dice: &'a mut Dice,
    raw: Raw,
    /// Are contactPoints spelled loosely now and then?
    loosely: bool,
}

impl Maker<'_> {
    fn name(&mut self, bytes: &[u8]) -> [u32; 2] {
        let at = self.raw.text.len() as u32;
        self.raw.text.extend_from_slice(bytes);
        [at, bytes.len() as u32]
    }
    /// One of the words, or absent, one time in `absent`.
    fn word(&mut self, absent: usize) -> [u32; 2] {
        if self.dice.one_in(absent) {
            return [ABSENT, 0];
        }
        if self.dice.one_in(12) {
            return self.name(&[0xff, b'a']);
        }
        let w = self.dice.pick(&WORDS);
        self.name(w.as_bytes())
    }
    fn of(&mut self, words: &[&str], absent: usize) -> [u32; 2] {
        if self.dice.one_in(absent) {
            return [ABSENT, 0];
        }
        let w = self.dice.pick(words);
        self.name(w.as_bytes())
    }
    /// A road of few, so that names meet, or any word.
    fn road(&mut self) -> [u32; 2] {
        if self.dice.one_in(5) {
            self.word(2)
        } else {
            self.of(&ROADS[..2], 16)
        }
    }
    fn contact(&mut self) -> [u32; 2] {
        let loose = self.loosely && self.dice.one_in(2);
        if loose && self.dice.one_in(12) {
            return self.name(&[b'e', 0xff]);
        }
        self.of(if loose { &LOOSE } else { &SPELLED }, 4)
    }
    fn number(&mut self) -> [u32; 2] {
        let easy = !self.dice.one_in(3);
        self.of(if easy { &NUMBERS[..4] } else { &NUMBERS }, 12)
    }
    fn target(&mut self) {
        if self.dice.one_in(4) {
            self.raw.targets.extend([0, ABSENT, 0, ABSENT, 0, ABSENT, 0, ABSENT, 0]);
            return;
        }
        let row = [self.of(&["junction", "road", "Junction", ""], 4), self.road(), self.contact(), self.of(&["0", "1.5", ""], 2)];
        self.raw.targets.push(1);
        self.raw.targets.extend(row.concat());
    }
    fn junction(&mut self) {
        let head = [self.word(6), self.of(&["direct", "virtual", "default", "Direct", "virtuals", ""], 3), self.word(3)].concat();
        let first = (self.raw.connections.len() / RAW_CONNECTION) as u32;
        let count = self.dice.below(5) as u32;
        for _ in 0..count {
            let row =
                [self.of(&["0", "7", ""], 4), self.of(&["virtual", "default", "Virtual"], 2), self.road(), self.road(), self.road(), self.contact()].concat();
            let begin = (self.raw.links.len() / RAW_LINK) as u32;
            let links = self.dice.below(4) as u32;
            for _ in 0..links {
                let pair = [self.number(), self.number()].concat();
                self.raw.links.extend(pair);
            }
            self.raw.connections.extend(row);
            self.raw.connections.extend([begin, links]);
        }
        self.raw.junctions.extend(head);
        self.raw.junctions.extend([first, count]);
    }
}

/// Random raw tables that the rules admit. In half of them every contactPoint is absent or one of the two.
pub fn random(dice: &mut Dice) -> Raw {
    let loosely = dice.one_in(2);
    let mut m = Maker { dice, raw: Raw::default(), loosely };
    for _ in 0..2 * m.dice.below(ROADS.len() + 1) {
        m.target();
    }
    for _ in 0..m.dice.below(6) {
        let row = [m.number(), m.number()].concat();
        m.raw.lanes.extend(row);
    }
    for _ in 0..m.dice.below(5) {
        m.junction();
    }
    m.raw
}

/// One change at random.
pub fn damage(map: &Raw, dice: &mut Dice) -> Raw {
    let mut raw = map.clone();
    let size = raw.text.len() as u32;
    let k = dice.below(5);
    let table = [&mut raw.targets, &mut raw.lanes, &mut raw.junctions, &mut raw.connections, &mut raw.links].into_iter().nth(k).unwrap();
    match dice.below(8) {
        0 => table.push(0),
        1 => {
            table.pop();
        }
        2 => (),
        _ if !table.is_empty() => {
            let at = dice.below(table.len());
            let old = table[at];
            table[at] = dice.pick(&[0, 1, 2, ABSENT, size, size + 1, old.wrapping_add(1), old.wrapping_sub(1)]);
        }
        _ => (),
    }
    raw
}

/// The tables without the last raw target, if there is one.
pub fn of_odd_count(map: &Raw) -> Raw {
    Raw { targets: map.targets[..map.targets.len().saturating_sub(RAW_TARGET)].to_vec(), ..map.clone() }
}
