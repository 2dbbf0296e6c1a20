//! A map as the library's tables (include/vorzhyket.h), and where each row stands in the file.
use std::collections::HashMap;
use vorzhyket::sizes::{LANE, ROAD};
use vorzhyket::ABSENT;

/// The tables of a map. Edges stand for every lane or for none.
#[derive(Clone, Debug, Default, PartialEq)]
pub struct Tables {
    pub text: Vec<u8>,
    pub roads: Vec<u32>,
    pub sections: Vec<u32>,
    pub junctions: Vec<u32>,
    pub connections: Vec<u32>,
    pub pairs: Vec<u32>,
    pub lanes: Vec<u32>,
    pub edges: Vec<f32>,
}

/// The line of the file, counted from 1, at which each row stands.
#[derive(Clone, Debug, Default, PartialEq)]
pub struct Lines {
    pub roads: Vec<u32>,
    pub junctions: Vec<u32>,
    pub connections: Vec<u32>,
    pub pairs: Vec<u32>,
    pub lanes: Vec<u32>,
}

/// A lane's borders as seen from above, from its start to its end, in metres from the origin: for drawing.
#[derive(Clone, Debug, Default, PartialEq)]
pub struct Outline {
    pub left: Vec<[f64; 2]>,
    pub right: Vec<[f64; 2]>,
}

/// A road whose length is not that of its geometry.
#[derive(Clone, Debug, PartialEq)]
pub struct WrongLength {
    pub road: Vec<u8>,
    pub line: u32,
    pub length: f64,
    pub geometry: f64,
}

/// A contactPoint that is neither "start" nor "end", of a link or a connection that is kept; its value as the file has it.
#[derive(Clone, Debug, PartialEq)]
pub struct LooseContact {
    pub of: Contact,
    pub line: u32,
    pub value: String,
}

/// What has a contactPoint: the link of a road's row, predecessor or successor, or a connection, by its id, of a junction's
/// row.
#[derive(Clone, Debug, PartialEq)]
pub enum Contact {
    Road { row: usize, link: &'static str },
    Connection { junction: usize, id: String },
}

/// What a file gives: the tables, and what is worth saying of the reading.
#[derive(Clone, Debug, Default)]
pub struct Map {
    pub tables: Tables,
    pub lines: Lines,
    /// What edges are counted from: 0, 0, or the map's middle in whole metres where it lies far from there.
    pub origin: [f64; 2],
    /// Is the first point of an edge the one on the lane's left border, left as the reference line runs? So it is of
    /// .xodr; in plain text it may be either.
    pub left_first: bool,
    /// One for each lane, or none; asked for by `draw` alone, and of .xodr alone.
    pub outlines: Vec<Outline>,
    pub wrong_lengths: Vec<WrongLength>,
    /// Those of roads, then those of connections.
    pub loose_contacts: Vec<LooseContact>,
    /// What was left out of the file, or read in another way than it says, with its line: a sentence each.
    pub notes: Vec<(u32, String)>,
}

/// Why a file can't be read: the line, where there is one, and a sentence.
#[derive(Clone, Debug, PartialEq)]
pub struct Fault {
    pub line: Option<u32>,
    pub what: String,
}

/// The text under construction: each name stands in it once.
#[derive(Debug, Default)]
pub struct Names {
    pub text: Vec<u8>,
    places: HashMap<Vec<u8>, [u32; 2]>,
}

impl Names {
    /// The two words of a name.
    pub fn place(&mut self, name: &[u8]) -> [u32; 2] {
        if let Some(&place) = self.places.get(name) {
            return place;
        }
        let place = [self.text.len() as u32, name.len() as u32];
        self.text.extend(name);
        self.places.insert(name.to_vec(), place);
        place
    }

    /// The two words of a name that may be absent.
    pub fn place_of(&mut self, name: Option<&[u8]>) -> [u32; 2] {
        name.map_or([ABSENT, 0], |n| self.place(n))
    }
}

impl Tables {
    /// The tables that every call reads.
    pub fn lent(&self) -> vorzhyket::Map<'_> {
        vorzhyket::Map {
            text: &self.text,
            roads: &self.roads,
            sections: &self.sections,
            junctions: &self.junctions,
            connections: &self.connections,
            pairs: &self.pairs,
        }
    }

    /// A name's bytes, of its two words.
    pub fn name(&self, words: &[u32]) -> &[u8] {
        vorzhyket::name(&self.text, words[0], words[1])
    }

    pub fn road(&self, row: usize) -> &[u32] {
        &self.roads[row * ROAD..][..ROAD]
    }

    pub fn lane(&self, row: usize) -> &[u32] {
        &self.lanes[row * LANE..][..LANE]
    }

    /// The numbers of the sections of a road's row; none where its part does not lie in the table.
    pub fn sections_of(&self, road: &[u32]) -> &[u32] {
        let (first, count) = (road[18] as usize, road[19] as usize);
        self.sections.get(first..first + count).unwrap_or_default()
    }

    /// The row of the road of each name.
    pub fn road_rows(&self) -> HashMap<&[u8], usize> {
        self.roads.chunks(ROAD).enumerate().map(|(row, r)| (self.name(&r[0..2]), row)).collect()
    }

    /// Does the map have edges? A map without lanes has none.
    pub fn has_edges(&self) -> bool {
        !self.edges.is_empty()
    }
}
