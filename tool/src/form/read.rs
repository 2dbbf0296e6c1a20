//! A map read from plain text: each line a row of a table.
use super::words::{lines, Words};
use crate::map::{Fault, Lines, Map, Names, Tables};
use vorzhyket::sizes::{EDGE, LANE, TARGET};
use vorzhyket::ABSENT;

const KINDS: &str = "road, junction, connection, pair, lane or edges";

/// The tables under construction.
#[derive(Default)]
struct Reader {
    names: Names,
    tables: Tables,
    lines: Lines,
}

/// Reads a map.
pub fn read(data: &[u8]) -> Result<Map, Fault> {
    let mut reader = Reader::default();
    for mut words in lines(data) {
        if !words.at_end() {
            reader.row(&mut words)?;
            words.close()?;
        }
    }
    reader.settled()
}

/// Reads names, one on each line, with the lines.
pub fn names(data: &[u8]) -> Result<Vec<(u32, Vec<u8>)>, Fault> {
    let mut out = Vec::new();
    for mut words in lines(data) {
        if !words.at_end() {
            out.push((words.number, words.name()?.to_vec()));
            words.close()?;
        }
    }
    Ok(out)
}

/// One more in the last word of a table: the count of a part.
fn count_one(table: &mut [u32]) {
    if let Some(count) = table.last_mut() {
        *count += 1;
    }
}

impl Reader {
    fn row(&mut self, words: &mut Words) -> Result<(), Fault> {
        match words.choice(&["road", "junction", "connection", "pair", "lane", "edges"], KINDS)? {
            0 => self.road(words),
            1 => self.junction(words),
            2 => self.connection(words),
            3 => self.pair(words),
            4 => self.lane(words),
            _ => self.edges(words),
        }
    }

    fn name(&mut self, words: &mut Words) -> Result<[u32; 2], Fault> {
        Ok(self.names.place(words.name()?))
    }

    /// road NAME [inside JUNCTION] [from TARGET] [to TARGET] [sections N..]
    fn road(&mut self, words: &mut Words) -> Result<(), Fault> {
        let name = self.name(words)?;
        let inside = if words.takes("inside") { self.name(words)? } else { [ABSENT, 0] };
        let from = self.target(words, "from")?;
        let to = self.target(words, "to")?;
        let first = self.tables.sections.len();
        if words.takes("sections") {
            while !words.at_end() {
                self.tables.sections.push(words.whole("a section's number")?);
            }
        }
        let count = self.tables.sections.len() - first;
        let row = [&name[..], &inside, &from, &to, &[first as u32, count as u32]].concat();
        self.tables.roads.extend(row);
        self.lines.roads.push(words.number);
        Ok(())
    }

    /// A target after its leading word; zeros where that does not stand there.
    /// road NAME CONTACT [along], or junction NAME [CONTACT] [along]
    fn target(&mut self, words: &mut Words, lead: &str) -> Result<[u32; TARGET], Fault> {
        if !words.takes(lead) {
            return Ok([0; TARGET]);
        }
        let kind = words.choice(&["road", "junction"], "road or junction")?;
        let [start, length] = self.name(words)?;
        let [contact, given] = contact(words, kind == 1)?;
        Ok([1, kind, start, length, contact, given, u32::from(words.takes("along"))])
    }

    /// junction NAME common|direct|virtual
    fn junction(&mut self, words: &mut Words) -> Result<(), Fault> {
        let [start, length] = self.name(words)?;
        let kind = words.choice(&["common", "direct", "virtual"], "common, direct or virtual")?;
        let first = self.lines.connections.len() as u32;
        self.tables.junctions.extend([start, length, kind, first, 0]);
        self.lines.junctions.push(words.number);
        Ok(())
    }

    /// connection INCOMING CONNECTING start|end
    fn connection(&mut self, words: &mut Words) -> Result<(), Fault> {
        if self.tables.junctions.is_empty() {
            return Err(words.fault("a connection, but no junction before it"));
        }
        let (incoming, connecting) = (self.name(words)?, self.name(words)?);
        let contact = words.choice(&["start", "end"], "start or end")?;
        let first = self.lines.pairs.len() as u32;
        self.tables.connections.extend([&incoming[..], &connecting, &[contact, first, 0]].concat());
        self.lines.connections.push(words.number);
        count_one(&mut self.tables.junctions);
        Ok(())
    }

    /// pair FROM TO
    fn pair(&mut self, words: &mut Words) -> Result<(), Fault> {
        if self.tables.connections.is_empty() {
            return Err(words.fault("a pair, but no connection before it"));
        }
        let pair = [words.lane_number()?, words.lane_number()?];
        self.tables.pairs.extend(pair);
        self.lines.pairs.push(words.number);
        count_one(&mut self.tables.connections);
        Ok(())
    }

    /// lane IDENTITY ROAD SECTION NUMBER forward|backward|both [next NUMBER] [back NUMBER]
    fn lane(&mut self, words: &mut Words) -> Result<(), Fault> {
        let identity = words.whole("a lane's identity")?;
        let [start, length] = self.name(words)?;
        let section = words.whole("a section's number")?;
        let number = words.lane_number()?;
        let direction = words.choice(&["forward", "backward", "both"], "forward, backward or both")?;
        let (next, back) = (link(words, "next")?, link(words, "back")?);
        self.tables.lanes.extend([identity, start, length, section, number, direction, next[0], next[1], back[0], back[1]]);
        self.lines.lanes.push(words.number);
        Ok(())
    }

    /// edges and twelve numbers
    fn edges(&mut self, words: &mut Words) -> Result<(), Fault> {
        let (lanes, edged) = (self.tables.lanes.len() / LANE, self.tables.edges.len() / EDGE);
        if lanes == edged {
            return Err(words.fault("edges, but no lane before them that has none yet"));
        }
        if edged + 1 != lanes {
            return Err(words.fault("edges, but a lane before this one has none"));
        }
        for _ in 0..EDGE {
            self.tables.edges.push(words.real()?);
        }
        Ok(())
    }

    /// The map, with edges for every lane or for none.
    fn settled(mut self) -> Result<Map, Fault> {
        let edged = self.tables.edges.len() / EDGE;
        if let (true, Some(&line)) = (edged > 0, self.lines.lanes.get(edged)) {
            return Err(Fault { line: Some(line), what: "this lane has no edges, and those before it have".into() });
        }
        self.tables.text = self.names.text;
        Ok(Map { tables: self.tables, lines: self.lines, ..Map::default() })
    }
}

/// A contact, and whether it was given; a junction's may be left out.
fn contact(words: &mut Words, junction: bool) -> Result<[u32; 2], Fault> {
    match words.choice(&["start", "end", "start?", "end?"], "start, end, start? or end?") {
        Ok(k) => Ok([k % 2, 1 - k / 2]),
        Err(_) if junction => Ok([0, 0]),
        Err(fault) => Err(fault),
    }
}

/// A lane link after that word: flag and number.
fn link(words: &mut Words, lead: &str) -> Result<[u32; 2], Fault> {
    if !words.takes(lead) {
        return Ok([0, 0]);
    }
    Ok([1, words.lane_number()?])
}
