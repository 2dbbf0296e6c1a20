//! Junctions with their connections and lane links: their attributes, read by the library in pieces that it takes.
use super::document::{children, shown, Element, LineStarts};
use super::links::refused;
use crate::map::{Contact, Fault, LooseContact, Map, Names};
use std::collections::HashSet;
use vorzhyket::sizes::{CONNECTION, JUNCTION, MOST_ROWS, MOST_TEXT, PAIR, RAW_CONNECTION, RAW_JUNCTION, RAW_LANE_LINK, WARNING};
use vorzhyket::{read_junctions, JunctionOutputs, RawJunctions};

/// Reads the junctions into the map's tables, lines, contact points spelled loosely and notes; only those of these names,
/// where names are given.
pub fn read<'a>(root: Element<'a>, kept: Option<&HashSet<&str>>, lines: &'a LineStarts, names: &mut Names, map: &mut Map) -> Result<(), Fault> {
    let mut piece = Piece::default();
    for junction in children(root, "junction") {
        match junction.attribute("id") {
            None => map.notes.push((lines.line(junction), "a junction without an id is left out".to_string())),
            Some(id) if kept.is_some_and(|kept| !kept.contains(id)) => continue,
            Some(_) => {}
        }
        if !piece.has_room(&piece.junctions, junction, &JUNCTION_NAMES) {
            piece.read(lines, names, map)?;
        }
        piece.add_junction(junction);
        for connection in children(junction, "connection") {
            if !piece.has_room(&piece.connections, connection, &CONNECTION_NAMES) {
                piece.read(lines, names, map)?;
                piece.go_on_with(junction, None, lines)?;
            }
            piece.add_connection(connection);
            for link in children(connection, "laneLink") {
                if !piece.has_room(&piece.links, link, &LINK_NAMES) {
                    piece.read(lines, names, map)?;
                    piece.go_on_with(junction, Some(connection), lines)?;
                }
                piece.add_link(link);
            }
        }
    }
    piece.read(lines, names, map)
}

const JUNCTION_NAMES: [&str; 3] = ["id", "type", "mainRoad"];
const CONNECTION_NAMES: [&str; 6] = ["id", "type", "incomingRoad", "connectingRoad", "linkedRoad", "contactPoint"];
const LINK_NAMES: [&str; 2] = ["from", "to"];
/// Where the name of the incoming road stands among a raw connection's words.
const INCOMING: usize = 4;

/// A raw table, and the element of each row.
#[derive(Default)]
struct Raw<'a> {
    words: Vec<u32>,
    elements: Vec<Element<'a>>,
}

/// Junctions for one call of the library, with a text of their own.
#[derive(Default)]
struct Piece<'a> {
    names: Names,
    junctions: Raw<'a>,
    connections: Raw<'a>,
    links: Raw<'a>,
    /// Whether the first junction began in the piece before, and the first connection.
    junction_goes_on: bool,
    connection_goes_on: bool,
}

impl<'a> Piece<'a> {
    fn has_room(&self, table: &Raw, element: Element, attributes: &[&str]) -> bool {
        let more: usize = attributes.iter().filter_map(|name| element.attribute(*name)).map(|a| a.len() + 1).sum();
        table.elements.len() < MOST_ROWS && self.names.text.len() + more <= MOST_TEXT
    }

    fn add_junction(&mut self, element: Element<'a>) {
        for name in JUNCTION_NAMES {
            self.junctions.words.extend(self.names.place_of(element.attribute(name).map(str::as_bytes)));
        }
        self.junctions.words.extend([self.connections.elements.len() as u32, 0]);
        self.junctions.elements.push(element);
    }

    /// The incoming road's name gets a place of its own in the text: by it the connection is found again.
    fn add_connection(&mut self, element: Element<'a>) {
        for name in CONNECTION_NAMES {
            let attribute = element.attribute(name).map(str::as_bytes);
            let place = match attribute.filter(|_| name == "incomingRoad") {
                Some(incoming) => own_place(&mut self.names, incoming),
                None => self.names.place_of(attribute),
            };
            self.connections.words.extend(place);
        }
        self.connections.words.extend([self.links.elements.len() as u32, 0]);
        self.connections.elements.push(element);
        add_to_last(&mut self.junctions.words);
    }

    fn add_link(&mut self, element: Element<'a>) {
        for name in LINK_NAMES {
            self.links.words.extend(self.names.place_of(element.attribute(name).map(str::as_bytes)));
        }
        self.links.elements.push(element);
        add_to_last(&mut self.connections.words);
    }

    /// Begins with a junction, and a connection, that the piece before had no room for in full. Their names leave half
    /// of the text at least, so that pieces are few.
    fn go_on_with(&mut self, junction: Element<'a>, connection: Option<Element<'a>>, lines: &LineStarts) -> Result<(), Fault> {
        self.add_junction(junction);
        self.junction_goes_on = true;
        if let Some(connection) = connection {
            self.add_connection(connection);
            self.connection_goes_on = true;
        }
        if self.names.text.len() > MOST_TEXT / 2 {
            return Err(Fault { line: Some(lines.line(junction)), what: "a junction has names longer than the library takes".to_string() });
        }
        Ok(())
    }

    /// Reads the piece into the map, and begins anew.
    fn read(&mut self, lines: &LineStarts, names: &mut Names, map: &mut Map) -> Result<(), Fault> {
        let piece = std::mem::take(self);
        let raw =
            RawJunctions { text: &piece.names.text, junctions: &piece.junctions.words, connections: &piece.connections.words, lane_links: &piece.links.words };
        let [j, c, l] = [&piece.junctions, &piece.connections, &piece.links].map(|table| table.elements.len());
        let (mut junctions, mut connections, mut pairs) = (vec![0; j * JUNCTION], vec![0; c * CONNECTION], vec![0; l * PAIR]);
        let mut warnings = vec![0; (c + l) * WARNING];
        let outputs = JunctionOutputs { junctions: &mut junctions, connections: &mut connections, pairs: &mut pairs, warnings: &mut warnings };
        let n = read_junctions(raw, outputs).map_err(|refusal| refused("read_junctions", refusal))?;
        warnings.truncate(n.warnings * WARNING);
        piece.note(&warnings, lines, map);
        let rows = |kind: u32, word: usize| warnings.chunks(WARNING).filter(move |w| w[0] == kind).map(move |w| w[word] as usize).collect();
        let read = Answer {
            piece: &piece,
            junctions: &junctions[..n.junctions * JUNCTION],
            connections: &connections,
            pairs: &pairs,
            dropped: rows(2, 3),
            loose: rows(4, 2),
        };
        read.add_to(map, names, lines)
    }

    /// What the library dropped, as notes. A connection that goes on was noted with the piece before.
    fn note(&self, warnings: &[u32], lines: &LineStarts, map: &mut Map) {
        for w in warnings.chunks(WARNING).filter(|w| w[0] != 4) {
            let (junction, row) = (self.junctions.elements[w[1] as usize], w[2] as usize);
            let connection = self.connections.elements[row];
            let id = |e: Element| shown(e.attribute("id").unwrap_or(""));
            let place = format!("junction {}: connection {}", id(junction), id(connection));
            if w[0] == 2 {
                let what = format!("{place}: a lane link has no two lane numbers and is left out");
                map.notes.push((lines.line(self.links.elements[w[3] as usize]), what));
            } else if row > 0 || !self.connection_goes_on {
                let why = if junction.attribute("id").is_none() { "is of a junction without an id" } else { "names no two roads" };
                map.notes.push((lines.line(connection), format!("{place} {why} and is left out")));
            }
        }
    }
}

/// A name at a place where no other name is.
fn own_place(names: &mut Names, name: &[u8]) -> [u32; 2] {
    let place = [names.text.len() as u32, name.len() as u32];
    names.text.extend(name);
    names.text.push(0);
    place
}

/// Counts one more row in the part with which the last row ends.
fn add_to_last(words: &mut [u32]) {
    if let Some(count) = words.last_mut() {
        *count += 1;
    }
}

/// What the library read of a piece.
struct Answer<'p> {
    piece: &'p Piece<'p>,
    junctions: &'p [u32],
    connections: &'p [u32],
    pairs: &'p [u32],
    /// The rows of the lane links that it dropped, and of the connections whose contact points are spelled loosely.
    dropped: HashSet<usize>,
    loose: HashSet<usize>,
}

impl Answer<'_> {
    /// Adds the rows to the map, with names in the map's text.
    fn add_to(&self, map: &mut Map, names: &mut Names, lines: &LineStarts) -> Result<(), Fault> {
        let mut named = self.piece.junctions.elements.iter().enumerate().filter(|(_, e)| e.attribute("id").is_some());
        let mut raw = 0;
        for row in self.junctions.chunks(JUNCTION) {
            let (place, element) = named.next().ok_or_else(lost)?;
            if place > 0 || !self.piece.junction_goes_on {
                let name = names.place(self.name(&row[0..2]));
                let first = (map.tables.connections.len() / CONNECTION) as u32;
                map.tables.junctions.extend([name[0], name[1], row[2], first, 0]);
                map.lines.junctions.push(lines.line(*element));
            }
            for connection in part(self.connections, CONNECTION, &row[3..5]).chunks(CONNECTION) {
                raw += self.piece.connections.words.chunks(RAW_CONNECTION).skip(raw).position(|w| w[INCOMING..][..2] == connection[0..2]).ok_or_else(lost)?;
                if raw > 0 || !self.piece.connection_goes_on {
                    let [incoming, connecting] = [0, 2].map(|i| names.place(self.name(&connection[i..i + 2])));
                    let first = (map.tables.pairs.len() / PAIR) as u32;
                    map.tables.connections.extend([incoming[0], incoming[1], connecting[0], connecting[1], connection[4], first, 0]);
                    map.lines.connections.push(lines.line(self.piece.connections.elements[raw]));
                    add_to_last(&mut map.tables.junctions);
                    if self.loose.contains(&raw) {
                        map.loose_contacts.push(contact(self.piece.connections.elements[raw], map.lines.junctions.len() - 1, lines));
                    }
                }
                self.add_pairs(raw, part(self.pairs, PAIR, &connection[5..7]), map, lines);
                raw += 1;
            }
        }
        Ok(())
    }

    /// Adds the pairs of a connection, which is a raw row.
    fn add_pairs(&self, raw: usize, pairs: &[u32], map: &mut Map, lines: &LineStarts) {
        let words = &self.piece.connections.words[raw * RAW_CONNECTION..][..RAW_CONNECTION];
        let (first, count) = (words[RAW_CONNECTION - 2] as usize, words[RAW_CONNECTION - 1] as usize);
        let kept = (first..first + count).filter(|row| !self.dropped.contains(row));
        for (pair, row) in pairs.chunks(PAIR).zip(kept) {
            map.tables.pairs.extend(pair);
            map.lines.pairs.push(lines.line(self.piece.links.elements[row]));
            add_to_last(&mut map.tables.connections);
        }
    }

    fn name(&self, words: &[u32]) -> &[u8] {
        vorzhyket::name(&self.piece.names.text, words[0], words[1])
    }
}

/// The contact point of a connection of the junction in that row of the map.
fn contact(connection: Element, junction: usize, lines: &LineStarts) -> LooseContact {
    let of = |name| connection.attribute(name).unwrap_or_default().to_string();
    LooseContact { of: Contact::Connection { junction, id: of("id") }, line: lines.line(connection), value: of("contactPoint") }
}

/// The rows of a part: first row and count.
fn part<'t>(table: &'t [u32], width: usize, part: &[u32]) -> &'t [u32] {
    let (first, count) = (part[0] as usize, part[1] as usize);
    &table[first * width..][..count * width]
}

/// The library's promises leave no room for this.
fn lost() -> Fault {
    Fault { line: None, what: "read_junctions: a row that was read is not among those handed over".to_string() }
}

/// Words of a raw row are as the library wants them.
const _: () =
    assert!(2 * JUNCTION_NAMES.len() + 2 == RAW_JUNCTION && 2 * CONNECTION_NAMES.len() + 2 == RAW_CONNECTION && 2 * LINK_NAMES.len() == RAW_LANE_LINK);
