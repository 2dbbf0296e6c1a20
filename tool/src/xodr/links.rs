//! Targets of roads and links of lanes: their attributes, read by the library in pieces that it takes.
use super::document::{child, Element, LineStarts};
use super::lanes::Lane;
use super::roads::{Road, ENDS};
use crate::map::{Contact, Fault, LooseContact, Names};
use vorzhyket::sizes::{LINKS, MOST_ROWS, MOST_TEXT, RAW_LANE, RAW_TARGET, TARGET, WARNING};
use vorzhyket::{Refusal, TargetOutputs};

/// The two targets of each road, with names in the map's text: fourteen words a road. Adds the contact points that are
/// neither "start" nor "end".
pub fn targets(roads: &[Road], lines: &LineStarts, names: &mut Names, loose: &mut Vec<LooseContact>) -> Result<Vec<u32>, Fault> {
    let mut targets = Vec::with_capacity(roads.len() * 2 * TARGET);
    let mut reading = Reading::new(RAW_TARGET, |text: &[u8], raw: &[u32]| {
        let (rows, first) = (raw.len() / RAW_TARGET, targets.len() / (2 * TARGET));
        let (mut read, mut warnings) = (vec![0; rows * TARGET], vec![0; rows * WARNING]);
        let outputs = TargetOutputs { targets: &mut read, warnings: &mut warnings };
        let n = vorzhyket::read_targets(text, raw, outputs).map_err(|refusal| refused("read_targets", refusal))?;
        for row in read.chunks(TARGET) {
            let name = vorzhyket::name(text, row[2], row[3]);
            let place = if row[0] == 1 { names.place(name) } else { [0, 0] };
            targets.extend([row[0], row[1], place[0], place[1], row[4], row[5], row[6]]);
        }
        loose.extend(warnings.chunks(WARNING).take(n.warnings).map(|w| contact(roads, first + w[2] as usize, w[3] as usize, lines)));
        Ok(())
    });
    for road in roads {
        reading.add(&road.ends().map(|end| Row {
            flag: Some(u32::from(end.is_some())),
            attributes: ["elementType", "elementId", "contactPoint", "elementS"].map(|name| attribute_of(end, name)),
        }))?;
    }
    reading.flush()?;
    Ok(targets)
}

/// The contact point of the predecessor, 0, or successor, 1, of a road.
fn contact(roads: &[Road], row: usize, end: usize, lines: &LineStarts) -> LooseContact {
    let (road, element) = (&roads[row], roads[row].ends()[end]);
    LooseContact {
        of: Contact::Road { row, link: ENDS[end] },
        line: element.map_or(road.line, |e| lines.line(e)),
        value: attribute_of(element, "contactPoint").unwrap_or_default().to_string(),
    }
}

/// The links of each lane: predecessor flag and number, successor flag and number.
pub fn lane_links<'a>(lanes: impl Iterator<Item = &'a Lane<'a>>) -> Result<Vec<u32>, Fault> {
    let mut links = Vec::new();
    let mut reading = Reading::new(RAW_LANE, |text: &[u8], raw: &[u32]| {
        let first = links.len();
        links.resize(first + raw.len() / RAW_LANE * LINKS, 0);
        vorzhyket::read_lanes(text, raw, &mut links[first..]).map_err(|refusal| refused("read_lanes", refusal))?;
        Ok(())
    });
    for lane in lanes {
        let link = child(lane.element, "link");
        reading.add(&[Row { flag: None, attributes: ENDS.map(|end| attribute_of(link.and_then(|link| child(link, end)), "id")) }])?;
    }
    reading.flush()?;
    Ok(links)
}

fn attribute_of<'a>(element: Option<Element<'a>>, name: &str) -> Option<&'a str> {
    element.and_then(|e| e.attribute(name))
}

/// A refusal of the library as a fault of the file.
pub fn refused(call: &str, refusal: Refusal) -> Fault {
    Fault { line: None, what: format!("{call}: refused, {}: {refusal}", refusal.number()) }
}

/// A raw row: a flag, where its table has one, and attributes.
struct Row<'r, const N: usize> {
    flag: Option<u32>,
    attributes: [Option<&'r str>; N],
}

/// Raw rows on their way to the library, with a text of their own: as many as a call takes, which `read` makes.
struct Reading<F> {
    words: usize,
    read: F,
    names: Names,
    rows: Vec<u32>,
}

impl<F: FnMut(&[u8], &[u32]) -> Result<(), Fault>> Reading<F> {
    fn new(words: usize, read: F) -> Self {
        Reading { words, read, names: Names::default(), rows: Vec::new() }
    }

    /// Adds the rows of a road or of a lane, which stay together. Reads the rows before them where there is no more room.
    fn add<const N: usize>(&mut self, rows: &[Row<N>]) -> Result<(), Fault> {
        let more: usize = rows.iter().flat_map(|row| row.attributes).flatten().map(str::len).sum();
        if self.rows.len() / self.words + rows.len() > MOST_ROWS || self.names.text.len() + more > MOST_TEXT {
            self.flush()?;
        }
        for row in rows {
            self.rows.extend(row.flag);
            for attribute in row.attributes {
                self.rows.extend(self.names.place_of(attribute.map(str::as_bytes)));
            }
        }
        Ok(())
    }

    /// Reads the rows, and begins anew.
    fn flush(&mut self) -> Result<(), Fault> {
        (self.read)(&self.names.text, &self.rows)?;
        (self.names, self.rows) = (Names::default(), Vec::new());
        Ok(())
    }
}
