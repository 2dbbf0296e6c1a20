//! A map written as lines, from which the same tables are read again.
use super::number::written;
use super::words::is_blank;
use crate::map::Tables;
use std::borrow::Cow;
use std::slice::Chunks;
use vorzhyket::sizes::{CONNECTION, EDGE, JUNCTION, LANE, PAIR, ROAD};
use vorzhyket::ABSENT;

/// Does a name need quotation marks? So it does where it is empty, begins with # or a mark, or has a blank.
fn is_quoted(name: &[u8]) -> bool {
    matches!(name.first(), None | Some(b'#' | b'"')) || name.iter().any(|&b| is_blank(b) || b == b'\n')
}

/// A name as a word.
pub fn word(name: &[u8]) -> Cow<'_, [u8]> {
    if !is_quoted(name) {
        return Cow::Borrowed(name);
    }
    Cow::Owned([b"\"", name, b"\""].concat())
}

/// The first name of a road, junction, connection or target that no word means: of .xodr alone.
pub fn unwritable(t: &Tables) -> Option<&[u8]> {
    let bad = |name: &&[u8]| name.contains(&b'\n') || (is_quoted(name) && name.contains(&b'"'));
    let roads = t.roads.chunks(ROAD).flat_map(|r| [&r[0..2], &r[2..4], &r[6..8], &r[13..15]]);
    let junctions = t.junctions.chunks(JUNCTION).map(|j| &j[0..2]);
    let connections = t.connections.chunks(CONNECTION).flat_map(|c| [&c[0..2], &c[2..4]]);
    roads.chain(junctions).chain(connections).map(|words| t.name(words)).find(bad)
}

/// Writes a map.
pub fn write(t: &Tables, out: &mut Vec<u8>) {
    for r in t.roads.chunks(ROAD) {
        road(t, r, out);
    }
    for j in t.junctions.chunks(JUNCTION) {
        junction(t, j, out);
    }
    for (row, l) in t.lanes.chunks(LANE).enumerate() {
        lane(t, l, out);
        if t.has_edges() {
            edges(&t.edges[row * EDGE..][..EDGE], out);
        }
    }
}

fn text(out: &mut Vec<u8>, text: &str) {
    out.extend_from_slice(text.as_bytes());
}

fn name(t: &Tables, words: &[u32], out: &mut Vec<u8>) {
    out.extend_from_slice(&word(t.name(words)));
}

/// The rows of a part, of a table with that width.
fn part<'a>(table: &'a [u32], width: usize, part: &[u32]) -> Chunks<'a, u32> {
    let (first, count) = (part[0] as usize, part[1] as usize);
    table.get(first * width..(first + count) * width).unwrap_or_default().chunks(width)
}

fn road(t: &Tables, r: &[u32], out: &mut Vec<u8>) {
    text(out, "road ");
    name(t, &r[0..2], out);
    if r[2] != ABSENT {
        text(out, " inside ");
        name(t, &r[2..4], out);
    }
    target(t, " from", &r[4..11], out);
    target(t, " to", &r[11..18], out);
    text(out, " sections");
    for number in t.sections_of(r) {
        text(out, &format!(" {number}"));
    }
    out.push(b'\n');
}

fn target(t: &Tables, lead: &str, w: &[u32], out: &mut Vec<u8>) {
    if w[0] == 0 {
        return;
    }
    text(out, lead);
    text(out, if w[1] == 1 { " junction " } else { " road " });
    name(t, &w[2..4], out);
    text(out, if w[4] == 1 { " end" } else { " start" });
    text(out, if w[5] == 1 { "" } else { "?" });
    text(out, if w[6] == 1 { " along" } else { "" });
}

/// A junction's line, and those of its connections.
fn junction(t: &Tables, j: &[u32], out: &mut Vec<u8>) {
    text(out, "junction ");
    name(t, &j[0..2], out);
    text(out, [" common\n", " direct\n", " virtual\n"][j[2].min(2) as usize]);
    for c in part(&t.connections, CONNECTION, &j[3..5]) {
        connection(t, c, out);
    }
}

/// A connection's line, and those of its pairs.
fn connection(t: &Tables, c: &[u32], out: &mut Vec<u8>) {
    text(out, "connection ");
    name(t, &c[0..2], out);
    out.push(b' ');
    name(t, &c[2..4], out);
    text(out, if c[4] == 1 { " end\n" } else { " start\n" });
    for p in part(&t.pairs, PAIR, &c[5..7]) {
        text(out, &format!("pair {} {}\n", p[0] as i32, p[1] as i32));
    }
}

fn lane(t: &Tables, l: &[u32], out: &mut Vec<u8>) {
    text(out, &format!("lane {} ", l[0]));
    name(t, &l[1..3], out);
    let direction = ["forward", "backward", "both"][l[5].min(2) as usize];
    text(out, &format!(" {} {} {direction}", l[3], l[4] as i32));
    for (lead, link) in [("next", &l[6..8]), ("back", &l[8..10])] {
        if link[0] == 1 {
            text(out, &format!(" {lead} {}", link[1] as i32));
        }
    }
    out.push(b'\n');
}

fn edges(twelve: &[f32], out: &mut Vec<u8>) {
    text(out, "edges");
    for &x in twelve {
        text(out, " ");
        text(out, &written(x));
    }
    out.push(b'\n');
}
