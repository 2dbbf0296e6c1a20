//! `lanes check --json`: the facts of the summary as one JSON object. Names that are not UTF-8 are shown with the
//! replacement character, so two names can look alike there. A number that is not finite is null. At most five rows of
//! each kind stand in it, and the lists of links not at all; with `--all` every row does.
use crate::check::{Check, Lost, PlacedGap};
use crate::map::{Contact, LooseContact, Tables, WrongLength};
use crate::place::Place;
use vorzhyket::sizes::{CONNECTION, JUNCTION, LANE, PAIR, ROAD};

const MOST_SHOWN: usize = 5;

/// The object, on one line.
pub fn object(check: &Check, file: &str, all: bool) -> Vec<u8> {
    let shown = if all { usize::MAX } else { MOST_SHOWN };
    let findings = check.findings();
    let members = [
        ("file", string(file.as_bytes())),
        ("sizes", sizes(&check.map.tables)),
        ("repairs", repairs(check, shown)),
        ("links", links(check, all)),
        ("gaps", gaps(check, shown)),
        ("lost_movements", lost_movements(check, shown)),
        ("wrong_lengths", wrong_lengths(check, shown)),
        ("loose_contacts", loose_contacts(check, shown)),
        ("notes", notes(check, shown)),
        ("found", array(findings.iter().map(|f| string(f.as_bytes())))),
    ];
    (braced(&members) + "\n").into_bytes()
}

fn braced(members: &[(&str, String)]) -> String {
    let members: Vec<String> = members.iter().map(|(key, value)| format!("\"{key}\":{value}")).collect();
    format!("{{{}}}", members.join(","))
}

fn array(values: impl Iterator<Item = String>) -> String {
    format!("[{}]", values.collect::<Vec<_>>().join(","))
}

fn string(bytes: &[u8]) -> String {
    let mut out = String::from("\"");
    for c in String::from_utf8_lossy(bytes).chars() {
        match c {
            '"' | '\\' => out.extend(['\\', c]),
            c if (c as u32) < 0x20 => out += &format!("\\u{:04x}", c as u32),
            c => out.push(c),
        }
    }
    out + "\""
}

fn number(x: f64) -> String {
    if x.is_finite() {
        return x.to_string();
    }
    "null".into()
}

/// With as many digits as an f32 has.
fn short(x: f32) -> String {
    if x.is_finite() {
        return x.to_string();
    }
    "null".into()
}

fn sizes(t: &Tables) -> String {
    braced(&[
        ("roads", (t.roads.len() / ROAD).to_string()),
        ("sections", t.sections.len().to_string()),
        ("junctions", (t.junctions.len() / JUNCTION).to_string()),
        ("connections", (t.connections.len() / CONNECTION).to_string()),
        ("pairs", (t.pairs.len() / PAIR).to_string()),
        ("lanes", (t.lanes.len() / LANE).to_string()),
    ])
}

fn lane(t: &Tables, row: usize) -> String {
    let l = t.lane(row);
    braced(&[("identity", l[0].to_string()), ("road", string(t.name(&l[1..3]))), ("section", l[3].to_string()), ("number", (l[4] as i32).to_string())])
}

fn lanes(t: &Tables, rows: &[usize]) -> String {
    array(rows.iter().map(|&row| lane(t, row)))
}

fn repairs(check: &Check, shown: usize) -> String {
    let t = &check.found.repaired;
    let row = |&[_, junction, road, end]: &[u32; 4]| {
        let junction = string(t.name(&t.junctions[junction as usize * JUNCTION..][..2]));
        let end = string(if end == 0 { b"start" } else { b"end" });
        braced(&[("road", string(t.name(&t.road(road as usize)[0..2]))), ("junction", junction), ("end", end)])
    };
    let warnings = &check.found.warnings;
    braced(&[("road_ends", warnings.len().to_string()), ("connections_added", check.added.to_string()), ("rows", array(warnings.iter().take(shown).map(row)))])
}

fn links(check: &Check, all: bool) -> String {
    let (t, found) = (&check.found.repaired, check.found);
    let row = |i: usize| braced(&[("lane", lane(t, i)), ("onward", lanes(t, &found.successors[i])), ("before", lanes(t, &found.predecessors[i]))]);
    let mut members = vec![
        ("count", check.links.to_string()),
        ("two_way", check.two_way.to_string()),
        ("lanes_with_none_onward", check.none_onward.to_string()),
        ("lanes_with_none_before", check.none_before.to_string()),
    ];
    if all {
        members.push(("rows", array((0..check.lanes()).map(row))));
    }
    braced(&members)
}

fn gaps(check: &Check, shown: usize) -> String {
    let t = &check.found.repaired;
    let row = |g: &PlacedGap| {
        let (places, null) = (g.places.as_ref(), || "null".to_string());
        braced(&[
            ("lane", lane(t, g.gap.lane)),
            ("successor", lane(t, g.gap.successor)),
            ("width", short(f32::from_bits(g.gap.bits))),
            ("bits", string(format!("{:08x}", g.gap.bits).as_bytes())),
            ("x", places.map_or_else(null, |p| number(p.exit.at[0]))),
            ("y", places.map_or_else(null, |p| number(p.exit.at[1]))),
            ("exit", places.map_or_else(null, |p| place("u", &p.exit))),
            ("entry", places.map_or_else(null, |p| place("v", &p.entry))),
        ])
    };
    let rows = array(check.gaps.iter().take(shown).map(row));
    braced(&[("edges", t.has_edges().to_string()), ("count", check.gaps.len().to_string()), ("rows", rows)])
}

/// A place on an edge, with the name of its part.
fn place(part: &str, p: &Place) -> String {
    let end = string(if p.at_end { b"end" } else { b"start" });
    braced(&[("end", end), (part, short(p.part)), ("metres", number(p.metres)), ("x", number(p.at[0])), ("y", number(p.at[1]))])
}

fn lost_movements(check: &Check, shown: usize) -> String {
    let t = &check.found.repaired;
    let row = |l: &Lost| {
        let junction = string(t.name(&t.road(l.road)[2..4]));
        braced(&[("lane", lane(t, l.lane)), ("junction", junction), ("entered", l.entered.to_string()), ("left", (!l.entered).to_string())])
    };
    let rows = array(check.lost.iter().take(shown).map(row));
    let [entered, left] = check.lost_ways().map(|n| n.to_string());
    braced(&[("entered_not_left", entered), ("left_not_entered", left), ("rows", rows)])
}

fn wrong_lengths(check: &Check, shown: usize) -> String {
    let row = |w: &WrongLength| {
        let (length, geometry) = (number(w.length), number(w.geometry));
        braced(&[("road", string(&w.road)), ("line", w.line.to_string()), ("length", length), ("geometry", geometry)])
    };
    let all = &check.map.wrong_lengths;
    braced(&[("count", all.len().to_string()), ("rows", array(all.iter().take(shown).map(row)))])
}

fn loose_contacts(check: &Check, shown: usize) -> String {
    let t = &check.map.tables;
    let row = |c: &LooseContact| {
        let null = || "null".to_string();
        let [road, link, junction, connection] = match &c.of {
            Contact::Road { row, link } => [string(t.name(&t.road(*row)[0..2])), string(link.as_bytes()), null(), null()],
            Contact::Connection { junction, id } => [null(), null(), string(t.name(&t.junctions[junction * JUNCTION..][..2])), string(id.as_bytes())],
        };
        let (line, value) = (c.line.to_string(), string(c.value.as_bytes()));
        braced(&[("road", road), ("link", link), ("junction", junction), ("connection", connection), ("line", line), ("value", value)])
    };
    let all = &check.map.loose_contacts;
    braced(&[("count", all.len().to_string()), ("rows", array(all.iter().take(shown).map(row)))])
}

fn notes(check: &Check, shown: usize) -> String {
    let row = |(line, what): &(u32, String)| braced(&[("line", line.to_string()), ("what", string(what.as_bytes()))]);
    let all = &check.map.notes;
    braced(&[("count", all.len().to_string()), ("rows", array(all.iter().take(shown).map(row)))])
}

#[cfg(test)]
mod tests {
    use super::*;
    use crate::map::Map;
    use crate::{form, found};

    #[test]
    fn lengths_contacts_and_notes() {
        let mut map: Map = form::read(b"road a\xff sections 0\nlane 1 a\xff 0 1 forward\njunction j common\n").expect("a map");
        map.wrong_lengths = vec![WrongLength { road: b"a\xff".to_vec(), line: 3, length: 50.02, geometry: f64::INFINITY }; 6];
        let of = Contact::Connection { junction: 0, id: "a\n".into() };
        map.loose_contacts = vec![LooseContact { of, line: 5, value: "\"End\"\u{1}".into() }; 6];
        map.loose_contacts[0].of = Contact::Road { row: 0, link: "successor" };
        map.notes = vec![(7, "a \"mark\"".into()); 6];
        let found = found::find(&map.tables).expect("no refusal");
        let length = "{\"road\":\"a\u{fffd}\",\"line\":3,\"length\":50.02,\"geometry\":null}";
        let note = "{\"line\":7,\"what\":\"a \\\"mark\\\"\"}";
        let [of_road, of_connection] = [
            "{\"road\":\"a\u{fffd}\",\"link\":\"successor\",\"junction\":null,\"connection\":null,",
            "{\"road\":null,\"link\":null,\"junction\":\"j\",\"connection\":\"a\\u000a\",",
        ]
        .map(|of| format!("{of}\"line\":5,\"value\":\"\\\"End\\\"\\u0001\"}}"));
        for (all, n) in [(false, 5), (true, 6)] {
            let text = String::from_utf8(object(&Check::new(&map, &found, false), "m.xodr", all)).expect("UTF-8");
            assert!(text.contains(&format!("\"wrong_lengths\":{{\"count\":6,\"rows\":[{}]}}", [length].repeat(n).join(","))), "{text}");
            let contacts = [vec![&of_road[..]], vec![&of_connection[..]; n - 1]].concat().join(",");
            assert!(text.contains(&format!("\"loose_contacts\":{{\"count\":6,\"rows\":[{contacts}]}}")), "{text}");
            assert!(text.contains(&format!("\"notes\":{{\"count\":6,\"rows\":[{}]}}", [note].repeat(n).join(","))), "{text}");
            assert!(text.ends_with(",\"found\":[\"6 wrong lengths\",\"6 loose contact points\",\"6 notes\"]}\n"), "{text}");
        }
    }
}
