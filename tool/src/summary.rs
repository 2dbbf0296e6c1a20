//! `lanes check` in words: a summary that fits a screen, or every row.
use crate::check::Check;
use crate::labels::{self, counted};
use crate::map::Contact;
use crate::place::Places;
use crate::report;
use vorzhyket::sizes::{CONNECTION, JUNCTION, LANE, PAIR, ROAD};

/// The most lines of a summary, and the most rows of a kind in it.
const SCREEN: usize = 24;
const MOST_SHOWN: usize = 5;

/// A line, and under it rows of one kind.
struct Kind {
    head: String,
    count: usize,
    row: fn(&Check, usize) -> Vec<u8>,
}

/// The summary; every row where `all`.
pub fn text(check: &Check, all: bool) -> Vec<u8> {
    let kinds = kinds(check, all);
    let shown = if all { usize::MAX } else { fitting(&kinds) };
    let mut out = Vec::new();
    for kind in &kinds {
        add(check, kind, shown, &mut out);
    }
    let findings = check.findings();
    let found = if findings.is_empty() { "nothing".into() } else { findings.join(", ") };
    out.extend(format!("found: {found}\n").into_bytes());
    out
}

fn kinds(check: &Check, all: bool) -> Vec<Kind> {
    let plain = |head: String| Kind { head, count: 0, row: |_, _| Vec::new() };
    let (lengths, contacts, notes) = (check.map.wrong_lengths.len(), check.map.loose_contacts.len(), check.map.notes.len());
    let mut kinds = vec![
        plain(sizes(check)),
        Kind {
            head: report::repair_sum(&check.map.tables, &check.found.repaired, check.found.warnings.len()),
            count: check.found.warnings.len(),
            row: warning,
        },
        Kind { head: links(check), count: if all { check.lanes() } else { 0 }, row: |c, i| report::links_of(c.found, i) },
        Kind { head: gaps(check), count: check.gaps.len(), row: gap },
        Kind { head: movements(check), count: check.lost.len(), row: lost },
    ];
    if lengths > 0 {
        kinds.push(Kind { head: format!("lengths: {} of another length than the geometry", counted(lengths, "road")), count: lengths, row: length });
    }
    if contacts > 0 {
        let head = format!("contacts: {} spelled loosely, neither \"start\" nor \"end\"", counted(contacts, "contact point"));
        kinds.push(Kind { head, count: contacts, row: contact });
    }
    if notes > 0 {
        kinds.push(Kind { head: format!("notes: {} on the reading", counted(notes, "note")), count: notes, row: note });
    }
    kinds
}

/// The lines of a kind, of which so many rows are shown.
fn lines(kind: &Kind, shown: usize) -> usize {
    1 + kind.count.min(shown) + usize::from(kind.count > shown)
}

/// The most rows of each kind with which the summary fits a screen.
fn fitting(kinds: &[Kind]) -> usize {
    let fits = |shown: &usize| kinds.iter().map(|k| lines(k, *shown)).sum::<usize>() < SCREEN;
    (1..=MOST_SHOWN).rev().find(fits).unwrap_or(1)
}

fn add(check: &Check, kind: &Kind, shown: usize, out: &mut Vec<u8>) {
    out.extend(format!("{}\n", kind.head).into_bytes());
    for i in 0..kind.count.min(shown) {
        out.extend(b"  ");
        out.extend((kind.row)(check, i));
        out.push(b'\n');
    }
    if kind.count > shown {
        out.extend(format!("  .. and {} more (--all shows them)\n", kind.count - shown).into_bytes());
    }
}

fn sizes(check: &Check) -> String {
    let t = &check.map.tables;
    let sizes = [
        counted(t.roads.len() / ROAD, "road"),
        counted(t.sections.len(), "section"),
        counted(t.junctions.len() / JUNCTION, "junction"),
        counted(t.connections.len() / CONNECTION, "connection"),
        counted(t.pairs.len() / PAIR, "pair"),
        counted(t.lanes.len() / LANE, "lane"),
    ];
    format!("map: {}", sizes.join(", "))
}

fn warning(check: &Check, i: usize) -> Vec<u8> {
    report::warning(&check.found.repaired, check.found.warnings[i])
}

fn links(check: &Check) -> String {
    let (links, two_way) = (counted(check.links, "link"), counted(check.two_way, "two-way link"));
    format!("links: {links}, {two_way}; {} with none onward, {} with none before", counted(check.none_onward, "lane"), counted(check.none_before, "lane"))
}

fn gaps(check: &Check) -> String {
    report::gap_sum(check.found) + if check.gaps.len() > 1 { ", the widest first" } else { "" }
}

fn gap(check: &Check, i: usize) -> Vec<u8> {
    let (t, g) = (&check.found.repaired, &check.gaps[i]);
    let width = format!("{} from ", labels::width(g.gap.bits, 3));
    let at = match &g.places {
        Some(Places { exit, .. }) => format!(", at {}, {}", labels::metres(exit.at[0], 2), labels::metres(exit.at[1], 2)),
        None => ", no place".into(),
    };
    [width.as_bytes(), &labels::lane(t, g.gap.lane), b" to ", &labels::lane(t, g.gap.successor), at.as_bytes()].concat()
}

fn movements(check: &Check) -> String {
    if check.lost.is_empty() {
        return "movements: none lost".into();
    }
    let [entered, left] = check.lost_ways();
    format!("movements: {} inside a junction can be entered and not left, {left} left and not entered", counted(entered, "lane"))
}

fn lost(check: &Check, i: usize) -> Vec<u8> {
    let (t, l) = (&check.found.repaired, &check.lost[i]);
    let what: &[u8] = if l.entered { b" can be entered and not left" } else { b" can be left and not entered" };
    let junction = labels::name(t.name(&t.road(l.road)[2..4]));
    [&labels::lane(t, l.lane)[..], b" in junction ", &junction, what].concat()
}

fn length(check: &Check, i: usize) -> Vec<u8> {
    let w = &check.map.wrong_lengths[i];
    let lengths = format!(" (line {}): length {} m, geometry {} m", w.line, labels::metres(w.length, 3), labels::metres(w.geometry, 3));
    [b"road ", &labels::name(&w.road)[..], lengths.as_bytes()].concat()
}

fn contact(check: &Check, i: usize) -> Vec<u8> {
    let (t, c) = (&check.map.tables, &check.map.loose_contacts[i]);
    let (line, value) = (format!(" (line {}): ", c.line), format!(": contactPoint {} reads as start", labels::quoted(&c.value)));
    match &c.of {
        Contact::Road { row, link } => {
            [b"road ", &labels::road(t, *row)[..], line.as_bytes(), link.as_bytes(), value.as_bytes(), b", not given: no repair goes by it"].concat()
        }
        Contact::Connection { junction, id } => {
            [b"junction ", &labels::junction(t, *junction)[..], line.as_bytes(), b"connection ", &labels::name(id.as_bytes()), value.as_bytes()].concat()
        }
    }
}

fn note(check: &Check, i: usize) -> Vec<u8> {
    let (line, what) = &check.map.notes[i];
    format!("line {line}: {what}").into_bytes()
}

#[cfg(test)]
mod tests {
    use super::*;
    use crate::map::{LooseContact, Map, WrongLength};
    use crate::{form, found};

    /// A map with n rows of each kind.
    fn torn(n: usize) -> Map {
        let mut text = String::from("junction j common\n");
        for i in 0..n {
            text += &format!("connection w{i} v{i} start\npair -1 -1\n");
        }
        for i in 0..n {
            text += &format!("road w{i} sections 0\nroad v{i} inside j from road w{i} end sections 0\n");
            for (lane, road, x) in [(2 * i, "w", 0), (2 * i + 1, "v", i + 10)] {
                text += &format!("lane {lane} {road}{i} 0 -1 forward\nedges {x} 0 0 {x} 0 0 9 0 0 9 0 0\n");
            }
        }
        let mut map = form::read(text.as_bytes()).expect("a map");
        for line in 1..=n as u32 {
            map.notes.push((line, "a road mark was left out".into()));
            map.wrong_lengths.push(WrongLength { road: b"w 0".to_vec(), line, length: 50.02, geometry: f64::from(line) });
            let of = Contact::Connection { junction: 0, id: "c 1".into() };
            map.loose_contacts.push(LooseContact { of, line, value: "End".into() });
        }
        map
    }

    fn said(map: &Map, all: bool) -> String {
        let found = found::find(&map.tables).expect("no refusal");
        String::from_utf8(text(&Check::new(map, &found, false), all)).expect("UTF-8")
    }

    #[test]
    fn every_kind_fits_a_screen() {
        for n in 0..30 {
            let (few, all) = (said(&torn(n), false), said(&torn(n), true));
            assert!(few.lines().count() <= SCREEN, "{few}");
            assert_eq!(all.lines().count(), if n == 0 { 6 } else { 9 + 6 * n + 2 * n });
            assert_eq!(few.lines().last(), all.lines().last());
        }
        // six kinds of rows, so one row of each is shown
        assert_eq!(said(&torn(30), false).lines().count(), 21);
        assert_eq!(said(&torn(30), false).matches("  .. and 29 more (--all shows them)\n").count(), 6);
        // of two rows each, all are 21 lines
        assert!(!said(&torn(2), false).contains("more"));
        assert!(said(&torn(3), false).contains("more"));
    }

    #[test]
    fn lengths_contacts_and_notes() {
        let text = said(&torn(1), false);
        let end = "\nlengths: 1 road of another length than the geometry\n  road \"w 0\" (line 1): length 50.020 m, geometry 1.000 m\n\
                   contacts: 1 contact point spelled loosely, neither \"start\" nor \"end\"\n\
                   \x20 junction j (line 1): connection \"c 1\": contactPoint \"End\" reads as start\n\
                   notes: 1 note on the reading\n  line 1: a road mark was left out\n\
                   found: 1 gap, 1 lost movement, 1 road end repaired, 1 wrong length, 1 loose contact point, 1 note\n";
        assert!(text.ends_with(end), "{text}");
    }

    #[test]
    fn a_place_is_counted_from_0_0() {
        let mut map = torn(1);
        map.origin = [400_000.0, 5_800_000.5];
        let text = said(&map, false);
        assert!(text.contains("  1.000 m from w0/0/-1 to v0/0/-1, at 400009.00, 5800000.50\n"), "{text}");
    }
}
