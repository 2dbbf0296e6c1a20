//! Contact points that are neither "start" nor "end".
use crate::{file, plain, read, ALL};
use lanes::map::{Contact, Map};
use lanes::xodr::{self, Choice};
use std::fmt::Write;
use vorzhyket::sizes::JUNCTION;

/// What has the contact point, the line of the file, and the value.
type Loose = (String, u32, String);

fn loose(map: &Map) -> Vec<Loose> {
    let t = &map.tables;
    let name = |words: &[u32]| String::from_utf8_lossy(t.name(words)).into_owned();
    let of = |contact: &Contact| match contact {
        Contact::Road { row, link } => format!("road {}: {link}", name(&t.road(*row)[0..2])),
        Contact::Connection { junction, id } => format!("junction {}: connection {id}", name(&t.junctions[junction * JUNCTION..][..2])),
    };
    map.loose_contacts.iter().map(|c| (of(&c.of), c.line, c.value.clone())).collect()
}

fn of_road(road: &str, link: &str, line: u32, value: &str) -> Loose {
    (format!("road {road}: {link}"), line, value.into())
}

fn of_connection(junction: &str, connection: &str, line: u32, value: &str) -> Loose {
    (format!("junction {junction}: connection {connection}"), line, value.into())
}

/// Only of what is kept: no target of a road that is left out or without an elementId, no connection that is dropped or
/// passed over.
#[test]
fn of_roads_and_connections() {
    let map = xodr::read(&file("tests/data/contacts.xodr"), &ALL).unwrap();
    assert_eq!(
        loose(&map),
        [
            of_road("1", "predecessor", 5, "End"),
            of_road("1", "successor", 6, "START"),
            of_road("2", "predecessor", 13, ""),
            of_road("2", "successor", 14, "end "),
            of_road("a b", "successor", 40, "\"\r\nend\u{9b}"),
            of_connection("7", "1", 46, "End"),
            of_connection("7", "", 52, ""),
            of_connection("d 1", "c 1", 57, "Start"),
            of_connection("8", "2", 63, "eND"),
        ]
    );
    assert_eq!(
        plain::roads(&map.tables),
        [
            "road 1 from road 2 start? to junction 7 start? sections 0",
            "road 2 inside 8 from road 1 start? to road 3 start? along sections 0",
            "road 3 from road 2 end to road 4 start sections 0",
            "road 4 from road 3 start? sections 0",
            "road a b to road 1 start? sections 0",
        ]
    );
    assert_eq!(
        plain::junctions(&map.tables),
        [
            "junction 7 common",
            "connection 1 2 start",
            "pair -1 -1",
            "connection 1 2 end",
            "connection 1 2 start",
            "connection 1 2 start",
            "junction d 1 direct",
            "connection 1 3 start",
            "junction 8 virtual",
            "connection 3 2 start",
        ]
    );
    assert_eq!((&map.lines.connections[..], &map.lines.pairs[..]), (&[46, 50, 51, 52, 57, 63][..], &[48][..]));
    let notes: Vec<(u32, &str)> = map.notes.iter().map(|(line, note)| (*line, note.as_str())).collect();
    assert_eq!(
        notes,
        [
            (35, "road \"no length\" is left out: it has no length"),
            (45, "junction 7: connection 0 names no two roads and is left out"),
            (47, "junction 7: connection 1: a lane link has no two lane numbers and is left out"),
            (53, "junction 7: connection \"\": a lane link has no two lane numbers and is left out"),
            (58, "junction \"d 1\": connection \"c 2\" names no two roads and is left out"),
            (65, "a junction without an id is left out"),
            (66, "junction \"\": connection 0 is of a junction without an id and is left out"),
        ]
    );
}

#[test]
fn a_box_has_those_of_its_roads_and_junctions() {
    let data = String::from_utf8(file("tests/data/contacts.xodr")).unwrap();
    let area = |data: &str, area| loose(&xodr::read(data.as_bytes(), &Choice { area: Some(area), ..ALL }).unwrap());
    assert_eq!(area(&data, [45.0, -1.0, 55.0, 1.0]), [of_road("a b", "successor", 40, "\"\r\nend\u{9b}")]);
    let inside = area(&data.replace("id=\"a b\" length", "id=\"a b\" junction=\"7\" length"), [45.0, -1.0, 55.0, 1.0]);
    assert_eq!(inside[1..], [of_connection("7", "1", 46, "End"), of_connection("7", "", 52, "")]);
}

/// A file of roads, one on each line from the second on, and junctions after them.
fn map_of(roads: impl Iterator<Item = String>, junctions: &str) -> Map {
    let mut text = String::from("<OpenDRIVE>\n");
    for (i, link) in roads.enumerate() {
        let geometry = r#"<planView><geometry s="0" x="0" y="0" hdg="0" length="10"><line/></geometry></planView>"#;
        let _ = writeln!(text, r#"<road id="r{i}" length="10"><link>{link}</link>{geometry}<lanes><laneSection s="0"/></lanes></road>"#);
    }
    read(&format!("{text}{junctions}</OpenDRIVE>")).unwrap()
}

fn target(end: &str, contact: &str) -> String {
    format!(r#"<{end} elementType="road" elementId="r0" contactPoint="{contact}"/>"#)
}

/// More roads than a call takes: of every third the predecessor is spelled loosely, of every fifth the successor.
#[test]
fn of_roads_in_many_pieces() {
    let n = 30_000;
    let spelled = |i: usize, k: usize, odd: &'static str| if i % k == 0 { odd } else { "end" };
    let map = map_of((0..n).map(|i| target("predecessor", spelled(i, 3, "Start")) + &target("successor", spelled(i, 5, "End"))), "");
    let mut wanted = Vec::new();
    for i in 0..n {
        let (road, line) = (format!("r{i}"), i as u32 + 2);
        wanted.extend((i % 3 == 0).then(|| of_road(&road, "predecessor", line, "Start")));
        wanted.extend((i % 5 == 0).then(|| of_road(&road, "successor", line, "End")));
    }
    assert!(loose(&map) == wanted);
    let roads = plain::roads(&map.tables);
    assert_eq!(roads.len(), n);
    let contact = |i: usize, k: usize| if i % k == 0 { "start?" } else { "end" };
    assert!((0..n).all(|i| roads[i] == format!("road r{i} from road r0 {} to road r0 {} sections 0", contact(i, 3), contact(i, 5))));
}

/// A call's text takes five of these values, and a road's two stay together.
#[test]
fn of_roads_with_long_values() {
    let value = |i: usize, end: &str| format!("{i} {end} {}", "x".repeat(200_000));
    let map = map_of((0..12).map(|i| target("predecessor", &value(i, "a")) + &target("successor", &value(i, "b"))), "");
    let wanted = |i: usize| {
        let (road, line) = (format!("r{i}"), i as u32 + 2);
        [of_road(&road, "predecessor", line, &value(i, "a")), of_road(&road, "successor", line, &value(i, "b"))]
    };
    assert!(loose(&map) == (0..12).flat_map(wanted).collect::<Vec<_>>());
    assert!(plain::roads(&map.tables).iter().enumerate().all(|(i, road)| *road == format!("road r{i} from road r0 start? to road r0 start? sections 0")));
    assert!(map.tables.text.len() < 100, "values are no names of the map");
}

/// A connection whose lane links fill several pieces is named once, and so is one that is left out.
#[test]
fn of_a_connection_in_many_pieces() {
    let n = 40_000;
    let links = r#"<laneLink from="-1" to="-1"/><laneLink/>"#.repeat(n / 2);
    let connection = |id: &str, roads: &str, contact: &str| format!("<connection id=\"{id}\" {roads} contactPoint=\"{contact}\">{links}</connection>\n");
    let (both, one) = (r#"incomingRoad="r0" connectingRoad="r0""#, r#"incomingRoad="r0""#);
    let kept = [connection("a", both, "End"), connection("b", both, "end"), connection("c", both, ""), connection("d", one, "End")].concat();
    let map =
        map_of([String::new()].into_iter(), &format!("<junction id=\"j\">\n{kept}</junction>\n<junction>\n{}</junction>\n", connection("e", both, "End")));
    assert_eq!(loose(&map), [of_connection("j", "a", 4, "End"), of_connection("j", "c", 6, "")]);
    assert_eq!((map.lines.connections, map.lines.pairs.len()), (vec![4, 5, 6], 3 * n / 2));
    let (links, others): (Vec<_>, Vec<_>) = map.notes.into_iter().partition(|(_, note)| note.contains("a lane link has no two lane numbers"));
    assert_eq!(links.len(), 3 * n / 2);
    let others: Vec<(u32, &str)> = others.iter().map(|(line, note)| (*line, note.as_str())).collect();
    assert_eq!(
        others,
        [
            (7, "junction j: connection d names no two roads and is left out"),
            (9, "a junction without an id is left out"),
            (10, "junction \"\": connection e is of a junction without an id and is left out"),
        ]
    );
}

/// More connections than a call takes, in junctions of which two go on from one call to the next: each connection is
/// spelled loosely and has a lane link that is left out.
#[test]
fn of_connections_in_many_pieces() {
    let (junctions, n) = (7, 6_000);
    let (mut text, mut wanted) = (String::new(), Vec::new());
    for j in 0..junctions {
        let _ = writeln!(text, r#"<junction id="j{j}">"#);
        for i in 0..n {
            let _ = writeln!(text, r#"<connection id="{i}" incomingRoad="r0" connectingRoad="r0" contactPoint="END {i}"><laneLink/></connection>"#);
            wanted.push(of_connection(&format!("j{j}"), &i.to_string(), j * (n + 2) + i + 4, &format!("END {i}")));
        }
        text += "</junction>\n";
    }
    let map = map_of([String::new()].into_iter(), &text);
    assert!(loose(&map) == wanted);
    assert_eq!((map.notes.len(), map.lines.connections.len(), map.lines.pairs.len()), (wanted.len(), wanted.len(), 0));
}
