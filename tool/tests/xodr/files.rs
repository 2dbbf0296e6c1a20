//! The files of tests/data, and two networks of SUMO.
use crate::{edges, file, near, plain, ALL};
use lanes::map::{Map, WrongLength};
use lanes::xodr::{self, Choice};

fn map_of(name: &str) -> Map {
    xodr::read(&file(&format!("tests/data/{name}.xodr")), &ALL).unwrap()
}

/// A spiral's end by many small steps.
fn spiral_end(rate: f64, length: f64) -> [f64; 2] {
    let (n, mut at) = (200_000, [0.0; 2]);
    let step = length / f64::from(n);
    for i in 0..n {
        let d = (f64::from(i) + 0.5) * step;
        let (sin, cos) = (rate * d * d / 2.0).sin_cos();
        at = [at[0] + cos * step, at[1] + sin * step];
    }
    at
}

#[test]
fn shapes() {
    let map = map_of("shapes");
    assert!(map.notes.is_empty() && map.wrong_lengths.is_empty());
    near(&edges(&map, 0), &[1.0, 2.0, 0.0, 4.0, 2.0, 0.0, 1.0, 12.0, 0.0, 4.0, 12.0, 0.0]);
    near(&edges(&map, 1)[6..], &[10.0, 10.0, 0.0, 13.0, 10.0, 0.0]);
    let ([x, y], (sin, cos)) = (spiral_end(0.005, 20.0), 1f64.sin_cos());
    near(&edges(&map, 2)[6..], &[x, y, 0.0, x + 3.0 * sin, y - 3.0 * cos, 0.0]);
    let half = 0.5f64.sqrt();
    near(&edges(&map, 3)[6..], &[10.0 * half, 10.0 * half, 0.0, 13.0 * half, 7.0 * half, 0.0]);
    near(&edges(&map, 4)[6..], &[10.0, 5.0, 0.0, 10.0 + 3.0 * half, 5.0 - 3.0 * half, 0.0]);
    near(&edges(&map, 5)[6..], &[3.0, 4.0, 0.0, 5.4, 2.2, 0.0]);
    near(&edges(&map, 6)[..6], &[3.0, 4.0, 0.0, 5.4, 2.2, 0.0]);
    near(&edges(&map, 6)[6..], &[6.0, 8.0, 0.0, 8.4, 6.2, 0.0]);
}

#[test]
fn directions() {
    let lanes = plain::lanes(&map_of("directions").tables);
    assert_eq!(
        lanes,
        [
            "lane 0 right-hand 0 1 backward",
            "lane 1 right-hand 0 2 forward",
            "lane 2 right-hand 0 -1 forward",
            "lane 3 right-hand 0 -2 backward",
            "lane 4 right-hand 0 -3 both",
            "lane 5 right-hand 0 -4 both",
            "lane 6 left-hand 0 1 forward",
            "lane 7 left-hand 0 -1 backward",
            "lane 8 left-hand 0 -2 forward",
        ]
    );
}

#[test]
fn across() {
    let map = map_of("across");
    let [before, after] = [0, 1].map(|row| edges(&map, row));
    near(&before[6..], &[4.0, 0.0, 0.0, 4.0, -3.0, 0.0]);
    near(&after[..6], &[4.0, 1.0, 0.0, 4.0, -2.0, 0.0]);
    near(&edges(&map, 2), &[0.0, 2.0, 0.0, 0.0, 0.0, 0.0, 10.0, 3.0, 0.0, 10.0, 0.0, 0.0]);
    near(&edges(&map, 3)[..6], &[0.0, 0.0, 0.0, 0.0, -2.0, 0.0]);
    near(&edges(&map, 4)[..6], &[0.0, -2.0, 0.0, 0.0, -2.0, 0.0]);
    near(&edges(&map, 5), &[0.0, 0.0, 0.0, 0.0, 0.0, 0.0, 10.0, 0.0, 0.0, 10.0, -4.0, 0.0]);
    near(&edges(&map, 6), &[0.0, 0.0, 0.0, 0.0, -1.0, 0.0, 10.0, -4.0, 0.0, 10.0, -4.0, 0.0]);
}

#[test]
fn surface() {
    let map = map_of("surface");
    near(&edges(&map, 0), &[0.0, 0.0, 5.0, 0.0, -3.0, 5.0, 5.0, 0.0, 5.5, 5.0, -3.0, 5.5]);
    near(&edges(&map, 1), &[5.0, 0.0, 7.0, 5.0, -3.0, 7.0, 10.0, 0.0, 7.375, 10.0, -3.0, 7.375]);
    let (cos, tan) = (30f64.to_radians().cos(), 30f64.to_radians().tan());
    near(&edges(&map, 2)[..6], &[0.0, 0.0, 0.0, 0.0, -3.0 * cos, -1.5]);
    // Level: two metres across the tilted road, and as much up as that goes down.
    let rise = 2.0 * tan;
    near(&edges(&map, 3)[..6], &[0.0, -3.0 * cos, -1.5, 0.0, -5.0 * cos - 0.5 * rise, -2.5 + cos * rise]);
    near(&edges(&map, 3)[5..6], &[-1.5]);
    near(&edges(&map, 4), &[0.0, 0.0, 0.1, 0.0, -2.0, 0.2, 10.0, 0.0, 0.2, 10.0, -2.0, 0.3]);
    assert_eq!(map.notes, [(43, "<shape> and <crossSectionSurface> are not read; roads that have them: 1, the first is shape".to_string())]);
}

#[test]
fn junctions() {
    let map = map_of("junctions");
    assert_eq!(plain::roads(&map.tables), ["road 1 from road a b start? to junction 7 end along sections 0", "road 2 inside 9 from road 1 end sections 0"]);
    assert_eq!(plain::lanes(&map.tables), ["lane 0 1 0 -1 forward next 3 back -2", "lane 1 1 0 -2 forward", "lane 2 2 0 -1 forward"]);
    assert_eq!(
        plain::junctions(&map.tables),
        [
            "junction direct direct",
            "connection 1 2 end",
            "pair -1 1",
            "junction virtual virtual",
            "connection 3 2 start",
            "pair -1 -1",
            "junction 9 common",
            "connection 1 2 start",
            "pair -1 -1",
            "pair -2 -1",
            "junction empty common",
        ]
    );
    assert_eq!(map.lines.roads, [3, 21]);
    assert_eq!(map.lines.lanes, [13, 12, 30]);
    assert_eq!(map.lines.junctions, [35, 41, 46, 58]);
    assert_eq!(map.lines.connections, [36, 44, 48]);
    assert_eq!(map.lines.pairs, [37, 44, 50, 52]);
    let notes: Vec<(u32, &str)> = map.notes.iter().map(|(line, note)| (*line, note.as_str())).collect();
    assert_eq!(
        notes,
        [
            (39, "junction direct: connection 1 names no two roads and is left out"),
            (47, "junction 9: connection 0 names no two roads and is left out"),
            (49, "junction 9: connection 1: a lane link has no two lane numbers and is left out"),
            (51, "junction 9: connection 1: a lane link has no two lane numbers and is left out"),
            (55, "a junction without an id is left out"),
            (56, "junction \"\": connection 5 is of a junction without an id and is left out"),
        ]
    );
    let text = String::from_utf8(map.tables.text).unwrap();
    assert!(!text.contains("elementS") && !text.contains("no"), "only the map's names: {text}");
}

#[test]
fn area() {
    let data = file("tests/data/area.xodr");
    let names = |area, types: Option<&str>| {
        let choice = Choice { area: Some(area), types: types.map(|t| vec![t.to_string()]), ..ALL };
        let map = xodr::read(&data, &choice).unwrap();
        let roads: Vec<String> = plain::roads(&map.tables).iter().map(|r| r.split(' ').nth(1).unwrap().to_string()).collect();
        (roads, plain::junctions(&map.tables).len(), map.lines.lanes.len())
    };
    let roads = |names: &[&str]| names.iter().map(|n| n.to_string()).collect::<Vec<_>>();
    assert_eq!(names([-1.0, -1.0, 5.0, 5.0], None), (roads(&["near"]), 0, 3));
    assert_eq!(names([-1.0, -1.0, 5.0, 5.0], Some("driving")), (roads(&["near"]), 0, 1));
    assert_eq!(names([40.0, -1.0, 60.0, 5.0], None), (roads(&["through", "beside"]), 2, 2));
    assert_eq!(names([-1.0, -1.0, 400.0, 5.0], None), (roads(&["near", "through", "beside", "far"]), 4, 6));
    let nowhere = xodr::read(&data, &Choice { area: Some([0.0, 50.0, 9.0, 60.0]), ..ALL });
    assert_eq!(nowhere.unwrap_err().what, "no road reaches into the box");
}

#[test]
fn utm() {
    let map = map_of("utm");
    assert_eq!((map.origin, map.lines.roads.clone()), ([390050.0, 5820005.0], vec![4, 8]));
    near(&edges(&map, 0), &[-49.75, -4.875, 0.0, -49.75, -7.875, 0.0, -39.75, -4.875, 0.0, -39.75, -7.875, 0.0]);
    near(&edges(&map, 1)[..2], &[50.75, 5.125]);
    let near_by = xodr::read(&file("tests/data/utm.xodr"), &Choice { edges: false, ..ALL }).unwrap();
    assert_eq!(near_by.origin, [0.0; 2]);
}

#[test]
fn left_out() {
    let map = map_of("left-out");
    let notes: Vec<(u32, &str)> = map.notes.iter().map(|(line, note)| (*line, note.as_str())).collect();
    assert_eq!(
        notes,
        [
            (3, "road \"no length\" is left out: it has no length"),
            (7, "road \"no sections\" is left out: it has no lane sections"),
            (11, "road \"no geometry\" is left out: it has no geometry that can be read"),
            (17, "road 1: rule both is not known, read as RHT"),
            (20, "road 1: a geometry with a length below 0 is left out"),
            (21, "road 1: a geometry without s, x, y, hdg or length is left out"),
            (26, "road 1, section 0: lane -1: direction sideways is not known, read as standard"),
            (27, "road 1, section 0: lane -2 has no width and is left out"),
            (28, "road 1, section 0: a lane with the id zero is left out"),
            (31, "road 1, section 1 is shorter than a millimetre and left out"),
            (36, "road 2: a geometry of length 0 is read as its start, whose heading may be wrong"),
        ]
    );
    let wrong = |road: &str, line, length, geometry| WrongLength { road: road.into(), line, length, geometry };
    assert_eq!(map.wrong_lengths, [wrong("1", 17, 10.0, 9.5), wrong("2", 34, 0.5, 0.0)]);
    assert_eq!(plain::lanes(&map.tables), ["lane 0 1 0 -1 forward", "lane 1 2 0 -1 forward"]);
}

#[test]
fn networks_of_sumo() {
    for (name, counts) in [("grid2", [96, 12, 72, 72, 96]), ("grid3-L3", [204, 21, 156, 228, 372])] {
        let map = xodr::read(&file(&format!("../examples/real/{name}.xodr")), &Choice { outlines: true, ..ALL }).unwrap();
        let lines = &map.lines;
        let rows = [&lines.roads, &lines.junctions, &lines.connections, &lines.pairs, &lines.lanes].map(Vec::len);
        assert_eq!(rows, counts, "{name}");
        assert!(map.notes.is_empty() && map.wrong_lengths.is_empty() && map.loose_contacts.is_empty() && map.origin == [0.0; 2]);
        assert_eq!((map.outlines.len(), map.tables.edges.len()), (counts[4], 12 * counts[4]));
    }
}
