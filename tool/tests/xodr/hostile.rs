//! Files that would take a careless reader forever, all its memory or all its stack.
use crate::{edges, near, plain, read, ALL};
use lanes::map::Fault;
use lanes::xodr::{self, Choice};
use std::fmt::Write;
use std::time::{Duration, Instant};

/// Long enough for a slow machine and a build that is not optimised; what is quadratic takes far longer.
const SOON: Duration = Duration::from_secs(if cfg!(debug_assertions) { 60 } else { 20 });
const LINE: &str = r#"<geometry s="0" x="0" y="0" hdg="0" length="10"><line/></geometry>"#;
const LANE: &str = r#"<lane id="-1" type="driving"><width sOffset="0" a="3"/></lane>"#;
const SECTION: &str = r#"<laneSection s="0"><right><lane id="-1" type="driving"><width sOffset="0" a="3"/></lane></right></laneSection>"#;

fn road(length: &str, geometry: &str, lanes: &str) -> String {
    format!(r#"<road id="1" length="{length}"><planView>{geometry}</planView><lanes>{lanes}</lanes></road>"#)
}

fn document(body: &str) -> String {
    format!("<OpenDRIVE>{body}</OpenDRIVE>")
}

fn many(n: usize, element: impl Fn(usize) -> String) -> String {
    (0..n).fold(String::new(), |mut all, i| {
        let _ = write!(all, "{}", element(i));
        all
    })
}

#[test]
fn nesting() {
    let nested = |n: usize| document(&(road("10", LINE, SECTION) + &"<a>".repeat(n) + &"</a>".repeat(n)));
    assert!(read(&nested(255)).is_ok());
    assert_eq!(read(&nested(256)).unwrap_err().what, "elements are nested more than 256 deep");
    assert_eq!(read(&"<a>".repeat(2_000_000)).unwrap_err().what, "elements are nested more than 256 deep");
}

#[test]
fn what_only_looks_nested() {
    let text = "<!-- <a><a> --><![CDATA[<a>]]>".repeat(300)
        + &"<?p <a> ?>".repeat(300)
        + &r#"<a b=">" c='<'/>"#.replace('<', "&lt;").replace("&lt;a", "<a").repeat(300);
    assert!(read(&document(&(road("10", LINE, SECTION) + &text))).is_ok());
}

#[test]
fn attributes_and_namespaces() {
    let start = Instant::now();
    let attributes = many(300_000, |i| format!(" a{i}=\"\""));
    assert_eq!(read(&format!("<OpenDRIVE{attributes}/>")).unwrap_err().what, "an element has more than 256 attributes");
    let declared = |n: usize| many(n, |i| format!(" xmlns:a{i}=\"u{i}\""));
    assert_eq!(read(&format!("<OpenDRIVE{}/>", declared(65))).unwrap_err().what, "more than 64 XML namespaces are in scope");
    let children = r#"<b xmlns:c="d"/>"#.repeat(100_000);
    assert_eq!(read(&format!("<OpenDRIVE{}>{children}</OpenDRIVE>", declared(60))).unwrap_err().what, "the elements declare too many XML namespaces");
    assert!(read(&format!("<OpenDRIVE{}>{children}{}</OpenDRIVE>", declared(3), road("10", LINE, SECTION))).is_ok());
    assert!(start.elapsed() < SOON);
}

#[test]
fn a_document_type_hides_nothing() {
    let road = document(&road("10", LINE, SECTION));
    assert!(read(&format!("<!DOCTYPE OpenDRIVE SYSTEM \"a>b\">{road}")).is_ok());
    let attributes = many(300, |i| format!(" a{i}=\"\""));
    let hidden = road.replace("<OpenDRIVE", &format!("<OpenDRIVE{attributes}")) + "<!-- -->";
    assert_eq!(read(&format!("<!DOCTYPE OpenDRIVE SYSTEM \"<!--\">{hidden}")).unwrap_err().what, "an element has more than 256 attributes");
}

#[test]
fn entities_are_refused_before_they_grow() {
    let mut bomb = String::from("<!DOCTYPE a [<!ENTITY e0 \"lol\">");
    for i in 1..20 {
        let _ = write!(bomb, "<!ENTITY e{i} \"{}\">", format!("&e{};", i - 1).repeat(10));
    }
    assert_eq!(read(&(bomb + "]><OpenDRIVE>&e19;</OpenDRIVE>")).unwrap_err().what, "a document type with declarations of its own (a DTD) is not read");
}

#[test]
fn tens_of_thousands_of_each() {
    let n = if cfg!(debug_assertions) { 20_000 } else { 100_000 };
    let start = Instant::now();
    let sections = many(n, |i| format!(r#"<laneSection s="{i}"><right>{LANE}</right></laneSection>"#));
    let offsets = many(n, |i| format!(r#"<laneOffset s="{i}" a="0.{}"/>"#, i % 10));
    for shape in [r#"<spiral curvStart="0" curvEnd="0.001"/>"#, r#"<paramPoly3 bU="100000" cV="50"/>"#, r#"<poly3 c="0.00001"/>"#] {
        let geometry = format!(r#"<geometry s="0" x="0" y="0" hdg="0" length="{n}">{shape}</geometry>"#);
        let map = read(&document(&road(&n.to_string(), &geometry, &(offsets.clone() + &sections)))).unwrap();
        assert_eq!((map.lines.lanes.len(), map.tables.sections.len(), map.wrong_lengths.len()), (n, n, 0));
    }
    let widths = many(n, |i| format!(r#"<width sOffset="{i}" a="{}"/><height sOffset="{i}" inner="1" outer="1"/>"#, i % 7));
    let geometries = many(n, |i| format!(r#"<geometry s="{i}" x="{i}" y="0" hdg="0" length="1"><line/></geometry>"#));
    let map = read(&document(&road(&n.to_string(), &geometries, &format!(r#"<laneSection s="0"><right><lane id="-1">{widths}</lane></right></laneSection>"#))))
        .unwrap();
    let end = n as f64 - map.origin[0];
    near(&edges(&map, 0)[6..], &[end, 0.0, 1.0, end, -(((n - 1) % 7) as f64), 1.0]);
    let lanes = many(n, |i| format!(r#"<lane id="{}"><width sOffset="0" a="0.001"/></lane>"#, i as i32 - n as i32));
    let map = read(&document(&road("10", LINE, &format!(r#"<laneSection s="0"><right>{lanes}</right></laneSection>"#)))).unwrap();
    assert_eq!(map.lines.lanes.len(), n);
    assert!(start.elapsed() < SOON, "{:?}", start.elapsed());
}

#[test]
fn tables_beyond_the_limits_are_whole() {
    let n = 40_000;
    let name = "x".repeat(50);
    let roads = many(n, |i| {
        let link = format!(r#"<link><predecessor elementId="{name}{i}"/><successor elementType="junction" elementId="j"/></link>"#);
        road("10", LINE, SECTION).replace(r#"id="1" length"#, &format!(r#"id="r{i}" length"#)).replace("<planView>", &format!("{link}<planView>"))
    });
    let connections =
        many(n, |i| format!(r#"<connection id="{i}" incomingRoad="" connectingRoad="r{i}"><laneLink from="1" to="-1"/><laneLink/></connection>"#));
    let links = r#"<laneLink from="-1" to="-1"/>"#.repeat(n);
    let long = format!(r#"<junction id="one"><connection incomingRoad="a" connectingRoad="b">{links}</connection></junction>"#);
    let dropped = format!(r#"<junction id="two"><connection incomingRoad="a">{links}</connection></junction>"#);
    let map = read(&document(&format!(r#"{roads}<junction id="j">{connections}</junction>{long}{dropped}<junction id="last"/>"#))).unwrap();
    let rows = [&map.lines.roads, &map.lines.lanes, &map.lines.junctions, &map.lines.connections, &map.lines.pairs].map(Vec::len);
    assert_eq!(rows, [n, n, 4, n + 1, 2 * n]);
    let roads = plain::roads(&map.tables);
    assert_eq!(roads[n - 1], format!("road r{} from road {name}{} start? to junction j start? sections 0", n - 1, n - 1));
    let junctions = plain::junctions(&map.tables);
    assert_eq!(junctions.len(), 4 + n + 1 + 2 * n);
    assert_eq!(junctions[2 * n..][..3], [format!("pair {} -1", 1), "junction one common".into(), "connection a b start".into()]);
    assert_eq!(junctions[junctions.len() - 2..], ["junction two common", "junction last common"]);
    assert_eq!(map.notes.len(), n + 1);
    assert!(map.tables.text.len() > 1_048_576);
}

#[test]
fn names_longer_than_any_text_are_a_fault() {
    let link = format!(r#"<link><successor elementId="{}"/></link>"#, "x".repeat(1_048_577));
    let text = document(&road("10", LINE, SECTION).replace("<planView>", &format!("{link}<planView>")));
    assert_eq!(read(&text).unwrap_err().what, "read_targets: refused, 1: an input's length is no whole number of rows or above its limit");
    let two = |contacts: [&str; 2]| {
        let [a, b] = contacts.map(|c| format!(r#"elementId="1" contactPoint="{}""#, c.repeat(600_000)));
        document(&road("10", LINE, SECTION).replace("<planView>", &format!("<link><predecessor {a}/><successor {b}/></link><planView>")))
    };
    assert_eq!(read(&two(["x", "y"])).unwrap_err().what, "read_targets: refused, 1: an input's length is no whole number of rows or above its limit");
    assert_eq!(read(&two(["x", "x"])).map(|map| map.loose_contacts.len()), Ok(2));
    let start = Instant::now();
    let connections = many(10_000, |i| format!(r#"<connection incomingRoad="{i}" connectingRoad="{}" contactPoint="End"/>"#, "y".repeat(100)));
    let junction = |n: usize| format!(r#"<junction id="{}">{connections}</junction>"#, "x".repeat(n));
    let text = document(&(road("10", LINE, SECTION) + "\n" + &junction(1_048_000)));
    assert_eq!(read(&text).map(|_| ()), Err(Fault { line: Some(2), what: "a junction has names longer than the library takes".to_string() }));
    assert_eq!(read(&document(&(road("10", LINE, SECTION) + &junction(500_000)))).map(|map| map.loose_contacts.len()), Ok(10_000));
    assert!(start.elapsed() < SOON);
}

#[test]
fn thousands_of_long_geometries() {
    let shapes = [r#"<spiral curvStart="0" curvEnd="0.001"/>"#, r#"<paramPoly3 bU="100000" cV="50"/>"#];
    let n = if cfg!(debug_assertions) { 200 } else { 2000 };
    let geometries = many(n, |i| format!(r#"<geometry s="{i}" x="0" y="0" hdg="0" length="1e12">{}</geometry>"#, shapes[i % 2]));
    let sections = many(n, |i| format!(r#"<laneSection s="{i}.5"><right>{LANE}</right></laneSection>"#));
    let start = Instant::now();
    let map = read(&document(&road("1e12", &geometries, &sections))).unwrap();
    assert_eq!((map.lines.lanes.len(), map.wrong_lengths.len()), (n, 1));
    assert!(start.elapsed() < SOON, "{:?}", start.elapsed());
}

#[test]
fn numbers_of_every_size() {
    let numbers = ["1e308", "-1e308", "1e-320", "nan", "inf", "-5", "1e12", "0", "1e400", "1e9", ""];
    for v in numbers {
        let shapes = [
            "<line/>".to_string(),
            format!(r#"<arc curvature="{v}"/>"#),
            format!(r#"<spiral curvStart="{v}" curvEnd="1"/>"#),
            format!(r#"<poly3 a="{v}" b="{v}" c="{v}" d="{v}"/>"#),
            format!(r#"<paramPoly3 bU="{v}" dV="{v}"/>"#),
            format!(r#"<paramPoly3 bU="{v}" dV="{v}" pRange="arcLength"/>"#),
        ];
        for (shape, length) in shapes.iter().flat_map(|shape| [(shape, "10"), (shape, v)]) {
            let geometry = format!(r#"<geometry s="0" x="{v}" y="0" hdg="{v}" length="{length}">{shape}</geometry>"#);
            let raised = format!(r#"<lane id="1" level="true"><border sOffset="{v}" a="{v}"/><height sOffset="{v}" inner="{v}" outer="{v}"/></lane>"#);
            let lanes = format!(
                r#"<laneOffset s="{v}" a="{v}"/><laneSection s="0"><left>{raised}</left></laneSection><laneSection s="{v}"><right>{LANE}</right></laneSection>"#
            );
            let profiles = format!(
                r#"<elevationProfile><elevation s="0" a="{v}" b="{v}"/></elevationProfile><lateralProfile><superelevation s="0" a="{v}"/></lateralProfile>"#
            );
            let text = document(&road(length, &geometry, &lanes).replace("<lanes>", &format!("{profiles}<lanes>")));
            match xodr::read(text.as_bytes(), &Choice { outlines: true, ..ALL }) {
                Ok(map) => {
                    assert!(map.outlines.iter().all(|o| o.left.iter().chain(&o.right).flatten().all(|c| c.is_finite())));
                    let finite = map.tables.edges.iter().all(|c| c.is_finite());
                    assert_eq!(finite, !map.notes.iter().any(|(_, note)| note.ends_with("edges of its lanes are no finite numbers")), "{v} {shape}");
                }
                Err(fault) => assert!(fault.what.starts_with("no road can be read"), "{fault:?}"),
            }
        }
    }
}
