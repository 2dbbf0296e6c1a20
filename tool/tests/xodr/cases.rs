//! Roads of one or two elements, written out here.
use crate::{edges, near, plain, read, ALL};
use lanes::map::{Fault, Map};
use lanes::xodr::{self, Choice};
use std::f64::consts::PI;

const WIDTH: &str = r#"<width sOffset="0" a="3" b="0" c="0" d="0"/>"#;

fn lane(number: i32) -> String {
    lane_of(number, "", WIDTH)
}

fn lane_of(number: i32, attributes: &str, body: &str) -> String {
    format!(r#"<lane id="{number}" type="driving" {attributes}>{body}</lane>"#)
}

fn section(s: f64, left: &str, right: &str) -> String {
    format!(r#"<laneSection s="{s}"><left>{left}</left><center><lane id="0"/></center><right>{right}</right></laneSection>"#)
}

/// A road from 0,0 to the east, with one lane unless it says otherwise.
struct Road {
    attributes: &'static str,
    shape: String,
    length: f64,
    place: [f64; 2],
    more: String,
    lanes: String,
}

impl Default for Road {
    fn default() -> Self {
        Road { attributes: r#"id="1""#, shape: "<line/>".into(), length: 10.0, place: [0.0; 2], more: String::new(), lanes: section(0.0, "", &lane(-1)) }
    }
}

impl Road {
    fn text(&self) -> String {
        let Road { attributes, shape, length, place: [x, y], more, lanes } = self;
        let geometry = format!(r#"<geometry s="0" x="{x}" y="{y}" hdg="0" length="{length}">{shape}</geometry>"#);
        format!(r#"<road length="{length}" {attributes}><planView>{geometry}</planView>{more}<lanes>{lanes}</lanes></road>"#)
    }

    fn map(&self) -> Map {
        map(&self.text())
    }
}

fn map(body: &str) -> Map {
    read(&format!("<OpenDRIVE>{body}</OpenDRIVE>")).unwrap()
}

fn shaped(shape: &str, length: f64) -> Map {
    Road { shape: shape.into(), length, ..Road::default() }.map()
}

#[test]
fn line() {
    near(&edges(&Road::default().map(), 0), &[0.0, 0.0, 0.0, 0.0, -3.0, 0.0, 10.0, 0.0, 0.0, 10.0, -3.0, 0.0]);
}

#[test]
fn left_lane_has_its_left_border_first() {
    let map = Road { lanes: section(0.0, &lane(1), ""), ..Road::default() }.map();
    near(&edges(&map, 0), &[0.0, 3.0, 0.0, 0.0, 0.0, 0.0, 10.0, 3.0, 0.0, 10.0, 0.0, 0.0]);
}

#[test]
fn quarter_of_a_circle() {
    let map = shaped(r#"<arc curvature="0.1"/>"#, 5.0 * PI);
    near(&edges(&map, 0), &[0.0, 0.0, 0.0, 0.0, -3.0, 0.0, 10.0, 10.0, 0.0, 13.0, 10.0, 0.0]);
}

#[test]
fn spiral_of_equal_curvatures_is_an_arc() {
    let (spiral, arc) = (shaped(r#"<spiral curvStart="0.05" curvEnd="0.05"/>"#, 20.0), shaped(r#"<arc curvature="0.05"/>"#, 20.0));
    near(&edges(&spiral, 0), &edges(&arc, 0).map(f64::from));
}

#[test]
fn spiral_turns_by_the_mean_curvature() {
    let e = edges(&shaped(r#"<spiral curvStart="0" curvEnd="0.1"/>"#, 10.0), 0).map(f64::from);
    assert!(((e[10] - e[7]).atan2(e[9] - e[6]) - (0.5 - PI / 2.0)).abs() < 1e-5);
}

#[test]
fn param_poly3_ends_where_its_formula_ends() {
    let e = edges(&shaped(r#"<paramPoly3 aU="0" bU="10" cU="0" dU="0" aV="0" bV="0" cV="5" dV="0" pRange="normalized"/>"#, 11.0), 0);
    let across = 3.0 / 2f64.sqrt();
    near(&e[6..], &[10.0, 5.0, 0.0, 10.0 + across, 5.0 - across, 0.0]);
}

#[test]
fn poly3_is_as_long_as_its_geometry() {
    near(&edges(&shaped(r#"<poly3 a="0" b="1" c="0" d="0"/>"#, 10.0), 0)[6..8], &[50f64.sqrt(), 50f64.sqrt()]);
}

#[test]
fn an_arc_without_curvature_is_what_stands_beside_it() {
    near(&edges(&shaped("<arc/><line/>", 10.0), 0)[6..8], &[10.0, 0.0]);
}

#[test]
fn far_from_the_origin() {
    let map = Road { place: [500000.0, 5800000.0], ..Road::default() }.map();
    assert_eq!(map.origin, [500000.0, 5800000.0]);
    near(&edges(&map, 0), &[0.0, 0.0, 0.0, 0.0, -3.0, 0.0, 10.0, 0.0, 0.0, 10.0, -3.0, 0.0]);
    assert_eq!(Road { place: [10000.0, -10000.0], ..Road::default() }.map().origin, [0.0; 2]);
}

#[test]
fn a_middle_of_half_metres_is_the_even_one() {
    let two = [500000.0, 500001.0].map(|x| Road { place: [x, -0.25], ..Road::default() }.text()).concat();
    let origin = map(&two).origin;
    assert_eq!((origin, origin[1].is_sign_negative()), ([500000.0, 0.0], false));
}

#[test]
fn directions() {
    let both = section(0.0, &lane(1), &lane(-1));
    let right = Road { lanes: both.clone(), ..Road::default() }.map();
    assert_eq!(plain::lanes(&right.tables), ["lane 0 1 0 1 backward", "lane 1 1 0 -1 forward"]);
    let left = Road { attributes: r#"id="1" rule="LHT""#, lanes: both, ..Road::default() }.map();
    assert_eq!(plain::lanes(&left.tables), ["lane 0 1 0 1 forward", "lane 1 1 0 -1 backward"]);
    let odd = section(0.0, "", &(lane_of(-1, r#"direction="reversed""#, WIDTH) + &lane_of(-2, r#"direction="both""#, WIDTH)));
    let odd = Road { lanes: odd, ..Road::default() }.map();
    assert_eq!(plain::lanes(&odd.tables), ["lane 0 1 0 -1 backward", "lane 1 1 0 -2 both"]);
}

#[test]
fn lane_links_and_order() {
    let linked = lane_of(-1, "", r#"<link><predecessor id="-2"/><successor id="+3"/></link><width sOffset="0" a="1"/>"#);
    let map = Road { lanes: section(0.0, "", &(lane(-2) + &linked)), ..Road::default() }.map();
    assert_eq!(plain::lanes(&map.tables), ["lane 0 1 0 -1 forward next 3 back -2", "lane 1 1 0 -2 forward"]);
}

#[test]
fn lane_without_width_and_short_section() {
    let map = Road { lanes: section(0.0, "", &lane_of(-1, "", "")) + &section(9.9995, "", &lane(-1)), ..Road::default() }.map();
    assert_eq!((plain::roads(&map.tables), map.lines.lanes.len(), map.notes.len()), (vec!["road 1 sections 0".to_string()], 0, 2));
}

#[test]
fn the_road_that_is_left_out_takes_no_identities() {
    let map = map(&(Road { attributes: r#"id="1" length="x""#, ..Road::default() }.text().replace(r#"length="10" id"#, "id") + &Road::default().text()));
    assert_eq!(plain::lanes(&map.tables), ["lane 0 1 0 -1 forward"]);
    assert_eq!(map.notes, [(1, "road 1 is left out: it has no length".to_string())]);
}

#[test]
fn types_are_filtered_after_the_edges_are_known() {
    let lanes = section(0.0, "", &(lane(-1).replace("driving", "sidewalk") + &lane(-2)));
    let text = format!("<OpenDRIVE>{}</OpenDRIVE>", Road { lanes, ..Road::default() }.text());
    let map = xodr::read(text.as_bytes(), &Choice { types: Some(vec!["driving".into()]), ..ALL }).unwrap();
    assert_eq!(plain::lanes(&map.tables), ["lane 0 1 0 -2 forward"]);
    near(&edges(&map, 0), &[0.0, -3.0, 0.0, 0.0, -6.0, 0.0, 10.0, -3.0, 0.0, 10.0, -6.0, 0.0]);
}

#[test]
fn without_edges_a_road_needs_no_geometry() {
    let text = format!("<OpenDRIVE>{}</OpenDRIVE>", Road { shape: "<unknown/>".into(), ..Road::default() }.text());
    assert_eq!(read(&text).unwrap_err().what, "no road can be read: road 1 is left out: it has no geometry that can be read");
    let map = xodr::read(text.as_bytes(), &Choice { edges: false, ..ALL }).unwrap();
    assert_eq!((plain::lanes(&map.tables).len(), map.tables.edges.len()), (1, 0));
    assert_eq!(map.notes, [(1, "road 1: a geometry of unknown shape is left out".to_string())]);
}

#[test]
fn encodings() {
    let road = Road { attributes: "id=\"Stra\u{df}e\"", ..Road::default() }.text();
    let text = format!("<!-- licence -->\n<?xml version=\"1.0\" encoding=\"ISO-8859-1\"?>\n<OpenDRIVE>{road}</OpenDRIVE>");
    let latin: Vec<u8> = text.chars().map(|c| c as u8).collect();
    let marked = [b"\xef\xbb\xbf", text.replace("ISO-8859-1", "utf-8").as_bytes()].concat();
    let wide = |bytes: fn(u16) -> [u8; 2]| [0xfeffu16].into_iter().chain(text.encode_utf16()).flat_map(bytes).collect::<Vec<u8>>();
    for data in [latin, marked, wide(u16::to_le_bytes), wide(u16::to_be_bytes)] {
        let map = xodr::read(&data, &ALL).unwrap();
        assert_eq!(plain::roads(&map.tables), ["road Stra\u{df}e sections 0"]);
        assert_eq!(map.lines.roads, [3]);
    }
    let undeclared: Vec<u8> = text.replace(" encoding=\"ISO-8859-1\"", "").chars().map(|c| c as u8).collect();
    let fault = xodr::read(&undeclared, &ALL).unwrap_err();
    assert_eq!((fault.line, fault.what.as_str()), (Some(3), "the text is not UTF-8, and its XML declaration names no other encoding"));
}

#[test]
fn faults_say_where() {
    let fault = |text: &str| read(text).unwrap_err();
    assert_eq!(fault("<osm/>"), Fault { line: Some(1), what: "the document is <osm>, not <OpenDRIVE>".into() });
    assert_eq!(fault("\n<OpenDRIVE/>"), Fault { line: Some(2), what: "there is no road".into() });
    assert_eq!(fault(""), Fault { line: None, what: "the XML has no element".into() });
    assert_eq!(fault("<OpenDRIVE>\n<road>\n</OpenDRIVE>").line, Some(3));
    assert_eq!(fault("<!DOCTYPE OpenDRIVE [<!ENTITY a \"b\">]><OpenDRIVE/>").what, "a document type with declarations of its own (a DTD) is not read");
    let cp1252 = b"<?xml version=\"1.0\" encoding=\"windows-1252\"?><OpenDRIVE a=\"\x80\"/>";
    assert_eq!(xodr::read(cp1252, &ALL).unwrap_err().what, "its encoding, windows-1252, is not read: UTF-8, UTF-16 and ISO-8859-1 are");
}
