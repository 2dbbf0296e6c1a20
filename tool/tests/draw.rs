//! Drawings: each is read back as XML.
use lanes::draw;
use lanes::found::{Found, Gap};
use lanes::map::{Map, Names, Outline, Tables};
use roxmltree::{Document, Node};
use vorzhyket::sizes::{EDGE, MOST_ROWS};

const FORWARD: u32 = 0;
const BACKWARD: u32 = 1;
const BOTH: u32 = 2;

/// A map under construction: each lane is a road of its own.
#[derive(Default)]
struct Plan {
    names: Names,
    tables: Tables,
    outlines: Vec<Outline>,
    origin: [f64; 2],
    found: Found,
}

impl Plan {
    fn lane(&mut self, road: &[u8], way: u32, edges: [f32; 12]) -> usize {
        self.lane_in(road, None, way, edges)
    }

    fn lane_in(&mut self, road: &[u8], junction: Option<&[u8]>, way: u32, edges: [f32; 12]) -> usize {
        let (row, name, inside) = (self.found.successors.len(), self.names.place(road), self.names.place_of(junction));
        self.tables.roads.extend(name.iter().chain(&inside).chain(&[0; 14]).chain(&[row as u32, 1]));
        self.tables.sections.push(0);
        self.tables.lanes.extend([row as u32, name[0], name[1], 0, -1i32 as u32, way, 0, 0, 0, 0]);
        self.tables.edges.extend(edges);
        self.found.successors.push(Vec::new());
        row
    }

    fn link(&mut self, lane: usize, successor: usize) {
        self.found.successors[lane].push(successor);
    }

    /// A link with its gap, as the library measures it: of several pairs of ends the first that is nearest.
    fn gap(&mut self, lane: usize, successor: usize) {
        let edge = |row: usize, end: bool| std::array::from_fn(|k| self.tables.edges[row * EDGE + if end { 6 } else { 0 } + k]);
        let pairs = [[true, true], [true, false], [false, true], [false, false]];
        let leaves = |row: usize, end: bool| self.tables.lane(row)[5] != if end { BACKWARD } else { FORWARD };
        let linked = pairs.iter().filter(|[exit, entry]| leaves(lane, *exit) && leaves(successor, !*entry));
        let near = linked.map(|[exit, entry]| vorzhyket::distance(&edge(lane, *exit), &edge(successor, *entry)));
        let near = near.min_by(|a, b| a.gap.total_cmp(&b.gap)).expect("an exit and an entry");
        self.link(lane, successor);
        self.found.gaps.push(Gap { lane, successor, bits: near.gap.to_bits(), u: near.u, v: near.v });
    }

    /// A link with a gap of any width, at the edges' first points.
    fn false_gap(&mut self, lane: usize, successor: usize, width: f32) {
        self.link(lane, successor);
        self.found.gaps.push(Gap { lane, successor, bits: width.to_bits(), u: 0.0, v: 0.0 });
    }

    /// The document.
    fn drawn(mut self) -> String {
        self.tables.text = std::mem::take(&mut self.names.text);
        let map = Map { tables: self.tables, outlines: self.outlines, origin: self.origin, ..Map::default() };
        drawn(&map, &self.found)
    }
}

fn drawn(map: &Map, found: &Found) -> String {
    let mut out = Vec::new();
    draw::draw(map, found, &mut out);
    String::from_utf8(out).expect("UTF-8")
}

/// A straight lane, `wide` across, its left border from the first place to the second.
fn straight(from: [f32; 2], to: [f32; 2], wide: f32) -> [f32; 12] {
    let (x, y) = (to[0] - from[0], to[1] - from[1]);
    let long = x.hypot(y).max(1e-6);
    let (dx, dy) = (y / long * wide, -x / long * wide);
    [from[0], from[1], 0.0, from[0] + dx, from[1] + dy, 0.0, to[0], to[1], 0.0, to[0] + dx, to[1] + dy, 0.0]
}

fn xml(text: &str) -> Document<'_> {
    Document::parse(text).expect("XML")
}

fn of_class<'a>(document: &'a Document, class: &str) -> Vec<Node<'a, 'a>> {
    let has = |n: &Node| n.attribute("class").is_some_and(|c| c.split(' ').any(|c| c == class));
    document.descendants().filter(has).collect()
}

fn texts(document: &Document) -> Vec<String> {
    document.descendants().filter(|n| n.has_tag_name("text")).filter_map(|n| n.text()).map(String::from).collect()
}

fn titles(document: &Document) -> Vec<String> {
    document.descendants().filter(|n| n.has_tag_name("title")).filter_map(|n| n.text()).map(String::from).collect()
}

/// The lines of a path: its points, of M, l and z alone.
fn lines(data: &str) -> Vec<Vec<[f64; 2]>> {
    let numbers = |s: &str| {
        let spaced = s.replace('-', " -");
        let mut n = spaced.split_whitespace().map(|w| w.parse::<f64>().expect("a number"));
        [n.next().expect("x"), n.next().expect("y")]
    };
    let line = |s: &str| {
        let mut parts = s.trim_end_matches('z').split('l');
        let mut points = vec![numbers(parts.next().expect("a start"))];
        for part in parts {
            let ([x, y], step) = (points[points.len() - 1], numbers(part));
            points.push([x + step[0], y + step[1]]);
        }
        points
    };
    data.split('M').skip(1).map(line).collect()
}

fn path<'a>(node: &Node<'a, 'a>) -> Vec<Vec<[f64; 2]>> {
    lines(node.attribute("d").expect("path data"))
}

/// The areas of a class, without those of the legend.
fn areas(document: &Document, class: &str) -> Vec<Vec<[f64; 2]>> {
    let titled = |n: &Node| n.children().any(|c| c.has_tag_name("title"));
    of_class(document, class).iter().filter(|n| titled(n)).flat_map(path).collect()
}

fn size(ring: &[[f64; 2]]) -> f64 {
    let next = ring.iter().cycle().skip(1);
    ring.iter().zip(next).map(|(p, q)| p[0] * q[1] - p[1] * q[0]).sum::<f64>() / 2.0
}

#[test]
fn names_are_made_fit_for_xml() {
    let mut plan = Plan::default();
    for (i, name) in
        [&b"A & <b> \"c\" 'd'"[..], b"\xff\xfe\x80 bad", b"\x00\x01\x1b[31m\x7f", b"", "Straße 東".as_bytes(), "\u{ffff}]]>".as_bytes()].iter().enumerate()
    {
        let row = plan.lane(name, FORWARD, straight([0.0, i as f32 * 30.0], [100.0, i as f32 * 30.0], 3.5));
        plan.gap(row, row);
    }
    plan.lane(&b"long ".repeat(20_000), FORWARD, straight([0.0, 300.0], [100.0, 300.0], 3.5));
    let text = plan.drawn();
    let document = xml(&text);
    let ends = "from its end, 0.000 m from the first point; to its start, 0.000 m from the first point";
    for name in ["A & <b> \"c\" 'd'", "\u{fffd}\u{fffd}\u{fffd} bad", "\u{fffd}\u{fffd}\u{fffd}[31m\u{fffd}", "Straße 東", "\u{fffd}]]>"] {
        assert!(texts(&document).iter().any(|t| t == name), "{name:?} among the texts");
        assert!(titles(&document).contains(&format!("road {name}")), "{name:?} among the titles");
        assert!(titles(&document).contains(&format!("{name}/0/-1 to {name}/0/-1: 100 m; {ends}")), "{name:?} in the title of a gap");
    }
    assert!(text.len() < 20_000, "a long name is shortened");
}

#[test]
fn nothing_comes_from_elsewhere() {
    let mut plan = Plan::default();
    let a = plan.lane(b"<script>alert(1)</script>", FORWARD, straight([0.0, 0.0], [50.0, 0.0], 3.5));
    let b = plan.lane(b"b", FORWARD, straight([51.0, 0.0], [99.0, 0.0], 3.5));
    plan.gap(a, b);
    let text = plan.drawn();
    let document = xml(&text);
    assert_eq!(document.root_element().tag_name().namespace(), Some("http://www.w3.org/2000/svg"));
    assert_eq!(document.root_element().attribute("version"), Some("1.1"));
    let tags = ["svg", "title", "style", "rect", "text", "g", "path", "circle"];
    for node in document.descendants().filter(|n| n.is_element()) {
        assert!(tags.contains(&node.tag_name().name()), "{:?}", node.tag_name());
        assert!(node.attributes().all(|a| !a.name().starts_with("on") && a.name() != "href"));
    }
    assert!(!text.contains("url(") && !text.contains("@import"));
}

#[test]
fn maps_without_places_say_so() {
    let text = drawn(&Map::default(), &Found::default());
    assert_eq!(texts(&xml(&text)), ["the map has no lanes"]);
    let mut plan = Plan::default();
    plan.lane(b"a", FORWARD, [0.0; 12]);
    plan.tables.edges.clear();
    assert_eq!(texts(&xml(&plan.drawn())), ["the map has no edges; try `lanes dot`"]);
    let mut plan = Plan::default();
    plan.lane(b"a", FORWARD, [f32::NAN; 12]);
    assert_eq!(texts(&xml(&plan.drawn())), ["no lane has a place: coordinates are not finite; try `lanes dot`"]);
}

#[test]
fn lanes_and_gaps_without_a_place_are_left_out_and_counted() {
    let mut plan = Plan::default();
    let good = [0, 1].map(|i| plan.lane(b"good", FORWARD, straight([i as f32 * 51.0, 0.0], [i as f32 * 51.0 + 50.0, 0.0], 3.5)));
    let bad = [f32::NAN, f32::INFINITY, f32::MAX].map(|x| {
        let mut edges = straight([0.0, 9.0], [50.0, 9.0], 3.5);
        edges[7] = x;
        plan.lane(b"bad", FORWARD, edges)
    });
    plan.gap(good[0], good[1]);
    plan.false_gap(good[1], good[0], f32::INFINITY);
    plan.false_gap(good[1], good[0], f32::NAN);
    for row in bad {
        plan.false_gap(good[0], row, f32::INFINITY);
    }
    plan.false_gap(good[0], 99, 1.0);
    let text = plan.drawn();
    assert!(!text.contains("NaN") && !text.contains("inf"));
    let document = xml(&text);
    assert_eq!(areas(&document, "f").len(), 2);
    assert_eq!(of_class(&document, "gap").len(), 1);
    assert!(texts(&document).contains(&"3 lanes not drawn: coordinates that are no place; 6 gaps not marked: no width or no place".into()));
    assert!(texts(&document).contains(&"5 roads, 5 lanes, 7 links, 7 gaps".into()));
}

#[test]
fn gaps_are_marked_where_they_are() {
    let mut plan = Plan::default();
    let a = plan.lane(b"a", FORWARD, straight([0.0, 0.0], [40.0, 0.0], 4.0));
    let b = plan.lane(b"b", FORWARD, straight([60.0, 1.0], [100.0, 1.0], 4.0));
    let c = plan.lane(b"c", BACKWARD, straight([0.0, 0.25], [0.0, 20.0], 4.0));
    plan.gap(a, b);
    plan.gap(c, a);
    plan.origin = [300_000.0, 5_000_000.0];
    let text = plan.drawn();
    let document = xml(&text);
    let gaps = of_class(&document, "gap");
    let ways: Vec<_> = gaps.iter().flat_map(|g| g.children()).filter(|n| n.has_tag_name("path")).flat_map(|n| path(&n)).collect();
    // the widest stands last, so that it lies on top; b begins a metre to the left of where a ends
    let narrow = "c/0/-1 to a/0/-1: 0.25 m; from its start, 0.000 m from the first point; to its start, 0.000 m from the first point";
    let wide = "a/0/-1 to b/0/-1: 20.0 m; from its end, 0.000 m from the first point; to its start, 1.000 m from the first point";
    assert_eq!(titles(&document)[4..], [narrow, wide]);
    // the lanes reach from 0 to 100 and from -4 to 20, and lie in the middle of the sheet
    let unit = (1600.0 - 128.0) / 100.0;
    let middle = 76.0 + (24.0 * unit + 128.0) / 2.0;
    let sheet = |x: f64, y: f64| [64.0 + x * unit, middle - (y - 8.0) * unit];
    for (way, wanted) in ways.iter().zip([[sheet(0.0, 0.25), sheet(0.0, 0.0)], [sheet(40.0, 0.0), sheet(60.0, 0.0)]]) {
        assert!(way.iter().zip(wanted).all(|(p, q)| (p[0] - q[0]).hypot(p[1] - q[1]) < 0.03), "{way:?} is not {wanted:?}");
    }
    assert!(texts(&document).contains(&"20.0 m".into()) && texts(&document).contains(&"0.25 m".into()));
    assert_eq!(of_class(&document, "o").len(), 2 + 1, "a ring each, and one in the legend");
}

#[test]
fn north_is_up_and_areas_have_their_size() {
    let mut plan = Plan::default();
    plan.lane(b"south", FORWARD, straight([0.0, 0.0], [100.0, 0.0], 4.0));
    plan.lane_in(b"north", Some(b"j"), BACKWARD, straight([0.0, 50.0], [100.0, 50.0], 4.0));
    // an edge's points in the other order
    let mut edges = straight([0.0, 20.0], [100.0, 20.0], 4.0);
    edges.swap(6, 9);
    edges.swap(7, 10);
    plan.lane(b"crossed", BOTH, edges);
    plan.origin = [691_000.0, 5_334_000.5];
    let text = plan.drawn();
    let document = xml(&text);
    let (south, north, crossed) = (areas(&document, "f"), areas(&document, "bj"), areas(&document, "t"));
    assert!(north[0].iter().all(|p| south[0].iter().all(|q| p[1] < q[1])), "north is up");
    let unit = (1600.0 - 128.0) / 100.0;
    for area in [&south, &north, &crossed] {
        assert_eq!((area.len(), area[0].len()), (1, 4));
        assert!((size(&area[0]) / (unit * unit) - 400.0).abs() < 0.1, "{} square metres", size(&area[0]) / (unit * unit));
    }
    assert!(texts(&document).contains(&"places are counted from x 691000, y 5334000.5".into()));
    for line in ["forward", "backward", "both ways", "in a junction", "link", "no link", "10 m", "N"] {
        assert!(texts(&document).contains(&line.into()), "{line} in the legend");
    }
}

#[test]
fn outlines_are_drawn_with_few_points() {
    let mut plan = Plan::default();
    let arc = |r: f64| (0..=1000).map(|i| i as f64 / 1000.0).map(|a| [r * a.cos(), r * a.sin()]).collect::<Vec<_>>();
    plan.lane(b"arc", FORWARD, straight([0.0, 0.0], [1.0, 0.0], 1.0));
    plan.lane(b"quad", FORWARD, straight([0.0, 0.0], [50.0, 0.0], 3.5));
    plan.outlines = vec![Outline { left: arc(96.0), right: arc(100.0) }, Outline { left: vec![[f64::NAN; 2]; 2], right: Vec::new() }];
    let text = plan.drawn();
    let document = xml(&text);
    let rings = areas(&document, "f");
    assert!((10..200).contains(&rings[0].len()), "{} points", rings[0].len());
    assert_eq!(rings[1].len(), 4);
    let ratio = size(&rings[0]) / size(&rings[1]);
    assert!((ratio - (100.0 * 100.0 - 96.0 * 96.0) / 2.0 / 175.0).abs() < 0.02, "{ratio}");
}

#[test]
fn two_way_lanes_are_joined_at_the_ends_that_meet() {
    let mut plan = Plan::default();
    let a = plan.lane(b"a", BOTH, straight([0.0, 0.0], [50.0, 0.0], 4.0));
    let b = plan.lane(b"b", BOTH, straight([0.0, -4.0], [-50.0, -4.0], 4.0));
    plan.link(a, b);
    plan.link(b, a);
    let text = plan.drawn();
    let document = xml(&text);
    let drawn: Vec<_> = of_class(&document, "k").iter().take(1).flat_map(path).collect();
    assert_eq!(drawn.len(), 4, "two lanes and a bar at each far end");
    let long: Vec<_> = drawn.iter().filter(|l| (l[0][0] - l[1][0]).abs() > 1.0).collect();
    assert_eq!(long.len(), 2);
    assert_eq!(long[0][0], long[1][0], "both lines begin where the lanes meet");
}

#[test]
fn labels_keep_clear_of_each_other() {
    let mut plan = Plan::default();
    for i in 0..300 {
        let (x, y) = ((i % 20) as f32 * 30.0, (i / 20) as f32 * 20.0);
        let a = plan.lane(format!("r{i}").as_bytes(), FORWARD, straight([x, y], [x + 10.0, y], 3.5));
        let b = plan.lane(format!("s{i}").as_bytes(), FORWARD, straight([x + 12.0 + i as f32 * 0.02, y], [x + 22.0, y], 3.5));
        plan.gap(a, b);
    }
    let text = plan.drawn();
    let document = xml(&text);
    assert_eq!(of_class(&document, "gap").len(), 300);
    assert_eq!(of_class(&document, "g").len(), 40);
    assert!(texts(&document).contains(&"7.98 m".into()));
    let number = |n: &Node, key: &str| n.attribute(key).and_then(|v| v.parse::<f64>().ok()).expect("a number");
    let boxes: Vec<_> = of_class(&document, "w").iter().map(|n| ["x", "y", "width", "height"].map(|k| number(n, k))).collect();
    assert_eq!(boxes.len(), 40);
    for (i, a) in boxes.iter().enumerate() {
        for b in &boxes[..i] {
            let apart = a[0] + a[2] <= b[0] + 0.02 || b[0] + b[2] <= a[0] + 0.02 || a[1] + a[3] <= b[1] + 0.02 || b[1] + b[3] <= a[1] + 0.02;
            assert!(apart, "{a:?} {b:?}");
        }
    }
}

/// A row of numbers that look random.
struct Dice(u64);

impl Dice {
    fn roll(&mut self) -> u32 {
        self.0 = self.0.wrapping_mul(6364136223846793005).wrapping_add(1442695040888963407);
        (self.0 >> 33) as u32
    }
}

/// 16,384 lanes in rows, each with an outline of sixty points: linked to the next with no gap, or with one; or with
/// so many gaps to any.
fn largest(gaps: usize) -> Plan {
    let mut plan = Plan::default();
    for i in 0..MOST_ROWS {
        let (x, y) = ((i % 128) as f64 * 40.0, (i / 128) as f64 * 30.0);
        let inside = (i % 3 == 0).then_some(&b"j"[..]);
        plan.lane_in(format!("road {i}").as_bytes(), inside, i as u32 % 3, straight([x as f32, y as f32], [x as f32 + 39.0, y as f32], 3.5));
        let side = |off: f64| (0..30).map(|k| k as f64 / 29.0).map(|k| [x + 39.0 * k, y - off + (k * 6.0).sin() * 6.0]).collect();
        plan.outlines.push(Outline { left: side(0.0), right: side(3.5) });
    }
    let mut dice = Dice(1);
    for i in 1..MOST_ROWS {
        match gaps {
            0 => plan.link(i - 1, i),
            1 => plan.gap(i - 1, i),
            _ => (0..gaps).for_each(|_| plan.gap(i, dice.roll() as usize % MOST_ROWS)),
        }
    }
    plan
}

#[test]
fn the_largest_map_stays_small() {
    for gaps in [0, 1, 8] {
        let text = largest(gaps).drawn();
        assert!(text.len() < 8_000_000, "{} bytes", text.len());
        let document = xml(&text);
        assert_eq!(titles(&document).iter().filter(|t| t.starts_with("road ")).count(), MOST_ROWS);
        assert_eq!(of_class(&document, "gaps").is_empty(), gaps == 0);
    }
}

#[test]
fn any_content_gives_a_document() {
    for seed in 0..300 {
        let mut dice = Dice(seed);
        let n = dice.roll() as usize % 40;
        let mut words = |n: usize| (0..n).map(|_| if dice.roll() % 3 == 0 { dice.roll() } else { dice.roll() % 5 }).collect::<Vec<u32>>();
        let (roads, lanes, bits, text) = (words(n * 20), words(n * 10 + n % 7), words(n * 12 - n.min(n % 5)), words(40));
        let edges = bits.iter().map(|&b| if b < 5 { b as f32 } else { f32::from_bits(b.wrapping_mul(2654435761)) }).collect();
        let tables = Tables { text: text.iter().map(|&w| w as u8).collect(), roads, lanes, edges, ..Tables::default() };
        let outlines =
            (0..words(1)[0] % 50).map(|i| Outline { left: vec![[i as f64, 1.0]; i as usize % 4], right: vec![[1e300, 2.0]; i as usize % 3] }).collect();
        let successors = (0..n + 3).map(|_| words(3).iter().map(|&w| w as usize).collect()).collect();
        let gap = |w: Vec<u32>| Gap {
            lane: w[0] as usize,
            successor: w[1] as usize,
            bits: w[2].wrapping_mul(40503),
            u: f32::from_bits(w[3]),
            v: f32::from_bits(w[4]),
        };
        let gaps = (0..20).map(|_| gap(words(5))).collect();
        let text = drawn(&Map { tables, outlines, ..Map::default() }, &Found { successors, gaps, ..Found::default() });
        assert_eq!(xml(&text).root_element().tag_name().name(), "svg");
        assert!(!text.contains("NaN") && !text.contains("inf"), "seed {seed}");
    }
}
