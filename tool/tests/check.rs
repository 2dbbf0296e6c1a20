//! The summary: what it says, that it fits a screen, `--all` and `--json`.
mod common;
use common::{examples, prints, run};

#[test]
fn nothing_found() {
    let map = "road m to junction x sections 0\nroad n from junction x sections 0\njunction x direct\nconnection m n start\npair -1 -1\n\
               lane 1 m 0 -1 forward\nlane 2 n 0 -1 forward\n";
    prints(
        "check",
        map,
        0,
        "map: 2 roads, 2 sections, 1 junction, 1 connection, 1 pair, 2 lanes\n\
         repair: 0 road ends repaired, 1 connection added\n\
         links: 1 link, 0 two-way links; 1 lane with none onward, 1 lane with none before\n\
         gaps: the map has no edges\n\
         movements: none lost\n\
         found: nothing\n",
    );
}

#[test]
fn no_lanes() {
    let text = "map: 1 road, 0 sections, 0 junctions, 0 connections, 0 pairs, 0 lanes\n\
                repair: 0 road ends repaired, 0 connections added\n\
                links: 0 links, 0 two-way links; 0 lanes with none onward, 0 lanes with none before\n\
                gaps: 0 gaps in 0 links\n\
                movements: none lost\n\
                found: no lanes\n";
    prints("", "road a\n", 1, text);
    prints("check --all", "road a\n", 1, text);
}

/// A crossing with a gap on either side of v, whose successor is wrong for lane -2 and whose lane -3 no one enters.
const CROSSING: &str = "road w sections 0\nroad v inside \"j 1\" from road w end to road e start sections 0\nroad e from junction \"j 1\" sections 0\n\
    junction \"j 1\" common\nconnection w v start\npair -1 -1\npair -2 -2\n\
    lane 1 w 0 -1 forward\nedges 0 0 0 0 -4 0 10 0 0 10 -4 0\n\
    lane 2 w 0 -2 forward\nedges 0 -4 0 0 -8 0 10 -4 0 10 -8 0\n\
    lane 3 v 0 -1 forward next -1\nedges 10.5 0 0 10.5 -4 0 20 0 0 20 -4 0\n\
    lane 4 v 0 -2 forward next -7\nedges 10 -4 0 10 -8 0 20 -4 0 20 -8 0\n\
    lane 5 v 0 -3 forward next -1\nedges 10 -8 0 10 -12 0 20 -8 0 20 -12 0\n\
    lane 6 e 0 -1 forward\nedges 20 0 0 20 -4 0 30 0 0 30 -4 0\n";

const CROSSING_CHECKED: &str = "map: 3 roads, 3 sections, 1 junction, 1 connection, 2 pairs, 6 lanes\n\
    repair: 1 road end repaired, 0 connections added\n\
    \x20 road w gets junction \"j 1\" at its end\n\
    links: 4 links, 0 two-way links; 2 lanes with none onward, 3 lanes with none before\n\
    LISTS\
    gaps: 2 gaps in 4 links, the widest first\n\
    \x20 4.000 m from v/0/-3 to e/0/-1, at 20.00, -8.00\n\
    \x20 0.500 m from w/0/-1 to v/0/-1, at 10.00, 0.00\n\
    movements: 1 lane inside a junction can be entered and not left, 1 left and not entered\n\
    \x20 v/0/-2 in junction \"j 1\" can be entered and not left\n\
    \x20 v/0/-3 in junction \"j 1\" can be left and not entered\n\
    found: 2 gaps, 2 lost movements, 1 road end repaired\n";

#[test]
fn a_crossing_with_faults() {
    prints("check", CROSSING, 1, &CROSSING_CHECKED.replace("LISTS", ""));
    let lists: String = run("links", CROSSING).text().lines().map(|l| format!("  {l}\n")).collect();
    assert_eq!(lists.lines().count(), 6);
    prints("check --all", CROSSING, 1, &CROSSING_CHECKED.replace("LISTS", &lists));
    let blind = run("--no-edges", CROSSING);
    assert!(blind.text().contains("\ngaps: the map has no edges\nmovements: 1 lane"));
    assert!(blind.text().ends_with("\nfound: 2 lost movements, 1 road end repaired\n"));
}

/// A driveway's link to a place along a main road is no list's matter; without it the way is lost.
#[test]
fn a_way_along_a_virtual_junction_is_not_lost() {
    let map =
        "road main sections 0\nroad drive inside yard from road main start along to road court start sections 0 1\nroad court from road drive end sections 0\n\
               junction yard virtual\n\
               lane 1 main 0 -1 forward\nlane 2 drive 0 -1 forward next -1\nlane 3 drive 1 -1 forward next -1\nlane 4 court 0 -1 forward\n";
    assert!(run("", map).text().contains("\nmovements: none lost\n"));
    let lost = "\nmovements: 0 lanes inside a junction can be entered and not left, 1 left and not entered\n\
                \x20 drive/0/-1 in junction yard can be left and not entered\n";
    assert!(run("", &map.replace("from road main start along ", "")).text().contains(lost));
    let inner = "\nmovements: 0 lanes inside a junction can be entered and not left, 1 left and not entered\n  drive/1/-1 in junction yard";
    assert!(run("", &map.replace("lane 2 drive 0 -1 forward next -1\n", "")).text().contains(inner));
}

#[test]
fn distances_that_are_none_come_first() {
    let map = CROSSING.replace("edges 10.5 0 0", "edges nan 0 0").replace("10 0 0 10 -4 0\n", "inf 0 0 10 -4 0\n");
    let text = run("", &map).text();
    assert!(text.contains("first\n  no distance from w/0/-1 to v/0/-1, no place\n  4.000 m from"), "{text}");
    assert_json(&run("--json", &map).text());
}

/// A map with many rows of every kind that plain text can have.
fn torn(n: usize) -> String {
    let mut map = String::from("junction j common\n");
    for i in 0..n {
        map += &format!("connection w{i} v{i} start\npair -1 -1\npair -2 -2\n");
    }
    for i in 0..n {
        map += &format!("road w{i} sections 0\nroad v{i} inside j from road w{i} end sections 0\n");
        for (k, x) in [(1, 0), (2, 4)] {
            map += &format!("lane {} w{i} 0 -{k} forward\nedges 0 {x} 0 0 {x} 0 9 {x} 0 9 {x} 0\n", 4 * i + k);
            map += &format!("lane {} v{i} 0 -{k} forward\nedges {} {x} 0 {} {x} 0 90 {x} 0 90 {x} 0\n", 4 * i + k + 2, i + 10, i + 10);
        }
    }
    map
}

#[test]
fn a_summary_fits_a_screen() {
    for n in [1, 2, 3, 5, 6, 40, 3000] {
        let ran = run("check", &torn(n));
        let lines = ran.text().lines().count();
        assert!(lines <= 24, "{lines} lines\n{}", ran.text());
        let all = run("check --all", &torn(n)).text();
        assert_eq!(all.lines().count(), 6 + n + 4 * n + 2 * n + 2 * n);
        let ends = if n == 1 { "end" } else { "ends" };
        assert!(ran.text().ends_with(&format!("\nfound: {} gaps, {} lost movements, {n} road {ends} repaired\n", 2 * n, 2 * n)), "{}", ran.text());
        assert_eq!(ran.text().lines().last(), all.lines().last());
    }
    let text = run("check", &torn(40)).text();
    assert!(text.contains("  .. and 35 more (--all shows them)\n"), "{text}");
    assert!(text.contains("  40.000 m from w39/0/-1 to v39/0/-1, at 9.00, 0.00\n  40.000 m from w39/0/-2"), "{text}");
    assert!(text.contains("  .. and 75 more (--all shows them)\n"), "{text}");
}

#[test]
fn json() {
    let ran = run("--json", CROSSING);
    assert_eq!((ran.status, ran.err), (1, String::new()));
    let text = String::from_utf8_lossy(&ran.out).into_owned();
    assert_json(&text);
    let lane = |identity: u32, road: &str, number: i32| format!("{{\"identity\":{identity},\"road\":\"{road}\",\"section\":0,\"number\":{number}}}");
    let gap = |lane: String, successor: String, rest: &str| format!("{{\"lane\":{lane},\"successor\":{successor},{rest}}}");
    let wide = "\"width\":4,\"bits\":\"40800000\",\"x\":20,\"y\":-8,\"exit\":{\"end\":\"end\",\"u\":0,\"metres\":0,\"x\":20,\"y\":-8},\
                \"entry\":{\"end\":\"start\",\"v\":1,\"metres\":4,\"x\":20,\"y\":-4}";
    let near = "\"width\":0.5,\"bits\":\"3f000000\",\"x\":10,\"y\":0,\"exit\":{\"end\":\"end\",\"u\":0,\"metres\":0,\"x\":10,\"y\":0},\
                \"entry\":{\"end\":\"start\",\"v\":0,\"metres\":0,\"x\":10.5,\"y\":0}";
    let (wide, near) = (gap(lane(5, "v", -3), lane(6, "e", -1), wide), gap(lane(1, "w", -1), lane(3, "v", -1), near));
    let lost = |l: String, entered: bool| format!("{{\"lane\":{l},\"junction\":\"j 1\",\"entered\":{entered},\"left\":{}}}", !entered);
    let parts = [
        "{\"file\":\"standard input\",\"sizes\":{\"roads\":3,\"sections\":3,\"junctions\":1,\"connections\":1,\"pairs\":2,\"lanes\":6},".to_string(),
        "\"repairs\":{\"road_ends\":1,\"connections_added\":0,\"rows\":[{\"road\":\"w\",\"junction\":\"j 1\",\"end\":\"end\"}]},".into(),
        "\"links\":{\"count\":4,\"two_way\":0,\"lanes_with_none_onward\":2,\"lanes_with_none_before\":3},".into(),
        format!("\"gaps\":{{\"edges\":true,\"count\":2,\"rows\":[{wide},{near}]}},"),
        format!(
            "\"lost_movements\":{{\"entered_not_left\":1,\"left_not_entered\":1,\"rows\":[{},{}]}},",
            lost(lane(4, "v", -2), true),
            lost(lane(5, "v", -3), false)
        ),
        "\"wrong_lengths\":{\"count\":0,\"rows\":[]},\"loose_contacts\":{\"count\":0,\"rows\":[]},\"notes\":{\"count\":0,\"rows\":[]},".into(),
        "\"found\":[\"2 gaps\",\"2 lost movements\",\"1 road end repaired\"]}\n".into(),
    ];
    assert_eq!(text, parts.concat());
    let all = run("--json --all", CROSSING).text();
    assert_json(&all);
    assert!(all.contains(&format!("\"rows\":[{{\"lane\":{},\"onward\":[{}],\"before\":[]}}", lane(1, "w", -1), lane(3, "v", -1))), "{all}");
}

#[test]
fn json_of_odd_names_and_of_many_rows() {
    let odd = "road a\"\\\u{1}\u{e9} sections 0\nlane 1 a\"\\\u{1}\u{e9} 0 -1 forward\n";
    let text = run("--json --all", odd).text();
    assert_json(&text);
    assert!(text.contains("\"road\":\"a\\\"\\\\\\u0001\u{e9}\""), "{text}");
    let (few, all) = (run("--json", &torn(40)).text(), run("--json --all", &torn(40)).text());
    assert_json(&few);
    assert_json(&all);
    assert_eq!(few.matches("\"bits\"").count(), 5);
    assert_eq!(all.matches("\"bits\"").count(), 80);
    assert_eq!(all.matches("\"onward\"").count(), 160);
}

/// Roads end to end, n of them, each with this contactPoint of its predecessor, the road before it, and of a junction's
/// connection that leads into it.
fn chain(n: usize, contact: &str) -> String {
    let mut map = String::from("<OpenDRIVE>\n");
    for i in 0..n {
        let geometry = format!(r#"<planView><geometry s="0" x="{}" y="0" hdg="0" length="10"><line/></geometry></planView>"#, 10 * i);
        let lane = r#"<laneSection s="0"><right><lane id="-1"><link><predecessor id="-1"/></link><width sOffset="0" a="3"/></lane></right></laneSection>"#;
        let link = format!(r#"<link><predecessor elementType="road" elementId="r {}" {contact}/></link>"#, (i + n - 1) % n);
        map += &format!("<road id=\"r {i}\" length=\"10\">{link}{geometry}<lanes>{lane}</lanes></road>\n");
    }
    map += "<junction id=\"j\">\n";
    for i in 0..n {
        map += &format!("<connection id=\"{i}\" incomingRoad=\"r {}\" connectingRoad=\"r {i}\" {contact}/>\n", (i + n - 1) % n);
    }
    map + "</junction>\n</OpenDRIVE>\n"
}

#[test]
fn contact_points_spelled_loosely() {
    let text = "map: 1 road, 1 section, 1 junction, 1 connection, 0 pairs, 1 lane\n\
                repair: 0 road ends repaired, 0 connections added\n\
                links: 0 links, 0 two-way links; 1 lane with none onward, 1 lane with none before\n\
                gaps: 0 gaps in 0 links\n\
                movements: none lost\n\
                contacts: 2 contact points spelled loosely, neither \"start\" nor \"end\"\n\
                \x20 road \"r 0\" (line 2): predecessor: contactPoint \"End\" reads as start, not given: no repair goes by it\n\
                \x20 junction j (line 4): connection 0: contactPoint \"End\" reads as start\n\
                found: 2 loose contact points\n";
    prints("check", &chain(1, "contactPoint=\"End\""), 1, text);
    for tight in ["", "contactPoint=\"start\"", "contactPoint=\"end\""] {
        let text = run("check", &chain(1, tight)).text();
        assert!(!text.contains("contact"), "{text}");
    }
    let ran = run("check", &chain(40, "contactPoint=\"End\""));
    assert!(ran.text().contains("\n  .. and 75 more (--all shows them)\nfound: 80 loose contact points\n"), "{}", ran.text());
    assert_eq!((ran.status, ran.text().matches("contactPoint").count()), (1, 5));
    assert_eq!(run("check --all", &chain(40, "contactPoint=\"End\"")).text().matches("contactPoint \"End\" reads as start").count(), 80);
    for (words, n) in [("check --json", 5), ("check --json --all", 80)] {
        let text = run(words, &chain(40, "contactPoint=\"End\"")).text();
        assert_json(&text);
        assert!(text.contains("\"loose_contacts\":{\"count\":80,\"rows\":[{\"road\":\"r 0\",\"link\":\"predecessor\","), "{text}");
        assert!(text.ends_with(",\"notes\":{\"count\":0,\"rows\":[]},\"found\":[\"80 loose contact points\"]}\n"), "{text}");
        assert_eq!(text.matches("\"value\":\"End\"").count(), n);
    }
}

/// Whatever its value, a loose contact point takes a line, and JSON stays JSON.
#[test]
fn contact_points_of_any_value() {
    let long = "y".repeat(100_000);
    let cut = format!("\"{}\"..", "y".repeat(60));
    let values = [
        ("", "\"\"", ""),
        ("end ", "\"end \"", "end "),
        ("&quot;end&quot;", "\"\\\"end\\\"\"", "\\\"end\\\""),
        ("a&#10;b&#13;&#9;c", "\"a\\nb\\r\\tc\"", "a\\u000ab\\u000d\\u0009c"),
        ("&#155;2J&#x2028;\\", "\"\\u{9b}2J\\u{2028}\\\\\"", "\u{9b}2J\u{2028}\\\\"),
        (&long, &cut, &long),
    ];
    for (written, shown, value) in values {
        let map = chain(1, &format!("contactPoint=\"{written}\""));
        let text = run("check", &map).text();
        assert_eq!((text.lines().count(), text.matches(&format!(": contactPoint {shown} reads as start")).count()), (9, 2), "{text}");
        let text = run("check --json", &map).text();
        assert_json(&text);
        assert_eq!(text.matches(&format!("\"value\":\"{value}\"}}")).count(), 2, "{text}");
    }
}

/// Every command but `check` prints the same as where there is no contactPoint, and something else with the right ones.
#[test]
fn a_loose_contact_point_is_as_none() {
    let map = std::fs::read_to_string(examples().join("loose-contact.xodr")).expect("a file");
    let maps = [map.clone(), map.replace("contactPoint=\"End\"", "").replace("contactPoint=\"Start\"", ""), map.replace("\"End\"", "\"end\"")];
    for words in ["links", "gaps", "repair", "dot", "draw", "form", "reverse - --all"] {
        let [loose, none, end] = [0, 1, 2].map(|i| run(words, &maps[i]));
        assert_eq!((loose.status, loose.text(), &loose.err[..]), (none.status, none.text(), ""), "{words}");
        assert!(end.status < 2 && loose.out != end.out, "{words}");
    }
}

/// Is it one JSON value, and no more?
fn assert_json(text: &str) {
    let rest = value(text.trim_end().as_bytes());
    assert_eq!(rest, Some(&b""[..]), "no JSON: {text}");
}

/// What stands after a JSON value.
fn value(s: &[u8]) -> Option<&[u8]> {
    match s.first()? {
        b'{' => members(&s[1..], b'}', |s| value(string(s)?.strip_prefix(b":")?)),
        b'[' => members(&s[1..], b']', value),
        b'"' => string(s),
        b'-' | b'0'..=b'9' => Some(number(s)),
        _ => [&b"null"[..], b"true", b"false"].into_iter().find_map(|w| s.strip_prefix(w)),
    }
}

fn members(mut s: &[u8], close: u8, member: fn(&[u8]) -> Option<&[u8]>) -> Option<&[u8]> {
    if *s.first()? == close {
        return Some(&s[1..]);
    }
    loop {
        s = member(s)?;
        match s.split_first()? {
            (b',', rest) => s = rest,
            (b, rest) => return (*b == close).then_some(rest),
        }
    }
}

fn string(s: &[u8]) -> Option<&[u8]> {
    let mut s = s.strip_prefix(b"\"")?;
    loop {
        match s.split_first()? {
            (b'"', rest) => return Some(rest),
            (b'\\', rest) => s = &rest[1..],
            (0..=0x1f, _) => return None,
            (_, rest) => s = rest,
        }
    }
}

fn number(s: &[u8]) -> &[u8] {
    let end = s.iter().position(|b| !b"+-.eE0123456789".contains(b)).unwrap_or(s.len());
    let text = std::str::from_utf8(&s[..end]).unwrap_or_default();
    assert!(text.parse::<f64>().is_ok_and(f64::is_finite), "{text}");
    &s[end..]
}
