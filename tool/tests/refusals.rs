//! Faults of lines, and refusals with number, table, row and line. Refusals 2, 5 and 10 no file can bring about: the
//! reader writes no such word, part or edges.
mod common;
use common::{prints, run, says};

/// A map that is at fault in its last line.
fn fault(map: &str, message: &str) {
    says("links", map, &format!("standard input:{}: {message}", map.lines().count()));
}

#[test]
fn lines_at_fault() {
    fault("street a\n", "street stands where road, junction, connection, pair, lane or edges is wanted");
    fault("# a map\n\nroad\n", "the line ends where a name is wanted");
    fault("road a inside\n", "the line ends where a name is wanted");
    fault("road a from way\n", "way stands where road or junction is wanted");
    fault("road a to\n", "the line ends where road or junction is wanted");
    fault("road a to road b sections 0\n", "sections stands where start, end, start? or end? is wanted");
    fault("road a to road b start from road c end\n", "from stands where the end of the line is wanted");
    fault("road a sections 0 -1\n", "-1 stands where a section's number is wanted");
    fault("road a sections 4294967296\n", "4294967296 stands where a section's number is wanted");
    fault("road \"a\" \"b\n", "\"b stands where the end of the line is wanted");
    fault("junction j\n", "the line ends where common, direct or virtual is wanted");
    fault("junction j odd\n", "odd stands where common, direct or virtual is wanted");
    fault("connection a b start\n", "a connection, but no junction before it");
    fault("junction j common\nconnection a b end?\n", "end? stands where start or end is wanted");
    fault("pair 1 1\n", "a pair, but no connection before it");
    fault("junction j common\nconnection a b end\npair 1 2147483648\n", "2147483648 stands where a lane number is wanted");
    fault("lane -1 a 0 1 forward\n", "-1 stands where a lane's identity is wanted");
    fault("lane 1 a x 1 forward\n", "x stands where a section's number is wanted");
    fault("lane 1 a 0 1.0 forward\n", "1.0 stands where a lane number is wanted");
    fault("lane 1 a 0 1 sideways\n", "sideways stands where forward, backward or both is wanted");
    fault("lane 1 a 0 1 both next\n", "the line ends where a lane number is wanted");
    fault("lane 1 a 0 1 both back 1 next 1\n", "next stands where the end of the line is wanted");
    fault("edges 0 0 0 0 0 0 0 0 0 0 0 0\n", "edges, but no lane before them that has none yet");
    let lane = "lane 1 a 0 1 forward\n";
    fault(&format!("{lane}{lane}edges 0 0 0 0 0 0 0 0 0 0 0 0\n"), "edges, but a lane before this one has none");
    let number = "a number of at most 15 digits, or x and eight hexadecimal digits,";
    fault(&format!("{lane}edges 0 0 0 1e3\n"), &format!("1e3 stands where {number} is wanted"));
    fault(&format!("{lane}edges 0 0 0\n"), &format!("the line ends where {number} is wanted"));
    fault(&format!("{lane}edges 0 0 0 0 0 0 0 0 0 0 0 0\nlane 2 a 0 2 forward\n"), "this lane has no edges, and those before it have");
}

#[test]
fn a_word_that_is_long_or_odd() {
    fault(&"x".repeat(1000), &format!("{}.. stands where road, junction, connection, pair, lane or edges is wanted", "x".repeat(60)));
    fault("a\u{1b}[2J\u{7}\n", "a\\u{1b}[2J\\u{7} stands where road, junction, connection, pair, lane or edges is wanted");
}

/// The commands that repair.
const REPAIRING: [&str; 6] = ["check", "links", "gaps", "repair", "dot", "draw"];

#[test]
fn refused_1() {
    let roads = |n: usize| (0..n).map(|i| format!("road {i}\n")).collect::<String>();
    let connections = |n: usize| format!("junction j common\n{}", "connection a b start\n".repeat(n));
    let over = |roads: &str, junctions: usize, connections: &str, most: usize, text: usize| {
        format!(
            "standard input: refused, 1: the map is over a limit: roads {roads}, sections 0/16384, junctions {junctions}/16384, \
             connections {connections}, pairs 0/{most}, lanes 0/16384, bytes of names {text}/1048576"
        )
    };
    let text = (0..16_385).map(|i: usize| i.to_string().len()).sum();
    says("check", &roads(16_385), &over("16385/16384 (over)", 0, "0/8192", 8192, text));
    says("form", &roads(16_385), &over("16385/16384 (over)", 0, "0/16384", 16_384, text));
    assert_eq!(run("links", &roads(16_384)).status, 0);
    for command in REPAIRING {
        says(command, &connections(8193), &over("0/16384", 1, "8193/8192 (over)", 8192, 3));
    }
    prints("form", &connections(8193), 0, &connections(8193));
    says("form", &connections(16_385), &over("0/16384", 1, "16385/16384 (over)", 16_384, 3));
}

#[test]
fn refused_3() {
    let map = "road a\nroad b\n\nroad a\nroad b\n";
    for command in REPAIRING {
        says(command, map, "standard input:1: repair: refused, 3: road a twice (rows 0 and 2, lines 1 and 4)");
    }
    says("form", map, "standard input:1: form: refused, 3: road a twice (rows 0 and 2, lines 1 and 4)");
    says("reverse --all", map, "standard input:1: reverse: refused, 3: road a twice (rows 0 and 2, lines 1 and 4)");
}

#[test]
fn refused_4() {
    says(
        "repair",
        "road a sections 0 1\nroad \"b c\" sections 2 2\n",
        "standard input:2: repair: refused, 4: the sections of road \"b c\" (row 1) do not ascend",
    );
}

#[test]
fn refused_6() {
    let map = "road a sections 0\nlane 7 a 0 -1 forward\nlane 8 a 0 1 forward\nlane 7 a 0 2 forward\n";
    says("links", map, "standard input:2: links: refused, 6: lane identity 7 twice (rows 0 and 2, lines 2 and 4)");
    says("form", map, "standard input:2: form: refused, 6: lane identity 7 twice (rows 0 and 2, lines 2 and 4)");
    prints("repair", map, 0, "repair: 0 road ends repaired, 0 connections added\n");
}

#[test]
fn refused_7() {
    let unknown = ": its road is unknown, or does not list that section";
    let map = "road a sections 0\nlane 7 a 0 -1 forward\nlane 8 b 0 -1 forward\n";
    says("gaps", map, &format!("standard input:3: links: refused, 7: lane b/0/-1 (row 1){unknown}"));
    says("check --json", "road a sections 0 2\nlane 7 a 1 -1 forward\n", &format!("standard input:2: links: refused, 7: lane a/1/-1 (row 0){unknown}"));
}

#[test]
fn refused_8() {
    let map = "road a sections 0\nlane 7 a 0 -1 forward\nlane 8 a 0 -1 both\n";
    says("dot", map, "standard input:2: links: refused, 8: lane a/0/-1 twice (rows 0 and 1, lines 2 and 3)");
}

#[test]
fn refused_13() {
    let lane = "road a sections 0\nlane 1 a 0 1 forward\nlane 7 a 0 -1 forward next -2147483648\n";
    says("form", lane, "standard input:3: form: refused, 13: lane a/0/-1 (row 1) has the number -2147483648, or a link to it");
    assert_eq!(run("links", lane).status, 0);
    let pair = "road a\njunction j common\nconnection a a start\npair 1 1\npair 1 -2147483648\n";
    says("reverse - a", pair, "standard input:5: reverse: refused, 13: a pair (row 1) has the number -2147483648");
}

#[test]
fn refused_14() {
    let map = "road b\nroad a from junction j to junction j\njunction j direct\n";
    says("reverse - a", map, "standard input:2: reverse: refused, 14: road a (row 1) names one direct junction at both ends");
    assert_eq!(run("reverse - b", map).status, 0);
    assert_eq!(run("form", map).status, 0);
}
