//! Each command, each way to name the map, each status, and command lines at fault.
mod common;
use common::{example_maps, examples, lanes, prints, run, says};

const ROW: &str = "road a to road b start sections 0\nroad b from road a end sections 0\n\
                   lane 1 a 0 -1 forward next -1\nedges 0 0 0 0 -3.5 0 40 0 0 40 -3.5 0\n\
                   lane 2 b 0 -1 forward back -1\nedges 40 0 0 40 -3.5 0 70 0 0 70 -3.5 0\n";
/// The same with a gap.
const TORN: &str = "road a to road b start sections 0\nroad b from road a end sections 0\n\
                    lane 1 a 0 -1 forward next -1\nedges 0 0 0 0 -3.5 0 40 0 0 40 -3.5 0\n\
                    lane 2 b 0 -1 forward back -1\nedges 40.3 0 0 40.3 -3.5 0 70 0 0 70 -3.5 0\n";
/// Road w leaves out that it ends at junction j.
const VACANT: &str = "road w sections 0\nroad v inside j from road w end to road e start sections 0\nroad e from junction j sections 0\n\
                      junction j common\nconnection w v start\npair -1 -1\n\
                      lane 1 w 0 -1 forward\nlane 2 v 0 -1 forward next -1\nlane 3 e 0 -1 forward\n";

#[test]
fn links() {
    prints("links", ROW, 0, "a/0/-1 onward: b/0/-1; before: none\nb/0/-1 onward: none; before: a/0/-1\n");
    prints("links -", VACANT, 0, "w/0/-1 onward: v/0/-1; before: none\nv/0/-1 onward: e/0/-1; before: w/0/-1\ne/0/-1 onward: none; before: v/0/-1\n");
}

#[test]
fn gaps() {
    prints("gaps", ROW, 0, "gaps: 0 gaps in 1 link\n");
    let places = "  a/0/-1 at its end, 0.000 m from the first point: x 40.000 m, y 0.000 m\n\
                  \x20 b/0/-1 at its start, 0.000 m from the first point: x 40.300 m, y 0.000 m\n";
    prints("gaps", TORN, 1, &format!("a/0/-1 to b/0/-1: 0.299999 m (bits 3e999980)\n{places}gaps: 1 gap in 1 link\n"));
    prints("gaps", VACANT, 0, "gaps: the map has no edges\n");
    prints("gaps --no-edges", TORN, 0, "gaps: the map has no edges\n");
    prints("gaps", "road a\n", 0, "gaps: 0 gaps in 0 links\n");
}

#[test]
fn repair() {
    prints("repair", ROW, 0, "repair: 0 road ends repaired, 0 connections added\n");
    prints("repair", VACANT, 1, "road w gets junction j at its end\nrepair: 1 road end repaired, 0 connections added\n");
    let direct = "road m to junction x\nroad n from junction x\njunction x direct\nconnection m n start\npair -1 -1\n";
    prints("repair", direct, 0, "repair: 0 road ends repaired, 1 connection added\n");
}

#[test]
fn dot() {
    let nodes = "digraph lanes {\n  rankdir=LR;\n  node [shape=box];\n  1 [label=\"a/0/-1\"];\n  2 [label=\"b/0/-1\"];\n";
    prints("dot", ROW, 0, &format!("{nodes}  1 -> 2;\n}}\n"));
    let two_way = ROW.replace("forward", "both");
    prints("dot", &two_way, 0, &format!("{nodes}  1 -> 2 [dir=both];\n}}\n"));
    let odd = "road a\\\"b sections 0\nlane 1 a\\\"b 0 -1 forward\n";
    prints("dot", odd, 0, "digraph lanes {\n  rankdir=LR;\n  node [shape=box];\n  1 [label=\"a\\\\\\\"b/0/-1\"];\n}\n");
}

#[test]
fn a_drawing_is_no_finding() {
    let ran = run("draw", TORN);
    assert_eq!((ran.status, ran.err), (0, String::new()));
}

#[test]
fn form_of_form_is_itself() {
    for (name, map) in example_maps() {
        let once = lanes(&[b"form"], &map);
        let twice = lanes(&[b"form"], &once.out);
        assert_eq!((once.status, twice.status), (0, 0), "{name}");
        assert!(!once.out.is_empty());
        assert_eq!(once.text(), twice.text(), "{name}");
    }
    prints("form", ROW, 0, ROW);
}

#[test]
fn form_keeps_every_word() {
    let map = "road \"\" inside \"a b\" from road #x start? along sections\n";
    says("form", map, "standard input:1: the line ends where a name is wanted");
    let map = "road \"\" inside \"a b\" from road \"#x\" start? along to junction \"q end? sections 4294967295\n";
    says("form", map, "standard input:1: \"q end? sections 4294967295 stands where a name is wanted");
    let map = "road \"\" inside \"a b\" from road \"#x\" start? along to junction q\" end? sections 0 4294967295\n\
               junction q\" virtual\nconnection \"\" \"\t\" end\npair 2147483647 -2147483647\n\
               lane 4294967295 \"\" 4294967295 0 both next 1 back -1\n\
               edges 0 -0 inf -inf nan 0.1 x00000001 16777216 123456790528 x7f7fffff -0.000000001 0.000001\n";
    prints("form", map, 0, map);
    let short = "road  a#b\tfrom junction j   along # a comment\r\njunction j common\n#\n\njunction j direct";
    prints("form", short, 0, "road a#b from junction j start? along sections\njunction j common\njunction j direct\n");
}

#[test]
fn reversal_twice_restores() {
    for (name, map) in example_maps() {
        let form = lanes(&[b"form"], &map);
        let once = lanes(&[b"reverse", b"--all"], &map);
        let twice = lanes(&[b"reverse", b"--all"], &once.out);
        assert_eq!((once.status, twice.status), (0, 0), "{name}");
        assert_ne!(once.text(), form.text(), "{name}");
        assert_eq!(twice.text(), form.text(), "{name}");
        assert_eq!(run("dot", &once.text()).text(), relabelled(&map, &once.out), "{name}");
    }
}

/// The lane graph of a map, with the nodes of another: reversal changes lane numbers, and no link.
fn relabelled(map: &[u8], other: &[u8]) -> String {
    let is_node = |line: &&str| line.contains("[label=");
    let (links, nodes) = (lanes(&[b"dot"], map).text(), lanes(&[b"dot"], other).text());
    let mut nodes = nodes.lines().filter(is_node);
    links.lines().map(|l| if is_node(&l) { nodes.next().unwrap_or_default() } else { l }).map(|l| l.to_string() + "\n").collect()
}

#[test]
fn roads_to_reverse() {
    let turned = "road a to road b end sections 0\nroad b to road a end sections 0\nlane 1 a 0 -1 forward next 1\nlane 2 b 0 1 backward next -1\n";
    prints("reverse - b --no-edges", ROW, 0, turned);
    let list = std::env::temp_dir().join(format!("lanes-list-{}", std::process::id()));
    std::fs::write(&list, "# roads\n\n\"b\"\nb # again\n").expect("a list");
    let word = list.display().to_string();
    prints(&format!("reverse --no-edges --from {word}"), ROW, 0, turned);
    std::fs::write(&list, "b\n\nc\n").expect("a list");
    says(&format!("reverse - --from {word}"), ROW, &format!("{word}:3: no road is called c"));
    std::fs::write(&list, "b a\n").expect("a list");
    says(&format!("reverse - --from={word}"), ROW, &format!("{word}:1: a stands where the end of the line is wanted"));
    std::fs::remove_file(&list).expect("the list");
    says(&format!("reverse - --from {word}"), ROW, &format!("{word}: No such file or directory"));
    says("reverse - a c", ROW, "standard input: no road is called c");
    says("reverse - -- --all", ROW, "standard input: no road is called --all");
}

#[test]
fn names_that_are_not_utf_8() {
    let map = b"road \xff\xfe sections 0\nlane 1 \xff\xfe 0 -1 forward\n";
    assert_eq!(lanes(&[b"links"], map).out, b"\xff\xfe/0/-1 onward: none; before: none\n");
    assert_eq!(lanes(&[b"form"], map).out, map);
    let turned = lanes(&[b"reverse", b"-", b"\xff\xfe"], map);
    assert_eq!(turned.out, b"road \xff\xfe sections 0\nlane 1 \xff\xfe 0 1 backward\n");
    let json = lanes(&[b"--json", b"--all"], map);
    assert!(json.text().contains("\"road\":\"\u{fffd}\u{fffd}\""));
    let refused = lanes(&[b"links"], b"road \xff\nroad \xff\n");
    assert_eq!(refused.err, "lanes: standard input:1: repair: refused, 3: road \u{fffd} twice (rows 0 and 1, lines 1 and 2)\n");
}

#[test]
fn files() {
    let plain = examples().join("plain.map").display().to_string();
    let named = run(&format!("check {plain}"), "");
    assert_eq!((named.status, &named.out), (1, &run(&plain, "").out));
    assert_eq!(named.out, lanes(&[], &std::fs::read(&plain).expect("the map")).out);
    says("links no-such-file", "", "no-such-file: No such file or directory");
    says("no-such-file", "", "no-such-file: No such file or directory (nor is it a command)");
    let folder = examples().display().to_string();
    says(&format!("links {folder}"), "", &format!("{folder}: Is a directory"));
    let fault = examples().join("faults/direction.map").display().to_string();
    says(&format!("links {fault}"), "", &format!("{fault}:2: sideways stands where forward, backward or both is wanted"));
}

#[test]
fn byte_order_marks_and_empty_inputs() {
    prints("repair", "\u{feff}road a\n", 0, "repair: 0 road ends repaired, 0 connections added\n");
    for empty in ["", "\n", " \t\r\n", "# a comment\n\n", "\u{feff}"] {
        for command in ["", "check", "links", "form", "reverse --all", "draw"] {
            says(command, empty, "standard input: the input is empty");
        }
    }
    let wide: Vec<u8> = "\u{feff}<OpenDRIVE/>".encode_utf16().flat_map(u16::to_le_bytes).collect();
    assert_eq!(lanes(&[], &wide).err, lanes(&[], b"<OpenDRIVE/>").err);
}

/// What begins with < is XML, and no line of plain text.
#[test]
fn forms_are_told_apart_by_content() {
    for map in ["<OpenDRIVE><road", " \n\t\r<OpenDRIVE><road", "\u{feff} <OpenDRIVE><road"] {
        for words in ["check", "--types driving", "--box 0,0,1,1"] {
            let ran = run(words, map);
            assert_eq!((ran.status, ran.text()), (2, String::new()));
            assert!(ran.err.starts_with("lanes: standard input") && !ran.err.contains("is wanted") && !ran.err.contains("plain text"), "{}", ran.err);
        }
    }
    says("", "# <\n<\n", "standard input:2: < stands where road, junction, connection, pair, lane or edges is wanted");
}

#[test]
fn command_lines_at_fault() {
    let more = "; lanes --help says more";
    says("turn plain.map", "", &format!("turn is no command{more}"));
    says("links a b", "", &format!("more than one file{more}"));
    says("--most", "", &format!("--most is no option{more}"));
    says("--all=yes", "", &format!("--all=yes is no option{more}"));
    says("links --all", "", &format!("--all is for check and reverse{more}"));
    says("form --json", "", &format!("--json is for check{more}"));
    says("check --from x", "", &format!("--from is for reverse{more}"));
    says("reverse plain.map", "", &format!("reverse wants names of roads, --from LIST or --all{more}"));
    says("reverse plain.map a --all", "", &format!("reverse wants names of roads, --from LIST or --all{more}"));
    says("reverse --from -", "", &format!("standard input can't be both the map and the list of names{more}"));
    says("--types", "", &format!("--types wants a value{more}"));
    for value in ["1,2,3", "1,2,3,4,5", "a,b,c,d", "0,0,inf,1", ""] {
        says(&format!("--box={value}"), "", &format!("{value} stands where --box wants x,y,x,y{more}"));
    }
    says("--types driving", ROW, "standard input: --types is for OpenDRIVE, and this is plain text");
    says("--box 0,0,1,1", ROW, "standard input: --box is for OpenDRIVE, and this is plain text");
}

#[test]
fn help_and_version() {
    let help = run("--help", "");
    assert_eq!((help.status, help.err), (0, String::new()));
    for command in ["check", "links", "gaps", "repair", "dot", "draw", "form", "reverse", "--types", "--box", "--no-edges", "--all", "--json", "--from"] {
        assert!(String::from_utf8_lossy(&help.out).contains(command), "{command}");
    }
    prints("--version", "", 0, &format!("lanes {}\n", env!("CARGO_PKG_VERSION")));
}

/// The library needs more stack than this, so it runs in a thread of its own.
#[test]
fn a_small_stack() {
    let file = examples().join("junction.map");
    let line = format!("ulimit -s 256 && exec {} {}", env!("CARGO_BIN_EXE_lanes"), file.display());
    let out = std::process::Command::new("sh").args(["-c", &line]).output().expect("it runs");
    assert_eq!((out.status.code(), &out.stderr[..]), (Some(1), &b""[..]));
    assert!(out.stdout.ends_with(b"found: 1 road end repaired\n"));
}

/// Output that no one reads, or that can't be written.
#[test]
fn output_that_goes_nowhere() {
    use std::process::{Command, Stdio};
    let large: String = (0..16_000).map(|i| format!("road {i} sections 0\nlane {i} {i} 0 -1 forward\n")).collect();
    let file = std::env::temp_dir().join(format!("lanes-large-{}", std::process::id()));
    std::fs::write(&file, large).expect("a map");
    let mut child = Command::new(env!("CARGO_BIN_EXE_lanes")).arg("links").arg(&file).stdout(Stdio::piped()).stderr(Stdio::piped()).spawn().expect("it runs");
    drop(child.stdout.take());
    let out = child.wait_with_output().expect("it ends");
    assert_eq!((out.status.code(), out.stderr), (Some(0), Vec::new()));
    if let Ok(full) = std::fs::OpenOptions::new().write(true).open("/dev/full") {
        let out = Command::new(env!("CARGO_BIN_EXE_lanes")).arg("links").arg(&file).stdout(full).output().expect("it runs");
        assert_eq!(out.status.code(), Some(2));
        assert_eq!(String::from_utf8_lossy(&out.stderr), "lanes: standard output: No space left on device\n");
    }
    std::fs::remove_file(&file).expect("the map");
}
