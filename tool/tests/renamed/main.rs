//! Maps with other names of roads and junctions, and with the rows of roads and of lanes in another order: every lane has
//! the same lanes onward and before, and the gaps are the same collection. Junctions and connections keep their order.
#[path = "../common/mod.rs"]
mod common;
mod names;
mod open_drive;
mod plain;

use common::{examples, real_maps, run, Dice};

/// Copies of each map. Every second one has the old names, in other places.
const COPIES: u64 = 4;

/// What is compared line by line.
const COMMANDS: [&str; 3] = ["links", "gaps", "check --all"];

fn dice(copy: u64) -> Dice {
    Dice(copy * 0x2545_f491_4f6c_dd1d)
}

/// The networks of SUMO, by name.
fn real_files() -> Vec<(String, String)> {
    real_maps().into_iter().map(|(name, file)| (name, text(file))).collect()
}

/// An example by its name.
fn example(name: &str) -> (String, String) {
    (name.to_string(), text(std::fs::read(examples().join(name)).expect("an example")))
}

fn text(bytes: Vec<u8>) -> String {
    String::from_utf8(bytes).expect("UTF-8")
}

/// A map in plain text.
fn form_of(map: &str) -> String {
    let ran = run("form", map);
    assert_eq!((ran.status, &ran.err[..]), (0, ""));
    ran.text()
}

/// What a run prints, and its status. The places of a gap stand on its line.
fn printed(words: &str, map: &str) -> String {
    let ran = run(words, map);
    assert_eq!(ran.err, "", "lanes {words}");
    let text = if words == "gaps" { ran.text().replace("\n  ", "; ") } else { ran.text() };
    format!("{text}[status {}]\n", ran.status)
}

/// How many gaps `lanes gaps` printed.
fn gaps(printed: &str) -> usize {
    printed.matches(" (bits ").count()
}

/// A height in metres: every third one is 0.2 or more.
fn height(k: usize) -> String {
    format!("0.{:02}", [20 + k % 50, 0, 0][k % 3])
}

/// Lines as a collection.
fn sorted<'a>(lines: impl IntoIterator<Item = &'a str>) -> Vec<String> {
    let mut lines: Vec<String> = lines.into_iter().map(str::to_string).collect();
    lines.sort();
    lines
}

/// The copy has these lines, and no others.
#[track_caller]
fn same(copy: &[String], wanted: &[String], what: &str) {
    for (line, wanted) in copy.iter().zip(wanted) {
        assert_eq!(line, wanted, "{what}");
    }
    assert_eq!(copy.len(), wanted.len(), "{what}");
}
