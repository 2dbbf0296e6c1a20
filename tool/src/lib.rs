//! The tool `lanes`: lane links of OpenDRIVE maps, checked, listed, drawn and reversed. Every decision about links is a
//! call of the proved library; this crate reads, calls and prints.
pub mod check;
pub mod dot;
pub mod draw;
pub mod form;
pub mod found;
pub mod input;
pub mod json;
pub mod labels;
pub mod limits;
pub mod map;
pub mod options;
pub mod place;
pub mod refusal;
pub mod report;
pub mod reverse;
pub mod summary;
pub mod way;
pub mod xodr;

use check::Check;
use found::Refused;
use map::Map;
use options::{Asked, Command, Options};
use std::ffi::OsString;
use std::io::{self, ErrorKind, IsTerminal, Write};
use vorzhyket::sizes::ROAD;

/// The exit status: nothing found, or done; something found; no map, or a bad command line.
const NOTHING: u8 = 0;
const SOMETHING: u8 = 1;
const FAULT: u8 = 2;

/// What goes to standard output, and the status.
struct Answer {
    out: Vec<u8>,
    status: u8,
}

/// Says what is wrong on standard error.
pub fn complain(what: &str) -> u8 {
    // nothing is left to do where this can't be written either
    let _ = io::stderr().write_all(format!("lanes: {what}\n").as_bytes());
    FAULT
}

/// Does what the words of a command line ask for; gives the exit status.
pub fn run(words: Vec<OsString>) -> u8 {
    if words.is_empty() && io::stdin().is_terminal() {
        return complain("no map: name a file, or give one on standard input; lanes --help says more");
    }
    match options::read(words) {
        Err(what) => complain(&format!("{what}; lanes --help says more")),
        Ok(Asked::Help) => put(options::HELP.as_bytes(), NOTHING),
        Ok(Asked::Version) => put(concat!("lanes ", env!("CARGO_PKG_VERSION"), "\n").as_bytes(), NOTHING),
        Ok(Asked::Work(options)) => match answer(&options) {
            Ok(Answer { out, status }) => put(&out, status),
            Err(what) => complain(&what),
        },
    }
}

/// Writes to standard output. A reader that has gone away wants no more.
fn put(out: &[u8], status: u8) -> u8 {
    let mut stdout = io::stdout().lock();
    match stdout.write_all(out).and_then(|()| stdout.flush()) {
        Err(e) if e.kind() != ErrorKind::BrokenPipe => complain(&format!("standard output: {}", input::reason(&e))),
        _ => status,
    }
}

fn answer(o: &Options) -> Result<Answer, String> {
    let map = input::read(o)?;
    match o.command {
        Command::Repair => repair(o, &map),
        Command::Form => rewrite(o, &map, &vec![0; map.tables.roads.len() / ROAD], "form"),
        Command::Reverse => rewrite(o, &map, &marks(o, &map)?, "reverse"),
        _ => find(o, &map),
    }
}

/// A refusal with the file and the line.
fn refused(o: &Options, map: &Map, marks: &[u32], refused: Refused) -> String {
    o.source.said(&refusal::fault(refused, &map.tables, &map.lines, marks))
}

fn status(found: bool) -> u8 {
    if found {
        return SOMETHING;
    }
    NOTHING
}

fn repair(o: &Options, map: &Map) -> Result<Answer, String> {
    let (repaired, warnings) = found::repair(&map.tables).map_err(|r| refused(o, map, &[], r))?;
    Ok(Answer { out: report::repair(&map.tables, &repaired, &warnings), status: status(!warnings.is_empty()) })
}

/// The commands that need the links.
fn find(o: &Options, map: &Map) -> Result<Answer, String> {
    let found = found::find(&map.tables).map_err(|r| refused(o, map, &[], r))?;
    let done = |out: Vec<u8>| Ok(Answer { out, status: NOTHING });
    match o.command {
        Command::Links => done(report::links(&found)),
        Command::Dot => done(dot::graph(&found)),
        Command::Draw => {
            let mut out = Vec::new();
            draw::draw(map, &found, &mut out);
            done(out)
        }
        Command::Gaps => Ok(Answer { out: report::gaps(map, &found), status: status(!found.gaps.is_empty()) }),
        _ => Ok(checked(o, &Check::new(map, &found, o.area.is_some()))),
    }
}

fn checked(o: &Options, check: &Check) -> Answer {
    let out = if o.json { json::object(check, &o.source.to_string(), o.all) } else { summary::text(check, o.all) };
    Answer { out, status: status(!check.findings().is_empty()) }
}

/// Writes the map with the marked roads reversed.
fn rewrite(o: &Options, map: &Map, marks: &[u32], call: &'static str) -> Result<Answer, String> {
    let turned = found::reverse(&map.tables, marks, call).map_err(|r| refused(o, map, marks, r))?;
    let out = reverse::written(&turned, map.origin).map_err(|fault| o.source.said(&fault))?;
    Ok(Answer { out, status: NOTHING })
}

/// The roads to reverse: all, or those of the arguments and of the list.
fn marks(o: &Options, map: &Map) -> Result<Vec<u32>, String> {
    if o.all {
        return Ok(vec![1; map.tables.roads.len() / ROAD]);
    }
    let mut names: Vec<(String, Vec<u8>)> = o.names.iter().map(|name| (o.source.to_string(), name.clone())).collect();
    if let Some(list) = &o.from {
        let listed = form::names(&input::bytes(list)?).map_err(|fault| list.said(&fault))?;
        names.extend(listed.into_iter().map(|(line, name)| (format!("{list}:{line}"), name)));
    }
    let place = |k: usize| format!("{}: no road is called {}", names[k].0, labels::said(&names[k].1));
    reverse::marks(&map.tables, names.iter().map(|(_, name)| &name[..])).map_err(place)
}
