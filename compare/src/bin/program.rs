//! The tool `lanes` on random maps in plain text, beside what the original finds on the same maps: each command's output,
//! byte for byte, and its status, and reversals beside document 01's rules.
use compare::form::{same_text, Form};
use compare::original::Wide;
use compare::tables::{Dice, Tables, ROAD};
use compare::{maps, original, reversal, rules};
use std::ffi::OsStr;
use std::io::Write;
use std::os::unix::ffi::OsStrExt;
use std::process::{Command, Output, Stdio};

struct Program {
    path: String,
    runs: usize,
    refused: usize,
}

impl Program {
    /// A run of the program, with the map on standard input.
    fn run(&mut self, words: &[&[u8]], map: &[u8]) -> Output {
        self.runs += 1;
        let mut child = Command::new(&self.path)
            .args(words.iter().map(|w| OsStr::from_bytes(w)))
            .stdin(Stdio::piped())
            .stdout(Stdio::piped())
            .stderr(Stdio::piped())
            .spawn()
            .unwrap_or_else(|e| panic!("{}: {e}", self.path));
        child.stdin.take().unwrap().write_all(map).unwrap();
        child.wait_with_output().unwrap()
    }

    /// A command whose output and status are known.
    fn prints(&mut self, words: &str, map: &[u8], status: i32, expected: &[u8]) -> Result<(), String> {
        let out = self.run(&words.split(' ').map(str::as_bytes).collect::<Vec<_>>(), map);
        if out.stdout == expected && out.stderr.is_empty() && out.status.code() == Some(status) {
            return Ok(());
        }
        Err(format!("status {status}; {}", differs(words, &out, expected)))
    }

    /// A command that writes the map again, or is refused.
    fn writes(&mut self, words: &[&[u8]], map: &[u8], refusal: u32, expected: &[u8]) -> Result<(), String> {
        let command = std::str::from_utf8(words[0]).unwrap();
        let out = self.run(words, map);
        if refusal == 0 && same_text(&out.stdout, expected) && out.stderr.is_empty() && out.status.code() == Some(0) {
            return Ok(());
        }
        if refusal != 0 && out.stdout.is_empty() && out.status.code() == Some(2) && names_a_line(command, &out.stderr, refusal, map) {
            self.refused += 1;
            return Ok(());
        }
        Err(format!("refusal {refusal}; {}", differs(command, &out, expected)))
    }

    /// A map with no row at all is none.
    fn empty(&mut self) -> Result<(), String> {
        for command in ["repair", "links", "gaps", "dot", "check", "form"] {
            let out = self.run(&[command.as_bytes()], b"");
            if !out.stdout.is_empty() || out.stderr != b"lanes: standard input: the input is empty\n" || out.status.code() != Some(2) {
                return Err(differs(command, &out, b""));
            }
        }
        Ok(())
    }
}

/// Is that the message of the refusal, with a line that can be meant? 13 is about a lane or a pair with the least
/// number, 14 about a road.
fn names_a_line(command: &str, said: &[u8], refusal: u32, map: &[u8]) -> bool {
    let said = String::from_utf8_lossy(said);
    let Some((line, rest)) = said.strip_prefix("lanes: standard input:").and_then(|s| s.split_once(": ")) else { return false };
    let Some(text) = line.parse::<usize>().ok().and_then(|n| map.split(|&b| b == b'\n').nth(n - 1)) else { return false };
    let meant = match refusal {
        13 => !text.starts_with(b"road ") && text.windows(11).any(|w| w == b"-2147483648"),
        14 => text.starts_with(b"road "),
        _ => true,
    };
    meant && rest.starts_with(&format!("{command}: refused, {refusal}: "))
}

fn differs(command: &str, out: &Output, expected: &[u8]) -> String {
    let show = |b: &[u8]| String::from_utf8_lossy(b).into_owned();
    format!("{command}\n--- printed\n{}--- said\n{}--- expected\n{}", show(&out.stdout), show(&out.stderr), show(expected))
}

/// One map through all commands.
fn map(t: &Tables, dice: &mut Dice, program: &mut Program) -> Result<(), String> {
    let form = Form { map: t, plain: dice.one_in(2) };
    let text = form.text();
    let found = original::repair(t);
    let (lists, wide) = original::lists_and_gaps(t);
    let gaps: Vec<_> = wide.iter().map(Wide::row).collect();
    if text.is_empty() {
        return program.empty();
    }
    let check = |all: bool| form.check(&found, &lists, &gaps, all);
    let status = i32::from(!check(false).ends_with(b"\nfound: nothing\n"));
    program.prints("repair", &text, i32::from(!found.warnings.is_empty()), &form.repair(&found))?;
    program.prints("links", &text, 0, &form.links(&lists))?;
    program.prints("gaps", &text, i32::from(!gaps.is_empty()), &form.gaps(&lists, &gaps))?;
    program.prints("dot", &text, 0, &form.dot(&lists))?;
    program.prints("check", &text, status, &check(false))?;
    program.prints("check --all", &text, status, &check(true))?;
    let roads = t.roads.len() / ROAD;
    program.writes(&[b"form"], &text, rules::reverse(t, &vec![0; roads]), &text)?;
    // an argument has no byte 0
    let names: Vec<Vec<u8>> = t.roads.chunks(ROAD).map(|r| form.spelled(r)).collect();
    let marks: Vec<u32> = names.iter().map(|n| u32::from(!n.contains(&0) && dice.one_in(2))).collect();
    if !marks.contains(&1) {
        return Ok(());
    }
    let chosen = names.iter().zip(&marks).filter(|(_, &m)| m == 1).map(|(n, _)| &n[..]);
    let words: Vec<&[u8]> = [&b"reverse"[..], b"-"].into_iter().chain(chosen).collect();
    let refusal = rules::reverse(t, &marks);
    let turned = if refusal == 0 { reversal::reversed(t, &marks) } else { t.clone() };
    program.writes(&words, &text, refusal, &Form { map: &turned, ..form }.text())
}

fn main() {
    let mut args = std::env::args().skip(1);
    let path = args.next().expect("the path of the program");
    let n: u64 = args.next().and_then(|a| a.parse().ok()).unwrap_or(1000);
    let seed: u64 = args.next().and_then(|a| a.parse().ok()).unwrap_or(1);
    let (mut dice, mut others, mut slopes) = (Dice::new(seed), Dice::new(!seed), Dice::new(seed.swap_bytes()));
    let mut program = Program { path, runs: 0, refused: 0 };
    let mut wrong = 0;
    for k in 0..n {
        let mut t = maps::random(&mut dice);
        maps::on_a_grid(&mut t, &mut others);
        maps::on_a_slope(&mut t, &mut slopes);
        maps::half_round(&mut t, &mut slopes);
        if let Err(e) = map(&t, &mut others, &mut program) {
            wrong += 1;
            if wrong <= 3 {
                println!("map {k}: {e}");
            }
        }
    }
    println!("the program on {n} maps, seed {seed}: {} runs, {} of them refused", program.runs, program.refused);
    println!("{wrong} disagreements");
    std::process::exit(i32::from(wrong > 0));
}
