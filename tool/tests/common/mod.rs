//! The binary run on small maps.
#![allow(dead_code)] // each test file uses a part
use std::ffi::OsStr;
use std::io::Write;
use std::os::unix::ffi::OsStrExt;
use std::path::PathBuf;
use std::process::{Command, Output, Stdio};

/// What a run left behind.
pub struct Ran {
    pub status: i32,
    pub out: Vec<u8>,
    pub err: String,
}

impl Ran {
    pub fn text(&self) -> String {
        String::from_utf8_lossy(&self.out).into_owned()
    }
}

/// Runs `lanes` with these words, and the map on standard input.
pub fn lanes(words: &[&[u8]], map: &[u8]) -> Ran {
    let mut child = Command::new(env!("CARGO_BIN_EXE_lanes"))
        .args(words.iter().map(|w| OsStr::from_bytes(w)))
        .stdin(Stdio::piped())
        .stdout(Stdio::piped())
        .stderr(Stdio::piped())
        .spawn()
        .expect("the binary runs");
    // a run that ends before it has read all closes the pipe
    let _ = child.stdin.take().expect("piped").write_all(map);
    let Output { status, stdout, stderr } = child.wait_with_output().expect("the run ends");
    Ran { status: status.code().unwrap_or(-1), out: stdout, err: String::from_utf8_lossy(&stderr).into_owned() }
}

/// The same with one line of words.
pub fn run(words: &str, map: &str) -> Ran {
    lanes(&words.split_whitespace().map(str::as_bytes).collect::<Vec<_>>(), map.as_bytes())
}

/// The run has that status and says just that, and on standard output nothing.
pub fn says(words: &str, map: &str, message: &str) {
    let ran = run(words, map);
    assert_eq!((ran.status, ran.text(), ran.err), (2, String::new(), format!("lanes: {message}\n")), "lanes {words}\n{map}");
}

/// The run has that status and prints just that, and on standard error nothing.
pub fn prints(words: &str, map: &str, status: i32, text: &str) {
    let ran = run(words, map);
    assert_eq!((ran.status, ran.text(), ran.err), (status, text.to_string(), String::new()), "lanes {words}\n{map}");
}

/// A small generator of numbers, the same for the same seed.
pub struct Dice(pub u64);

impl Dice {
    /// Below n, or 0.
    pub fn below(&mut self, n: usize) -> usize {
        self.0 ^= self.0 << 13;
        self.0 ^= self.0 >> 7;
        self.0 ^= self.0 << 17;
        (self.0 >> 11) as usize % n.max(1)
    }

    /// Brings things into another order, of one cycle: of two or more none stays in its place.
    pub fn shuffle<T>(&mut self, things: &mut [T]) {
        for k in (1..things.len()).rev() {
            things.swap(k, self.below(k));
        }
    }
}

/// The examples' folder.
pub fn examples() -> PathBuf {
    PathBuf::from(env!("CARGO_MANIFEST_DIR")).join("../examples")
}

/// The files of a folder with that ending, by name: that many at least.
fn files(folder: PathBuf, ending: &str, least: usize) -> Vec<(String, Vec<u8>)> {
    let files = std::fs::read_dir(folder).expect("a folder").map(|f| f.expect("a file").path());
    let files = files.filter(|p| p.extension().is_some_and(|e| e == ending));
    let mut files: Vec<_> = files.map(|p| (p.display().to_string(), std::fs::read(&p).expect("a file"))).collect();
    files.sort();
    assert!(files.len() >= least);
    files
}

/// The maps in plain text among the examples, by name.
pub fn example_maps() -> Vec<(String, Vec<u8>)> {
    files(examples(), "map", 5)
}

/// The networks of SUMO among the examples, by name.
pub fn real_maps() -> Vec<(String, Vec<u8>)> {
    files(examples().join("real"), "xodr", 2)
}

/// Small maps of both forms.
pub fn small_maps() -> Vec<Vec<u8>> {
    let open_drive = files(PathBuf::from(env!("CARGO_MANIFEST_DIR")).join("tests/data"), "xodr", 5);
    example_maps().into_iter().chain(open_drive).map(|(_, map)| map).collect()
}
