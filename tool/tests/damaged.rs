//! Maps in plain text and OpenDRIVE that are cut, doubled, swapped and overwritten: every run ends with status 0, 1 or 2,
//! at 2 with a message and nothing on standard output, and never with a panic.
mod common;
use common::{lanes, small_maps, Dice};

const FILES: usize = 10_000;
const THREADS: usize = 2;
const COMMANDS: [&[&[u8]]; 9] =
    [&[b"check"], &[b"links"], &[b"gaps"], &[b"repair"], &[b"dot"], &[b"draw"], &[b"form"], &[b"reverse", b"--all"], &[b"check", b"--json", b"--all"]];

/// A stretch of some bytes.
fn stretch(length: usize, dice: &mut Dice) -> (usize, usize) {
    let from = dice.below(length);
    (from, (from + 1 + dice.below(40)).min(length))
}

/// One more damage.
fn damage(map: &mut Vec<u8>, dice: &mut Dice) {
    let (from, to) = stretch(map.len(), dice);
    let at = dice.below(map.len());
    match dice.below(7) {
        0 => map.truncate(at),
        1 => drop(map.drain(from..to)),
        2 => {
            let piece = map[from..to].to_vec();
            map.splice(at..at, piece);
        }
        3 => map[from..to].reverse(),
        4 if at < map.len() => map[at] = dice.below(256) as u8,
        5 if at < map.len() => map[at] ^= 1 << dice.below(8),
        _ => swap_lines(map, dice),
    }
}

/// Two lines change places, or two words of the map do.
fn swap_lines(map: &mut Vec<u8>, dice: &mut Dice) {
    let mark = if dice.below(2) == 0 { b'\n' } else { b' ' };
    let mut pieces: Vec<Vec<u8>> = map.split(|&b| b == mark).map(<[u8]>::to_vec).collect();
    let (a, b) = (dice.below(pieces.len()), dice.below(pieces.len()));
    pieces.swap(a, b);
    *map = pieces.join(&mark);
}

/// Runs on so many damaged maps, and counts each status.
fn ends(maps: &[Vec<u8>], files: usize, seed: u64) -> [usize; 3] {
    let mut dice = Dice(seed);
    let mut ends = [0; 3];
    for k in 0..files {
        let mut map = maps[k % maps.len()].clone();
        for _ in 0..1 + dice.below(4) {
            damage(&mut map, &mut dice);
        }
        let words = COMMANDS[dice.below(COMMANDS.len())];
        let ran = lanes(words, &map);
        let shown = || format!("file {k}, {:?}\n{}\n--- said\n{}", words, String::from_utf8_lossy(&map), ran.err);
        assert!((0..=2).contains(&ran.status), "status {}; {}", ran.status, shown());
        assert!(!ran.err.contains("panicked"), "{}", shown());
        let faulty = ran.status == 2;
        assert_eq!(ran.err.starts_with("lanes: standard input") && ran.err.lines().count() == 1, faulty, "{}", shown());
        assert!(!faulty || ran.out.is_empty(), "{}", shown());
        ends[ran.status as usize] += 1;
    }
    ends
}

#[test]
fn damaged_maps_end_well() {
    let maps = &small_maps()[..];
    let seeds = (1..=THREADS as u64).map(|k| k * 0x2545_f491_4f6c_dd1d);
    let counts: Vec<[usize; 3]> = std::thread::scope(|threads| {
        let running: Vec<_> = seeds.map(|seed| threads.spawn(move || ends(maps, FILES / THREADS, seed))).collect();
        running.into_iter().map(|thread| thread.join().expect("every run ends well")).collect()
    });
    assert!(counts.iter().flatten().all(|&n| n >= 50), "the damage shows little: {counts:?}");
}
