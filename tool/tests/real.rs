//! Networks that SUMO wrote as OpenDRIVE, beside the connections that SUMO itself has (examples/real/*.connections: a lane and a lane that it leads to, a line each).
use std::collections::{BTreeSet, HashMap};
use std::process::{Command, Output};

const MAPS: [&str; 2] = ["grid2", "grid3-L3"];

fn file(name: &str) -> String {
    format!("{}/../examples/real/{name}", env!("CARGO_MANIFEST_DIR"))
}

fn lanes(words: &[&str]) -> Output {
    Command::new(env!("CARGO_BIN_EXE_lanes")).args(words).output().unwrap()
}

/// What a run prints; it has to say nothing on standard error.
fn prints(words: &[&str], status: i32) -> String {
    let out = lanes(words);
    assert_eq!(String::from_utf8_lossy(&out.stderr), "", "{words:?}");
    assert_eq!(out.status.code(), Some(status), "{words:?}");
    String::from_utf8(out.stdout).unwrap()
}

/// The lanes onward of each lane.
fn onward(map: &str) -> HashMap<String, Vec<String>> {
    prints(&["links", map], 0)
        .lines()
        .map(|line| {
            let (lane, rest) = line.split_once(" onward: ").unwrap();
            let (list, _) = rest.split_once("; before: ").unwrap();
            (lane.to_string(), list.split(' ').filter(|&l| l != "none").map(str::to_string).collect())
        })
        .collect()
}

/// The roads that lie inside a junction.
fn inside(map: &str) -> BTreeSet<String> {
    let form = prints(&["form", map], 0);
    form.lines().filter(|l| l.starts_with("road ") && l.contains(" inside ")).map(|l| l.split(' ').nth(1).unwrap().to_string()).collect()
}

fn road(lane: &str) -> &str {
    lane.split('/').next().unwrap()
}

#[test]
fn every_connection_of_sumo_is_a_path_over_one_connecting_lane_and_there_is_no_other() {
    for name in MAPS {
        let map = file(&format!("{name}.xodr"));
        let (onward, inside) = (onward(&map), inside(&map));
        let mut found = BTreeSet::new();
        for (lane, list) in &onward {
            if inside.contains(road(lane)) {
                continue;
            }
            for connecting in list {
                assert!(inside.contains(road(connecting)), "{lane} leads to {connecting}, past its junction");
                for next in &onward[connecting] {
                    assert!(!inside.contains(road(next)), "{connecting} leads to {next}, in a junction again");
                    assert!(found.insert(format!("{lane} {next}")), "{lane} leads to {next} twice");
                }
            }
        }
        let sumo = std::fs::read_to_string(file(&format!("{name}.connections"))).unwrap();
        let sumo: BTreeSet<String> = sumo.lines().map(str::to_string).collect();
        assert!(!sumo.is_empty());
        assert_eq!(found, sumo, "{name}");
    }
}

#[test]
fn nothing_is_found_on_them() {
    for name in MAPS {
        let map = file(&format!("{name}.xodr"));
        assert!(prints(&["check", &map], 0).ends_with("found: nothing\n"));
        assert!(prints(&["gaps", &map], 0).starts_with("gaps: 0 gaps in "));
    }
}

/// The arrows of the lane graph, by identity.
fn arrows(map: &str) -> BTreeSet<String> {
    prints(&["dot", map], 0).lines().filter(|l| l.contains("->")).map(str::to_string).collect()
}

#[test]
fn reversal_of_random_roads_leaves_the_links_and_the_gaps() {
    let folder = std::env::temp_dir().join(format!("lanes-real-{}", std::process::id()));
    std::fs::create_dir_all(&folder).unwrap();
    let mut seed = 1u32;
    for name in MAPS {
        let map = file(&format!("{name}.xodr"));
        let form = prints(&["form", &map], 0);
        let roads: Vec<&str> = form.lines().filter_map(|l| l.strip_prefix("road ")).map(|l| l.split(' ').next().unwrap()).collect();
        let before = arrows(&map);
        for _ in 0..5 {
            let chosen: Vec<&str> = roads
                .iter()
                .filter(|_| {
                    seed = seed.wrapping_mul(1_664_525).wrapping_add(1_013_904_223);
                    seed >> 31 == 1
                })
                .copied()
                .collect();
            let turned = prints(&[&["reverse", &map], &chosen[..]].concat(), 0);
            assert_ne!(turned, form);
            let path = folder.join("turned.map");
            std::fs::write(&path, turned).unwrap();
            let path = path.to_str().unwrap();
            assert_eq!(arrows(path), before);
            assert!(prints(&["gaps", path], 0).starts_with("gaps: 0 gaps in "));
        }
    }
    std::fs::remove_dir_all(&folder).unwrap();
}
