//! Plain text, where lanes keep their identities: so their lists stay the same in their order too.
use crate::common::{example_maps, run, Dice};
use crate::names::Kind::{self, Junction, Road};
use crate::names::{translated, word, Names};
use crate::{dice, example, form_of, gaps, height, printed, real_files, same, sorted, text, COMMANDS, COPIES};

/// A line with each name replaced. No old name has a blank.
pub fn renamed_line(line: &str, name: &mut impl FnMut(Kind, &str) -> String) -> String {
    let (mut words, mut out) = (line.split(' '), Vec::new());
    while let Some(lead) = words.next() {
        out.push(lead.to_string());
        if lead == "lane" {
            out.extend(words.next().map(str::to_string));
        }
        let kinds: &[Kind] = match lead {
            "road" | "lane" => &[Road],
            "junction" | "inside" => &[Junction],
            "connection" => &[Road, Road],
            _ => &[],
        };
        out.extend(kinds.iter().zip(&mut words).map(|(kind, old)| word(&name(*kind, old))));
    }
    out.join(" ")
}

/// A map with other names.
pub fn renamed(map: &str, names: &Names) -> String {
    assert!(!map.contains('"'));
    let mut name = |kind, old: &str| names.get(kind, old).expect("a name of the map").to_string();
    map.lines().map(|line| renamed_line(line, &mut name) + "\n").collect()
}

/// The rows of a map. What belongs to a row, as edges to a lane, stands on its line after a tab.
pub struct Rows {
    pub roads: Vec<String>,
    pub junctions: Vec<String>,
    pub lanes: Vec<String>,
}

impl Rows {
    pub fn of(map: &str) -> Rows {
        let parts = ["connection ", "pair ", "edges "];
        let whole = parts.iter().fold(map.to_string(), |map, part| map.replace(&format!("\n{part}"), &format!("\t{part}")));
        let of = |kind: &str| whole.lines().filter(|line| line.starts_with(kind)).map(str::to_string).collect();
        Rows { roads: of("road "), junctions: of("junction "), lanes: of("lane ") }
    }

    fn map(&self) -> String {
        [&self.lanes[..], &self.junctions, &self.roads].concat().iter().map(|row| row.replace('\t', "\n") + "\n").collect()
    }
}

/// A map with its roads and its lanes in another order.
fn reordered(map: &str, dice: &mut Dice) -> String {
    let mut rows = Rows::of(map);
    dice.shuffle(&mut rows.roads);
    dice.shuffle(&mut rows.lanes);
    rows.map()
}

/// A map with every third lane raised at its start: so it has gaps there.
fn torn(map: &str) -> String {
    let raised = |(k, row): (usize, String)| {
        let (lane, edges) = row.split_once("\tedges ").expect("edges");
        let mut numbers: Vec<String> = edges.split(' ').map(str::to_string).collect();
        for z in [2, 5] {
            assert_eq!(numbers[z], "0");
            numbers[z] = height(k);
        }
        format!("{lane}\tedges {}", numbers.join(" "))
    };
    let mut rows = Rows::of(map);
    rows.lanes = rows.lanes.into_iter().enumerate().map(raised).collect();
    rows.map()
}

/// The arrows of the lane graph, by identity.
fn arrows(map: &str) -> Vec<String> {
    sorted(printed("dot", map).lines().filter(|line| line.contains(" -> ")))
}

/// Maps by name, with the least number of their gaps: the examples, and the real maps and the town torn.
fn maps() -> Vec<(String, String, usize)> {
    let small = example_maps().into_iter().map(|(name, map)| (name, form_of(&text(map)), 0));
    let large = real_files().into_iter().chain([example("town.xodr")]);
    small.chain(large.map(|(name, file)| (name, torn(&form_of(&file)), 10))).collect()
}

#[test]
fn each_identity_keeps_its_lists_and_its_gaps() {
    for (name, map, least) in maps() {
        let said = COMMANDS.map(|command| printed(command, &map));
        let (repaired, linked) = (printed("repair", &map), arrows(&map));
        assert!(gaps(&said[1]) >= least, "{name} has {} gaps", gaps(&said[1]));
        for copy in 1..=COPIES {
            let (dice, name) = (&mut dice(copy), format!("{name}, copy {copy}"));
            let names = Names::new(&map, copy % 2 == 0, dice);
            let renamed = renamed(&map, &names);
            let copy = reordered(&renamed, dice);
            let (before, after) = (Rows::of(&renamed), Rows::of(&copy));
            assert_eq!(before.junctions, after.junctions, "{name}");
            assert!(before.roads != after.roads && before.lanes != after.lanes, "{name} stays in its order");
            for (command, said) in COMMANDS.iter().zip(&said) {
                let wanted = sorted(translated(said, &names).lines());
                same(&sorted(printed(command, &copy).lines()), &wanted, &format!("{name}: {command}"));
            }
            same(&arrows(&copy), &linked, &name);
            // warnings go by connections, which keep their order
            assert_eq!(printed("repair", &copy), translated(&repaired, &names), "{name}");
        }
    }
}

#[test]
fn two_roads_made_one_are_refused() {
    for (name, file) in real_files() {
        let map = form_of(&file);
        for copy in 1..=COPIES {
            let dice = &mut dice(copy);
            let mut names = Names::new(&map, true, dice);
            let [first, second] = names.make_one(Road, dice);
            let ran = run("links", &renamed(&map, &names));
            assert_eq!(ran.status, 2, "{name}: {first} and {second}");
            assert!(ran.err.contains(" refused, 3: "), "{}", ran.err);
        }
    }
}

/// Of two junctions with one name links go by the later row: so they are others, and others again where the two change
/// places.
#[test]
fn two_junctions_made_one_have_other_links() {
    for (name, file) in real_files() {
        let map = form_of(&file);
        let junctions = Rows::of(&map).junctions;
        let row = |name: &str| junctions.iter().position(|row| row.split(' ').nth(1) == Some(name)).expect("a junction");
        let links = |map: &str| sorted(printed("links", map).lines());
        for copy in 1..=COPIES {
            let dice = &mut dice(copy);
            let mut names = Names::new(&map, true, dice);
            let apart = links(&renamed(&map, &names));
            let [first, second] = names.make_one(Junction, dice);
            let mut rows = Rows::of(&renamed(&map, &names));
            let one = links(&rows.map());
            rows.junctions.swap(row(&first), row(&second));
            let exchanged = links(&rows.map());
            assert!(apart != one && apart != exchanged && one != exchanged, "{name}: {first} and {second}");
        }
    }
}
