//! OpenDRIVE, where identities count the lanes as they stand in the file: so lanes go by road, section and number here.
use crate::common::Dice;
use crate::names::Kind::{self, Junction, Road};
use crate::names::{label, translated, Names};
use crate::plain::{renamed, Rows};
use crate::{dice, example, form_of, gaps, height, printed, real_files, same, sorted, COMMANDS, COPIES};
use std::collections::HashMap;

/// A name as an attribute's value.
fn masked(name: &str) -> String {
    name.replace('&', "&amp;").replace('<', "&lt;")
}

/// What follows a <, with each name replaced. A road that lies in no junction says "-1".
fn renamed_tag(tag: &str, names: &Names) -> String {
    let target = if tag.contains(" elementType=\"junction\"") { Junction } else { Road };
    let attributes: &[(&str, Kind)] = match tag.split(' ').next() {
        Some("road") => &[("id", Road), ("junction", Junction)],
        Some("predecessor" | "successor") => &[("elementId", target)],
        Some("junction") => &[("id", Junction)],
        Some("connection") => &[("incomingRoad", Road), ("connectingRoad", Road)],
        _ => &[],
    };
    let mut tag = tag.to_string();
    for (attribute, kind) in attributes {
        if let Some((before, rest)) = tag.split_once(&format!(" {attribute}=\"")) {
            let (old, after) = rest.split_once('"').expect("a value");
            let new = names.get(*kind, old).or((old == "-1").then_some(old)).expect("a name of the map");
            tag = format!("{before} {attribute}=\"{}\"{after}", masked(new));
        }
    }
    tag
}

/// A file with other names.
fn renamed_file(file: &str, names: &Names) -> String {
    file.split('<').map(|tag| renamed_tag(tag, names)).collect::<Vec<_>>().join("<")
}

/// A file with its roads, which stand in a row, in another order.
fn reordered(file: &str, dice: &mut Dice) -> String {
    let (first, last) = (file.find("<road ").expect("a road"), file.rfind("</road>").expect("a road") + "</road>".len());
    let mut roads: Vec<&str> = file[first..last].split_inclusive("</road>").map(str::trim).collect();
    dice.shuffle(&mut roads);
    [&file[..first], &roads.join("\n    "), &file[last..]].concat()
}

/// A file of SUMO with every third road raised: so it has gaps there.
fn raised(file: &str) -> String {
    let flat = "<elevation s=\"0\" a=\"0.00\"";
    let (head, roads) = file.split_once(flat).expect("a flat road");
    let roads = roads.split(flat).enumerate().map(|(k, road)| flat.replace("0.00", &height(k)) + road);
    head.to_string() + &roads.collect::<String>()
}

/// Lines with what goes by the order of rows taken out. Lists ascend by identity, and so in another order in each file:
/// both lists of a lane are sorted by text, repeats kept. A road stands at another line of the file.
fn without_order(text: &str) -> Vec<String> {
    let line = |line: &str| match (line.split_once(" onward: "), line.split_once(" (line ")) {
        (Some((lane, lists)), _) => {
            let (onward, before) = lists.split_once("; before: ").expect("both lists");
            format!("{lane} onward: {:?}; before: {:?}\n", sorted(split(onward)), sorted(split(before)))
        }
        (_, Some((road, rest))) => format!("{road} (line {}\n", rest.trim_start_matches(|c: char| c.is_ascii_digit())),
        _ => format!("{line}\n"),
    };
    sorted(text.lines().map(line).collect::<String>().lines())
}

/// The lanes of a list. A name with blanks stands in quotation marks.
fn split(list: &str) -> Vec<&str> {
    let mut quoted = false;
    let is_between = |c: char| {
        quoted ^= c == '"';
        c == ' ' && !quoted
    };
    list.split(is_between).collect()
}

/// The arrows of the lane graph, with each lane as `shown`. These maps have no two-way lanes, and so no arrow with two heads.
fn arrows(map: &str, shown: impl Fn(&str) -> String) -> Vec<String> {
    let text = printed("dot", map);
    let nodes = text.lines().filter_map(|line| line.trim().strip_suffix("\"];")?.split_once(" [label=\""));
    let nodes: HashMap<&str, String> = nodes.map(|(identity, lane)| (identity, shown(lane))).collect();
    let arrows = text.lines().filter_map(|line| line.trim().strip_suffix(';')?.split_once(" -> "));
    let arrows: Vec<String> = arrows.map(|(from, to)| format!("{} -> {}", nodes[from], nodes[to])).collect();
    assert!(!arrows.is_empty());
    sorted(arrows.iter().map(String::as_str))
}

/// A map's rows: junctions in their order, roads, and lanes without their identities.
fn tables(map: &str) -> [Vec<String>; 3] {
    let rows = Rows::of(map);
    let lanes = rows.lanes.iter().filter_map(|row| row.splitn(3, ' ').nth(2));
    [sorted(lanes), sorted(rows.roads.iter().map(String::as_str)), rows.junctions]
}

/// Files by name, with the least number of their gaps: the real maps as they are and raised, the town, loose contacts.
fn files() -> Vec<(String, String, usize)> {
    let raised = real_files().into_iter().map(|(name, file)| (format!("{name}, raised"), raised(&file)));
    let (flat, torn) = (real_files().into_iter().chain([example("loose-contact.xodr")]), raised.chain([example("town.xodr")]));
    flat.map(|(name, file)| (name, file, 0)).chain(torn.map(|(name, file)| (name, file, 10))).collect()
}

#[test]
fn each_lane_keeps_its_lists_and_its_gaps() {
    for (name, file, least) in files() {
        let (form, said) = (form_of(&file), COMMANDS.map(|command| printed(command, &file)));
        assert!(gaps(&said[1]) >= least, "{name} has {} gaps", gaps(&said[1]));
        for copy in 1..=COPIES {
            let (dice, name) = (&mut dice(copy), format!("{name}, copy {copy}"));
            let names = Names::new(&form, copy % 2 == 0, dice);
            let copy = reordered(&renamed_file(&file, &names), dice);
            for (command, said) in COMMANDS.iter().zip(&said) {
                let wanted = without_order(&translated(said, &names));
                same(&without_order(&printed(command, &copy)), &wanted, &format!("{name}: {command}"));
            }
            let wanted = arrows(&file, |lane| label(lane, &names, str::to_string).expect("a lane"));
            same(&arrows(&copy, str::to_string), &wanted, &name);
            // the rows are those of the plain text, renamed, and in another order
            let (renamed, copy) = (renamed(&form, &names), form_of(&copy));
            assert!(Rows::of(&renamed).roads != Rows::of(&copy).roads, "{name} stays in its order");
            for (rows, wanted) in tables(&copy).iter().zip(tables(&renamed)) {
                same(rows, &wanted, &name);
            }
        }
    }
}
