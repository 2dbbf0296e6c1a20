//! Other names, and what was printed of a map put into them.
use crate::common::Dice;
use crate::plain::renamed_line;
use lanes::form;
use std::collections::{BTreeSet, HashMap};
use Kind::{Junction, Road};

/// What has a name.
#[derive(Clone, Copy, Debug, PartialEq, Eq, Hash, PartialOrd, Ord)]
pub enum Kind {
    Road,
    Junction,
}

/// The new name of each old one. Roads and junctions are renamed apart, so a road may get the name of a junction.
pub struct Names(HashMap<(Kind, String), String>);

impl Names {
    /// New names for those of a map in plain text: the old ones in other places, or other text.
    pub fn new(map: &str, old_text: bool, dice: &mut Dice) -> Names {
        let mut all = BTreeSet::new();
        let mut note = |kind: Kind, name: &str| {
            all.insert((kind, name.to_string()));
            name.to_string()
        };
        map.lines().for_each(|line| drop(renamed_line(line, &mut note)));
        let mut names = HashMap::new();
        for kind in [Road, Junction] {
            let old: Vec<String> = all.iter().filter(|(k, _)| *k == kind).map(|(_, name)| name.clone()).collect();
            let mut new = if old_text { old.clone() } else { (0..old.len()).map(other_text).collect() };
            assert_eq!(new.iter().collect::<BTreeSet<_>>().len(), old.len(), "two names would become one");
            dice.shuffle(&mut new);
            names.extend(old.into_iter().map(|name| (kind, name)).zip(new));
        }
        Names(names)
    }

    pub fn get(&self, kind: Kind, name: &str) -> Option<&str> {
        self.0.get(&(kind, name.to_string())).map(String::as_str)
    }

    /// Gives two of the old names, as the dice fall, one new name.
    pub fn make_one(&mut self, kind: Kind, dice: &mut Dice) -> [String; 2] {
        let mut old: Vec<String> = self.0.keys().filter(|(k, _)| *k == kind).map(|(_, name)| name.clone()).collect();
        old.sort();
        dice.shuffle(&mut old);
        let [first, second] = [old.swap_remove(0), old.swap_remove(0)];
        let new = self.0[&(kind, first.clone())].clone();
        self.0.insert((kind, second.clone()), new);
        [first, second]
    }
}

/// Names of many lengths: some differ by a zero before them or by a capital letter alone, some are words of the plain-text
/// form, some have what XML or plain text has to mask.
fn other_text(k: usize) -> String {
    match k % 8 {
        0 => k.to_string(),
        1 => format!("0{}", k - 1),
        2 => format!("Große Straße {k}"),
        3 => format!("große Straße {}", k - 1),
        4 => format!("A&B <{k}> '#'"),
        5 => format!("通り/{k}/-1"),
        6 => "o".repeat(k),
        _ => ["road", "#", "inside", "&amp;", "junction"].get(k / 8).map_or_else(|| format!("#{k}"), |name| name.to_string()),
    }
}

/// A name as a word of plain text, which is how it is printed too.
pub fn word(name: &str) -> String {
    String::from_utf8_lossy(&form::word(name.as_bytes())).into_owned()
}

/// A lane as road/section/number, and what stands after it, with its road's new name as `shown`; none where the word is no
/// lane.
pub fn label(lane: &str, names: &Names, shown: impl Fn(&str) -> String) -> Option<String> {
    let (rest, number) = lane.rsplit_once('/')?;
    let (road, section) = rest.rsplit_once('/')?;
    Some(format!("{}/{section}/{number}", shown(names.get(Road, road)?)))
}

/// What was printed of a map, with the names of its copy. No road of these maps is called `end` or `of`, and no junction
/// `can`: in a summary these follow the words road and junction.
pub fn translated(text: &str, names: &Names) -> String {
    let line = |line: &str| {
        let mut last = "";
        let words = line.split(' ').map(|old| {
            let new = match last {
                "road" => names.get(Road, old).map(word),
                "junction" => names.get(Junction, old).map(word),
                _ => label(old, names, word),
            };
            last = old;
            new.unwrap_or_else(|| old.to_string())
        });
        words.collect::<Vec<_>>().join(" ") + "\n"
    };
    text.lines().map(line).collect()
}
