//! Faulty tables: which refusal they get by document 01, and that it changes no lent word.
use crate::calls::{self, Outcome};
use crate::raw::Raw;
use crate::rules;
use crate::tables::{Dice, Tables, ABSENT, CONNECTION, EDGE, GAP, JUNCTION, LANE, PAIR, ROAD};
use std::collections::BTreeMap;

/// How often each call gave each refusal.
#[derive(Default)]
pub struct Tally(BTreeMap<(&'static str, u32), u64>);

impl Tally {
    fn add(&mut self, call: &'static str, refusal: u32) {
        *self.0.entry((call, refusal)).or_default() += 1;
    }
    pub fn print(&self) {
        for call in ["repair", "succession", "gaps", "reverse", "targets", "lanes", "junctions"] {
            let counts: Vec<String> = self.0.iter().filter(|(k, _)| k.0 == call).map(|(k, n)| format!("{}: {n}", k.1)).collect();
            println!("  {call:<10} answers {}", counts.join(", "));
        }
    }
    /// The refusals of document 01 that no damaged table has brought about.
    pub fn missing(&self) -> Vec<(&'static str, u32)> {
        let owed: [(&str, &[u32]); 7] = [
            ("targets", &[0, 1, 2, 9]),
            ("lanes", &[0, 1, 2, 9]),
            ("junctions", &[0, 1, 2, 5, 9]),
            ("repair", &[0, 1, 2, 3, 4, 5, 9]),
            ("succession", &[0, 1, 2, 3, 4, 5, 6, 7, 8, 9]),
            ("gaps", &[0, 1, 2, 3, 4, 5, 6, 7, 8, 9, 10, 11]),
            ("reverse", &[0, 1, 2, 3, 4, 5, 6, 7, 8, 9, 10, 12, 13, 14]),
        ];
        owed.iter().flat_map(|(c, ns)| ns.iter().map(move |n| (*c, *n))).filter(|k| !self.0.contains_key(k)).collect()
    }
}

fn words(t: &mut Tables, k: usize) -> (&mut Vec<u32>, usize) {
    match k {
        0 => (&mut t.roads, ROAD),
        1 => (&mut t.sections, 1),
        2 => (&mut t.junctions, JUNCTION),
        3 => (&mut t.connections, CONNECTION),
        4 => (&mut t.pairs, PAIR),
        _ => (&mut t.lanes, LANE),
    }
}

/// A lane twice, but for its identity.
fn again(t: &mut Tables, dice: &mut Dice) {
    if t.lanes.len() >= LANE {
        let from = dice.below(t.lanes.len() / LANE) * LANE;
        t.lanes.push(12_345);
        t.lanes.extend_from_within(from + 1..from + LANE);
        t.edges.extend([0.0; EDGE]);
    }
}

/// One change at random: a word, a row twice, a row or a word too few or too many.
pub fn damage(t: &mut Tables, dice: &mut Dice) {
    let k = dice.below(6);
    let way = dice.below(16);
    let size = t.text.len() as u32;
    let (table, width) = words(t, k);
    let rows = table.len() / width;
    match way {
        0 => table.push(0),
        1 => {
            table.pop();
        }
        2 if rows > 0 => {
            let from = dice.below(rows) * width;
            let row = table[from..from + width].to_vec();
            table.extend(row);
        }
        3 => t.edges.truncate(t.edges.len().saturating_sub(dice.pick(&[1, EDGE]))),
        4 => t.edges.extend(vec![0.0; dice.pick(&[1, EDGE])]),
        5 => {
            t.text.pop();
        }
        6 if rows > 1 => {
            let (a, b) = (dice.below(rows) * width, dice.below(rows) * width);
            let n = 1 + dice.below(width.min(3));
            table.copy_within(a..a + n, b);
        }
        7 => again(t, dice),
        _ if !table.is_empty() => {
            let at = dice.below(table.len());
            let old = table[at];
            table[at] = dice.pick(&[0, 1, 2, 3, 0x8000_0000, ABSENT, ABSENT - 1, size, size + 1, old.wrapping_add(1), old.wrapping_sub(1)]);
        }
        _ => (),
    }
}

/// What a call must answer: the refusal of the tables; where there is none, 9 if an output is shorter than what the call has to write, which `full` shows.
pub fn judge(
    name: &'static str,
    broken: u32,
    full: impl Fn() -> Outcome,
    widths: &[usize],
    short: impl Fn(&[usize]) -> Outcome,
    dice: &mut Dice,
    tally: &mut Tally,
) -> Result<(), String> {
    let whole = full();
    if whole.refusal != broken {
        return Err(format!("{name} answers {} where 01 says {broken}", whole.refusal));
    }
    tally.add(name, broken);
    if broken != 0 {
        return if whole.untouched() { Ok(()) } else { Err(format!("{name} refused by {broken} and changed a word")) };
    }
    let need: Vec<usize> = whole.contents(widths).iter().map(Vec::len).collect();
    let mut lengths = need.clone();
    if dice.one_in(2) {
        let k = dice.below(lengths.len());
        lengths[k] = lengths[k].saturating_sub(1 + dice.below(3));
    }
    let expected = if lengths == need { 0 } else { 9 };
    let cut = short(&lengths);
    if cut.refusal != expected {
        return Err(format!("{name} answers {} with outputs {lengths:?} for {need:?}", cut.refusal));
    }
    tally.add(name, expected);
    if expected == 9 && !cut.untouched() {
        return Err(format!("{name} refused by 9 and changed a word"));
    }
    if expected == 0 && cut.contents(widths) != whole.contents(widths) {
        return Err(format!("{name} writes other words into outputs that just fit"));
    }
    Ok(())
}

pub fn lengths<const N: usize>(n: &[usize]) -> [usize; N] {
    n.try_into().unwrap()
}

/// All four calls on damaged copies of a map.
pub fn run(map: &Tables, dice: &mut Dice, tally: &mut Tally) -> Result<(), String> {
    let mut t = map.clone();
    for _ in 0..dice.below(3) {
        damage(&mut t, dice);
    }
    let long = 400 + 4 * (t.roads.len() + t.connections.len() + t.pairs.len() + t.junctions.len());
    judge("repair", rules::repair(&t), || calls::repair(&t, [long; 5]), &calls::REPAIR_WIDTHS, |n| calls::repair(&t, lengths(n)), dice, tally)?;
    let ids = 4 * (t.lanes.len() + t.pairs.len()) + 8;
    judge("succession", rules::succession(&t), || calls::succession(&t, [ids; 4]), &calls::LIST_WIDTHS, |n| calls::succession(&t, lengths(n)), dice, tally)?;
    let (mut offsets, mut list) = lists(&t, ids);
    if dice.one_in(3) {
        spoil(&mut offsets, &mut list, dice);
    }
    let rows = GAP * list.len() + 3;
    judge(
        "gaps",
        rules::gaps(&t, &offsets, &list),
        || calls::gaps(&t, &offsets, &list, rows),
        &[GAP],
        |n| calls::gaps(&t, &offsets, &list, n[0]),
        dice,
        tally,
    )?;
    let mut marks: Vec<u32> = (0..t.roads.len() / ROAD).map(|_| dice.below(2) as u32).collect();
    match dice.below(12) {
        0 => marks.push(0),
        1 => {
            marks.pop();
        }
        2 if !marks.is_empty() => marks[0] = 2,
        _ => (),
    }
    let long = 400 + t.roads.len() + t.connections.len() + t.pairs.len() + t.lanes.len() + t.edges.len() + t.sections.len();
    judge(
        "reverse",
        rules::reverse(&t, &marks),
        || calls::reverse(&t, &marks, [long; 6]),
        &calls::REVERSAL_WIDTHS,
        |n| calls::reverse(&t, &marks, lengths(n)),
        dice,
        tally,
    )
}

/// The successors' lists, or empty ones where succession refuses.
fn lists(t: &Tables, ids: usize) -> (Vec<u32>, Vec<u32>) {
    let found = calls::succession(t, [ids; 4]);
    if found.refusal == 0 {
        let mut c = found.contents(&calls::LIST_WIDTHS);
        let list = c.swap_remove(1);
        (c.swap_remove(0), list)
    } else {
        (vec![0; t.lanes.len() / LANE + 1], Vec::new())
    }
}

fn spoil(offsets: &mut Vec<u32>, ids: &mut Vec<u32>, dice: &mut Dice) {
    match dice.below(6) {
        0 => offsets.push(ids.len() as u32),
        1 => {
            offsets.pop();
        }
        2 => {
            let k = dice.below(offsets.len());
            offsets[k] = dice.pick(&[0, 1, 2, ABSENT, ids.len() as u32]);
        }
        3 => ids.push(dice.below(60) as u32),
        4 if !ids.is_empty() => {
            let k = dice.below(ids.len());
            ids[k] = dice.below(60) as u32;
        }
        _ => ids.reverse(),
    }
}

/// Tables at their limits and one row past them: the limit is admitted, one past it is refused by 1.
pub fn limits() -> Result<(), String> {
    let roads = |n: usize| -> Tables {
        let mut t = Tables { text: vec![0; 4 * n.max(1)], ..Tables::default() };
        for r in 0..n {
            t.text[4 * r..4 * r + 4].copy_from_slice(&(r as u32).to_le_bytes());
            t.roads.extend([4 * r as u32, 4, ABSENT, 0]);
            t.roads.extend([0; 14]);
            t.roads.extend([r as u32, 1]);
            t.sections.push(7);
        }
        t
    };
    for (n, expected) in [(16_384, 0), (16_385, 1)] {
        let mut t = roads(n);
        check("repair, roads", calls::repair(&t, [n * ROAD, 0, 0, 0, 0]).refusal, expected)?;
        for r in 0..n as u32 {
            t.lanes.extend([r, 4 * r, 4, 7, 1, 0, 0, 0, 0, 0]);
        }
        check("succession, lanes", calls::succession(&t, [n + 1; 4]).refusal, expected)?;
        t.edges = vec![1.0; n * EDGE];
        check("gaps, lanes", calls::gaps(&t, &vec![0; n + 1], &[], 0).refusal, expected)?;
        check("reverse, lanes", calls::reverse(&t, &vec![1; n], [n * ROAD, n, 0, 0, n * LANE, n * EDGE]).refusal, expected)?;
    }
    for (n, expected) in [(8_192usize, 0), (8_193, 1)] {
        let mut t = roads(1);
        t.junctions = vec![0, 4, 1, 0, n as u32];
        for c in 0..n as u32 {
            t.connections.extend([0, 4, 0, 4, 0, c, 1]);
            t.pairs.extend([1, 1]);
        }
        check("repair, connections", calls::repair(&t, [ROAD, JUNCTION, 2 * n * CONNECTION, 4 * n, 0]).refusal, expected)?;
    }
    for (n, expected) in [(1_048_576, 0), (1_048_577, 1)] {
        let t = Tables { text: vec![b'a'; n], ..Tables::default() };
        check("repair, text", calls::repair(&t, [0; 5]).refusal, expected)?;
    }
    let t = Tables::default();
    check("gaps, identities", calls::gaps(&t, &[0], &vec![0; 131_072], 0).refusal, 11)?;
    check("gaps, identities", calls::gaps(&t, &[0], &vec![0; 131_073], 0).refusal, 1)?;
    check("gaps, offsets", calls::gaps(&t, &vec![0; 16_385], &[], 0).refusal, 11)?;
    check("gaps, offsets", calls::gaps(&t, &vec![0; 16_386], &[], 0).refusal, 1)?;
    for (n, expected) in [(16_384, 0), (16_386, 1), (16_383, 1)] {
        let targets = [1, ABSENT, 0, 0, 3, 0, 3, ABSENT, 0].repeat(n);
        let raw = Raw { text: b"End".to_vec(), targets, ..Raw::default() };
        check("reading, targets", calls::read_targets(&raw, [7 * n, 4 * n]).refusal, expected)?;
        check("reading, their warnings", calls::read_targets(&raw, [7 * n, 4 * n - 1]).refusal, if expected == 0 { 9 } else { expected })?;
    }
    let n = 16_384;
    let connection = |c: u32| [ABSENT, 0, ABSENT, 0, 0, 3, 0, 3, ABSENT, 0, 0, 3, c, 1];
    let raw = Raw {
        text: b"End".to_vec(),
        junctions: vec![0, 3, ABSENT, 0, ABSENT, 0, 0, n as u32],
        connections: (0..n as u32).flat_map(connection).collect(),
        links: [ABSENT, 0, ABSENT, 0].repeat(n),
        ..Raw::default()
    };
    check("reading, two warnings for each connection", calls::read_junctions(&raw, [5, 7 * n, 0, 8 * n]).refusal, 0)?;
    check("reading, two warnings for each connection", calls::read_junctions(&raw, [5, 7 * n, 0, 8 * n - 1]).refusal, 9)
}

fn check(what: &str, found: u32, expected: u32) -> Result<(), String> {
    if found == expected {
        Ok(())
    } else {
        Err(format!("{what} at the limit: {found} where 01 says {expected}"))
    }
}
