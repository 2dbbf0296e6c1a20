//! Writes answers of the original as words, for the program `replay`: record N SEED > crates/replay/stdin
//!
//! Words are in decimal, with one byte after each. A step is its kind and a list, which holds the step's own lists; a
//! list is its length and then its words.
//! 1 tables, for the steps after it: of a map text, roads, sections, junctions, connections, pairs, lanes, edges (as
//!   bits); raw ones text, targets, lanes, junctions, connections, lane links;
//! 2 repair, 3 succession, 4 gap check, 5 reversal, 6 reading of targets, 7 of lanes, 8 of junctions: the answer (the
//!   refusal, 0 where there is none, and the rows written to each output), what the call takes beside the tables (4
//!   offsets and identities, 5 marks), and for each output how many words are lent, and the words written to it;
//! 9 the length check: the answer (the refusal, and 1 where the length is off), starts, lengths and the road's length
//!   in thousandths, and the two halves of the sum's bits, the high one first.
//! Every other word of an output must stay what it was before the call.
use compare::calls;
use compare::original::{self, Wide};
use compare::places::Ties;
use compare::raw::{self, Raw};
use compare::tables::{Dice, Tables, GAP, LANE, ROAD};
use compare::{damage, maps, ours, readings, reversal, rules};

fn put(kind: u32, lists: &[Vec<u32>]) {
    println!("{kind} {}", lists.iter().map(|l| l.len() + 1).sum::<usize>());
    for list in lists {
        let words: Vec<String> = list.iter().map(u32::to_string).collect();
        println!("{}", [vec![list.len().to_string()], words].concat().join(" "));
    }
}

fn bits(edges: &[f32]) -> Vec<u32> {
    edges.iter().map(|x| x.to_bits()).collect()
}

fn bytes(text: &[u8]) -> Vec<u32> {
    text.iter().map(|&b| u32::from(b)).collect()
}

fn load(t: &Tables) {
    let t = t.clone();
    put(1, &[bytes(&t.text), t.roads, t.sections, t.junctions, t.connections, t.pairs, t.lanes, bits(&t.edges)]);
}

/// The width of a row of each output.
fn widths(kind: u32) -> Vec<usize> {
    match kind {
        2 => calls::REPAIR_WIDTHS.to_vec(),
        3 => calls::LIST_WIDTHS.to_vec(),
        4 => vec![GAP],
        5 => calls::REVERSAL_WIDTHS.to_vec(),
        6 => calls::TARGET_WIDTHS.to_vec(),
        7 => vec![4],
        _ => calls::READING_WIDTHS.to_vec(),
    }
}

/// Outputs that are longer than what is written to them, or as long, but for one of that number, which is a word too short.
fn lent(contents: Vec<Vec<u32>>, short: Option<usize>, dice: &mut Dice) -> Vec<(usize, Vec<u32>)> {
    let length = |(k, words): (usize, &Vec<u32>)| if short == Some(k) { words.len() - 1 } else { words.len() + dice.below(3) };
    let lengths: Vec<usize> = contents.iter().enumerate().map(length).collect();
    lengths.into_iter().zip(contents).collect()
}

/// What a call must leave: by the rules, and by what the original found. Now and then the first output that is not empty is too short.
fn step(kind: u32, before: &[&[u32]], broken: u32, contents: Vec<Vec<u32>>, dice: &mut Dice) {
    let short = if broken == 0 && dice.one_in(5) { contents.iter().position(|words| !words.is_empty()) } else { None };
    step_with(kind, before, broken, contents, short, dice);
}

/// The same, with the output too short that `short` names.
fn step_with(kind: u32, before: &[&[u32]], broken: u32, contents: Vec<Vec<u32>>, short: Option<usize>, dice: &mut Dice) {
    let outs = lent(contents, short, dice);
    let refusal = if short.is_some() { 9 } else { broken };
    let written = |words: &[u32]| if refusal == 0 { words.to_vec() } else { Vec::new() };
    let rows = outs.iter().zip(widths(kind)).map(|((_, words), width)| (written(words).len() / width) as u32);
    let answer = [refusal].into_iter().chain(rows).collect();
    let outputs = outs.iter().map(|(length, words)| [vec![*length as u32], written(words)].concat());
    put(kind, &[answer].into_iter().chain(before.iter().map(|w| w.to_vec())).chain(outputs).collect::<Vec<_>>());
}

fn offsets(lists: &[Vec<u32>]) -> Vec<u32> {
    lists.iter().fold(vec![0], |mut all, l| {
        all.push(all[all.len() - 1] + l.len() as u32);
        all
    })
}

/// Repair, succession, gap check and a reversal of an admitted map.
fn admitted(t: &Tables, dice: &mut Dice) {
    load(t);
    let (m, found) = ours::repair(t);
    assert_eq!(found, original::repair(t), "record what the two agree on");
    let warnings = calls::repair(t, [t.roads.len(), t.junctions.len(), 2 * t.connections.len(), 2 * t.pairs.len(), 4 * t.connections.len()])
        .contents(&calls::REPAIR_WIDTHS)
        .remove(4);
    step(2, &[], 0, vec![m.roads.clone(), m.junctions.clone(), m.connections.clone(), m.pairs.clone(), warnings], dice);
    let marks: Vec<u32> = (0..t.roads.len() / 20).map(|_| dice.below(2) as u32).collect();
    let broken = rules::reverse(t, &marks);
    let r = if broken == 0 { reversal::reversed(t, &marks) } else { t.clone() };
    step(5, &[&marks], broken, vec![r.roads, r.sections, r.connections, r.pairs, r.lanes, bits(&r.edges)], dice);
    load(&Tables { roads: m.roads, junctions: m.junctions, connections: m.connections, pairs: m.pairs, ..t.clone() });
    let (lists, gaps) = original::lists_and_gaps(t);
    let (so, po) = (offsets(&lists.successors), offsets(&lists.predecessors));
    let (si, pi) = (lists.successors.concat(), lists.predecessors.concat());
    step(3, &[], 0, vec![so.clone(), si.clone(), po, pi], dice);
    step(4, &[&so, &si], 0, vec![gaps.iter().flat_map(Wide::row).collect()], dice);
}

/// The gap check of a map, and of the map with all roads reversed, which has the same rows.
fn gap_checks(t: &Tables, dice: &mut Dice) {
    let found = [t.clone(), reversal::reversed(t, &all_roads(t))].map(|map| {
        let (lists, wide) = original::lists_and_gaps(&map);
        let rows: Vec<u32> = wide.iter().flat_map(Wide::row).collect();
        load(&ours::repair(&map).0);
        step_with(4, &[&offsets(&lists.successors), &lists.successors.concat()], 0, vec![rows.clone()], None, dice);
        rows
    });
    assert_eq!(found[0], found[1], "a reversal changes the gap rows");
}

/// A mark for every road.
fn all_roads(t: &Tables) -> Vec<u32> {
    vec![1; t.roads.len() / ROAD]
}

/// How many ties of each kind are recorded at least.
const TIES: usize = 8;

/// Gap checks of maps with a kind of tie of which not enough are recorded.
fn tied(dice: &mut Dice) {
    let mut ties = Ties::default();
    while ties.kinds().iter().any(|&n| n < TIES) {
        let mut t = maps::random(dice);
        maps::on_a_grid(&mut t, dice);
        maps::on_a_slope(&mut t, dice);
        let (mut own, (_, wide)) = (Ties::default(), original::lists_and_gaps(&t));
        wide.iter().for_each(|w| own.add(w));
        let wanted = own.kinds().iter().zip(ties.kinds()).any(|(&own, all)| own > 0 && all < TIES);
        if wanted && few_lanes(&t) && rules::reverse(&t, &all_roads(&t)) == 0 {
            wide.iter().for_each(|w| ties.add(w));
            gap_checks(&t, dice);
        }
    }
}

/// Is the map small, and not too small?
fn few_lanes(t: &Tables) -> bool {
    (3 * LANE..8 * LANE).contains(&t.lanes.len())
}

/// The calls on damaged tables, lists and marks, as far as a rule refuses them.
fn damaged(map: &Tables, dice: &mut Dice) {
    let mut t = map.clone();
    damage::damage(&mut t, dice);
    load(&t);
    let mut refused = |kind: u32, before: &[&[u32]], broken: u32| {
        if broken != 0 {
            step(kind, before, broken, vec![vec![0; 20]; widths(kind).len()], dice);
        }
    };
    refused(2, &[], rules::repair(&t));
    refused(3, &[], rules::succession(&t));
    let n = t.lanes.len() / LANE;
    let (so, si) = (vec![0; n + 1], Vec::new());
    refused(4, &[&so, &si], rules::gaps(&t, &so, &si));
    let (so, si) = (vec![1; n + 1], vec![61]);
    refused(4, &[&so, &si], rules::gaps(&t, &so, &si));
    let marks = vec![1; t.roads.len() / 20];
    refused(5, &[&marks], rules::reverse(&t, &marks));
    let marks = vec![2; t.roads.len() / 20];
    refused(5, &[&marks], rules::reverse(&t, &marks));
}

/// The three readings of raw tables, as far as they are refused or, for tables that are not damaged, accepted. Where there are warnings, now and then once more
/// with no room for the last of them.
fn read(raw: &Raw, dice: &mut Dice, accepted: bool) {
    let broken = [rules::read_targets(raw), rules::read_lanes(raw), rules::read_junctions(raw)];
    let found = [calls::read_targets(raw, [1000; 2]), calls::read_lanes(raw, 1000), calls::read_junctions(raw, [1000; 4])];
    if accepted || broken != [0; 3] {
        let r = raw.clone();
        put(1, &[bytes(&r.text), r.targets, r.lanes, r.junctions, r.connections, r.links]);
    }
    for ((kind, refusal), out) in (6..).zip(broken).zip(found) {
        let wide = widths(kind);
        let words = if out.refusal == 0 { out.contents(&wide) } else { vec![vec![0; 20]; wide.len()] };
        if accepted || refusal != 0 {
            step(kind, &[], refusal, words.clone(), dice);
        }
        let last = wide.len() - 1;
        if accepted && last > 0 && !words[last].is_empty() && dice.one_in(2) {
            step_with(kind, &[], 0, words, Some(last), dice);
        }
    }
}

/// A length check, in thousandths.
fn length(dice: &mut Dice) {
    let n = dice.below(3);
    let mut some = |n: usize| (0..n).map(|_| dice.below(5_000) as u32).collect::<Vec<_>>();
    let (starts, sizes, off) = (some(n), some(n), some(2));
    let sizes = if off[0] < 500 { [sizes, vec![1]].concat() } else { sizes };
    let total = starts.last().unwrap_or(&0) + sizes.last().unwrap_or(&0) + off[1] % 25;
    let metres = |ns: &[u32]| ns.iter().map(|&n| f64::from(n) / 1000.0).collect::<Vec<_>>();
    let report = if starts.len() == sizes.len() { original::road_length(&metres(&starts), &metres(&sizes), f64::from(total) / 1000.0) } else { None };
    let bits = report.unwrap_or(0.0).to_bits();
    let answer = if starts.len() != sizes.len() { vec![16, 0] } else { vec![0, u32::from(report.is_some())] };
    put(9, &[answer, starts, sizes, vec![total], vec![(bits >> 32) as u32, bits as u32]]);
}

fn main() {
    let mut args = std::env::args().skip(1);
    let n: usize = args.next().and_then(|a| a.parse().ok()).unwrap_or(200);
    let seed: u64 = args.next().and_then(|a| a.parse().ok()).unwrap_or(1);
    let (mut dice, mut others) = (Dice::new(seed), Dice::new(!seed));
    let mut left = n;
    while left > 0 {
        let mut t = maps::random(&mut dice);
        maps::on_a_grid(&mut t, &mut others);
        if few_lanes(&t) {
            left -= 1;
            admitted(&t, &mut dice);
            damaged(&t, &mut dice);
        }
    }
    let mut left = n * 3 / 4;
    while left > 0 {
        let tables = raw::random(&mut dice);
        if tables.text.len() <= 900 && tables.links.len() + tables.connections.len() < 300 {
            left -= 1;
            readings::beside(&tables).expect("record what the two agree on");
            read(&tables, &mut dice, true);
            let damaged = raw::damage(&tables, &mut dice);
            read(&damaged, &mut dice, false);
            if dice.one_in(6) {
                read(&raw::of_odd_count(&damaged), &mut dice, false);
            }
            length(&mut dice);
        }
    }
    tied(&mut Dice::new(seed.swap_bytes()));
}
