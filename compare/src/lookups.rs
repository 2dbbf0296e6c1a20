//! Where a lane's list and a name lie: lists beside the original's, the rest beside document 01, read once more.
use crate::calls;
use crate::original::Lists;
use crate::tables::{Dice, Tables, ABSENT, CONNECTION, JUNCTION, LANE, ROAD};

/// How many lookups were compared.
#[derive(Default)]
pub struct Count {
    lists: u64,
    outside: u64,
    damaged: u64,
    emptied: u64,
    placed: u64,
    empty: u64,
}

impl Count {
    pub fn print(&self) {
        println!(
            "  list lookups: {} beside the original's lists, {} of rows outside, {} with damaged offsets or lists, {} of them emptied by the damage",
            self.lists, self.outside, self.damaged, self.emptied
        );
        println!("  name lookups: {} in the text, {} empty, absent or misplaced", self.placed, self.empty);
    }
}

/// Both lists, each as offsets and identities, successors first.
type Packed = [Vec<u32>; 4];

/// Words that ask for the lanes before; 0 asks for the lanes onward.
const BEFORE: [u32; 4] = [1, 2, 0x8000_0000, ABSENT];

fn packed(m: &Tables) -> Packed {
    let (rows, ids) = (m.lanes.len() / LANE + 1, 2 * m.lanes.len() + 2 * m.pairs.len());
    calls::succession(m, [rows, ids, rows, ids]).contents(&calls::LIST_WIDTHS).try_into().unwrap()
}

/// The part of a row, by document 01: empty for a row outside, and for offsets that fall or pass the end.
fn part_of(offsets: &[u32], ids: &[u32], row: u32) -> [u32; 2] {
    match (offsets.get(row as usize), offsets.get(row as usize + 1)) {
        (Some(&a), Some(&b)) if a < b && b as usize <= ids.len() => [a, b - a],
        _ => [0, 0],
    }
}

/// The identities that a part hands back.
fn handed(ids: &[u32], [first, count]: [u32; 2]) -> Result<&[u32], String> {
    let (a, b) = (first as usize, first as usize + count as usize);
    if count == 0 && first != 0 {
        return Err(format!("an empty list at {first}"));
    }
    ids.get(a..b).ok_or(format!("a list from {a} to {b} of {}", ids.len()))
}

/// Every lane's two lists beside the original's.
fn lists(p: &Packed, theirs: &Lists, dice: &mut Dice, count: &mut Count) -> Result<(), String> {
    for (row, (next, last)) in theirs.successors.iter().zip(&theirs.predecessors).enumerate() {
        for (word, ids, list) in [(0, &p[1], next), (dice.pick(&BEFORE), &p[3], last)] {
            let found = handed(ids, calls::list(p, row as u32, word))?;
            if found != list {
                return Err(format!("the list of row {row}, before {word}\n theirs {list:?}\n ours   {found:?}"));
            }
            count.lists += 1;
        }
    }
    Ok(())
}

/// Rows outside have empty lists.
fn outside(p: &Packed, rows: usize, dice: &mut Dice, count: &mut Count) -> Result<(), String> {
    for row in [rows as u32, rows as u32 + 1, 16_384, 0x8000_0000, ABSENT - 1, ABSENT] {
        for word in [0, dice.pick(&BEFORE)] {
            let found = calls::list(p, row, word);
            if found != [0, 0] {
                return Err(format!("row {row} of {rows} has the list {found:?}"));
            }
            count.outside += 1;
        }
    }
    Ok(())
}

/// One change to the offsets or identities of each list.
fn damage(p: &mut Packed, dice: &mut Dice) {
    let (a, b) = p.split_at_mut(2);
    for two in [a, b] {
        let [offsets, ids] = two else { unreachable!() };
        let (k, end) = (dice.below(offsets.len()), ids.len() as u32);
        match dice.below(8) {
            0 => offsets.truncate(k),
            1 => ids.truncate(dice.below(ids.len() + 1)),
            2 => offsets.push(end),
            3 => offsets.reverse(),
            _ => offsets[k] = dice.pick(&[0, 1, end, end + 1, ABSENT, offsets[k].wrapping_add(1), offsets[k].wrapping_sub(1)]),
        }
    }
}

/// Every row's lists after a change, and those of the row behind the last.
fn damaged(p: &Packed, rows: usize, dice: &mut Dice, count: &mut Count) -> Result<(), String> {
    let mut q = p.clone();
    damage(&mut q, dice);
    for row in 0..=rows as u32 {
        for (k, word) in [(0, 0), (2, dice.pick(&BEFORE))] {
            let (expected, found) = (part_of(&q[k], &q[k + 1], row), calls::list(&q, row, word));
            if found != expected {
                return Err(format!("row {row} of {:?}, {} identities: the list {found:?}, not {expected:?}", q[k], q[k + 1].len()));
            }
            count.damaged += 1;
            count.emptied += u64::from(found == [0, 0] && part_of(&p[k], &p[k + 1], row) != [0, 0]);
        }
    }
    Ok(())
}

/// The names of a map, absent ones among them.
fn names(m: &Tables) -> Vec<[u32; 2]> {
    let of = |table: &[u32], width: usize, at: &[usize]| -> Vec<[u32; 2]> {
        table.chunks(width).flat_map(|r| at.iter().map(|&k| [r[k], r[k + 1]]).collect::<Vec<_>>()).collect()
    };
    [of(&m.roads, ROAD, &[0, 2, 6, 13]), of(&m.junctions, JUNCTION, &[0]), of(&m.connections, CONNECTION, &[0, 2]), of(&m.lanes, LANE, &[1])].concat()
}

/// Names that no table has: beside the end of the text, past it, and with sums past 2^32.
fn misplaced(size: u32, dice: &mut Dice) -> Vec<[u32; 2]> {
    let at = dice.below(size as usize + 1) as u32;
    let (rest, wrapped) = (size - at, 0u32.wrapping_sub(at));
    vec![
        [at, rest],
        [at, rest + 1],
        [size, 0],
        [size, 1],
        [size + 1, 0],
        [at, wrapped],
        [at, wrapped.wrapping_add(size)],
        [wrapped, at],
        [wrapped, at.wrapping_add(1)],
        [ABSENT, 0],
        [ABSENT, 1],
        [ABSENT, ABSENT],
        [0, ABSENT],
        [0x8000_0000, 0x8000_0000],
        [dice.word() as u32, dice.word() as u32],
    ]
}

/// The places of names, and the bytes that stand there.
fn texts(m: &Tables, dice: &mut Dice, count: &mut Count) -> Result<(), String> {
    let size = m.text.len() as u64;
    for [start, length] in names(m).into_iter().chain(misplaced(size as u32, dice)) {
        let placed = length > 0 && u64::from(start) + u64::from(length) <= size;
        let expected = if placed { [start, length] } else { [0, 0] };
        let found = calls::name(&m.text, start, length);
        if found != expected {
            return Err(format!("the name {start}, {length} in {size} bytes is the part {found:?}, not {expected:?}"));
        }
        count.placed += u64::from(placed);
        count.empty += u64::from(!placed);
    }
    Ok(())
}

/// The lookups in a repaired map, whose lists the original found to be `theirs`.
pub fn run(m: &Tables, theirs: &Lists, dice: &mut Dice, count: &mut Count) -> Result<(), String> {
    let (p, rows) = (packed(m), m.lanes.len() / LANE);
    lists(&p, theirs, dice, count)?;
    outside(&p, rows, dice, count)?;
    damaged(&p, rows, dice, count)?;
    texts(m, dice, count)
}
