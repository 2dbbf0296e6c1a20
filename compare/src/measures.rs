//! Root, and distance with its places u and v, bit for bit beside f32::sqrt and the `distance` of gaps.rs; a NaN only has to be a NaN.
use crate::calls::{self, UNTOUCHED};
use crate::original;
use crate::tables::Dice;

/// How many of each for a map.
const TRIES: usize = 48;

/// How many were compared, and what came out.
#[derive(Default)]
pub struct Count {
    roots: u64,
    root_nan: u64,
    refused: u64,
    distances: u64,
    zero: u64,
    infinite: u64,
    nan: u64,
    places: Places,
}

/// What places came out, u and v alike.
#[derive(Default)]
struct Places {
    inside: u64,
    zero: u64,
    minus_zero: u64,
    one: u64,
    nan: u64,
}

impl Places {
    fn add(&mut self, x: f32) {
        let count = if x.is_nan() {
            &mut self.nan
        } else if x == 1.0 {
            &mut self.one
        } else if x != 0.0 {
            &mut self.inside
        } else if x.is_sign_negative() {
            &mut self.minus_zero
        } else {
            &mut self.zero
        };
        *count += 1;
    }
}

impl Count {
    pub fn print(&self) {
        println!("  roots: {} beside f32::sqrt, {} of them a NaN; {} refused below zero", self.roots, self.root_nan, self.refused);
        println!("  distances: {} beside gaps.rs, {} of them 0, {} infinite, {} a NaN", self.distances, self.zero, self.infinite, self.nan);
        let p = &self.places;
        println!("  their places u and v: {} between 0 and 1, {} at 0, {} at -0, {} at 1, {} a NaN", p.inside, p.zero, p.minus_zero, p.one, p.nan);
    }
}

fn same(a: f32, b: f32) -> bool {
    a.to_bits() == b.to_bits() || (a.is_nan() && b.is_nan())
}

/// One root beside f32::sqrt.
fn root(x: f32, count: &mut Count) -> Result<(), String> {
    let (answer, found) = calls::root(x);
    let expected = if x < 0.0 { (15, f32::from_bits(UNTOUCHED)) } else { (0, x.sqrt()) };
    if answer != expected.0 || !same(found, expected.1) {
        return Err(format!("the root of {x:e}, bits {:#x}: {answer} {found:e}, theirs {} {:e}", x.to_bits(), expected.0, expected.1));
    }
    match answer {
        0 => count.roots += 1,
        _ => count.refused += 1,
    }
    count.root_nan += u64::from(x.is_nan());
    Ok(())
}

/// Every exponent with both signs: the least fractions, the greatest, and some between.
pub fn exponents(count: &mut Count) -> Result<(), String> {
    for high in 0..512u32 {
        for low in [0, 1, 2, 0x3f_ffff, 0x40_0000, 0x40_0001, 0x7f_fffe, 0x7f_ffff] {
            root(f32::from_bits(high << 23 | low), count)?;
        }
    }
    Ok(())
}

/// A number to take the root of: any bits, an ordinary number, a subnormal one, or beside a square.
fn radicand(dice: &mut Dice) -> f32 {
    let bits = dice.word() as u32;
    match dice.below(6) {
        0 => f32::from_bits(bits),
        1 => f32::from_bits(bits & 0x7f_ffff),
        2 => dice.pick(&[0.0, -0.0, f32::INFINITY, f32::NEG_INFINITY, f32::NAN, -1.0, f32::MAX, f32::MIN_POSITIVE]),
        3 => {
            let side = dice.below(4096) as f32;
            f32::from_bits((side * side).to_bits() + dice.below(3) as u32)
        }
        4 => dice.below(1_000_000) as f32 * 0.001,
        _ => f32::from_bits(bits & 0x7fff_ffff),
    }
}

type Segment = [f32; 6];

/// A segment of ordinary coordinates.
fn segment(dice: &mut Dice) -> Segment {
    std::array::from_fn(|_| (dice.below(2001) as f32 - 1000.0) * 0.01)
}

/// A second segment that begins at the first, or runs beside it or along it.
fn related(a: &Segment, dice: &mut Dice) -> Segment {
    let mut b = segment(dice);
    let (beside, place, long) = (dice.pick(&[0.0, 0.0, 1.0e-4, 0.1]), dice.pick(&[0.0, 0.25, 0.5, 1.0]), dice.pick(&[1.0, -1.0, 0.5, 2.0, 1.0e-3]));
    let parallel = dice.one_in(2);
    for k in 0..3 {
        let d = a[k + 3] - a[k];
        b[k] = a[k] + d * place + beside;
        if parallel {
            b[k + 3] = b[k] + d * long;
        }
    }
    b
}

/// Makes a segment a point, or nearly one.
fn shrink(a: &mut Segment, dice: &mut Dice) {
    let by = dice.pick(&[0.0, 0.0, 1.0e-4, 3.4e-4, 3.5e-4, 1.0e-3]);
    for k in 0..3 {
        a[k + 3] = a[k] + if k == 0 { by } else { 0.0 };
    }
}

/// Two segments: ordinary, related, points, huge, tiny, with a number that is none, with any bits.
fn segments(dice: &mut Dice) -> [Segment; 2] {
    let a = segment(dice);
    let b = if dice.one_in(2) { related(&a, dice) } else { segment(dice) };
    let mut two = [a, b];
    let size = match dice.below(8) {
        0 => dice.pick(&[1.0e9, 1.0e18, 1.0e19, 1.0e37, 3.0e37]),
        1 => dice.pick(&[1.0e-3, 1.0e-9, 1.0e-19, 1.0e-22, 1.0e-38, 1.0e-44]),
        _ => 1.0,
    };
    two.iter_mut().flatten().for_each(|x| *x *= size);
    match dice.below(8) {
        0 => shrink(&mut two[0], dice),
        1 => shrink(&mut two[1], dice),
        2 => two.iter_mut().for_each(|s| shrink(s, dice)),
        3 => two[dice.below(2)][dice.below(6)] = dice.pick(&[f32::NAN, f32::INFINITY, f32::NEG_INFINITY, -0.0, f32::MAX, f32::from_bits(1)]),
        4 => two[dice.below(2)] = std::array::from_fn(|_| f32::from_bits(dice.word() as u32)),
        _ => (),
    }
    two
}

/// The distance of two segments beside the original's, either one first.
fn distance([a, b]: [Segment; 2], count: &mut Count) -> Result<(), String> {
    for (first, second) in [(&a, &b), (&b, &a)] {
        let (theirs, all, answer) = (original::distance(first, second), original::closest(first, second), calls::distance(first, second));
        if !same(all[0], theirs) {
            return Err(format!("`distance` of {first:?} and {second:?} is {theirs:e}, and {:e} where it tells its places", all[0]));
        }
        if !answer.iter().zip(all).all(|(&a, b)| same(a, b)) {
            return Err(format!("distance, u and v of {first:?} and {second:?}: {answer:?}, theirs {all:?}"));
        }
        let found = answer[0];
        answer[1..].iter().for_each(|&x| count.places.add(x));
        count.distances += 1;
        count.zero += u64::from(found == 0.0);
        count.infinite += u64::from(found.is_infinite());
        count.nan += u64::from(found.is_nan());
    }
    Ok(())
}

/// Some roots and some distances.
pub fn run(dice: &mut Dice, count: &mut Count) -> Result<(), String> {
    for _ in 0..TRIES {
        root(radicand(dice), count)?;
        distance(segments(dice), count)?;
    }
    Ok(())
}
