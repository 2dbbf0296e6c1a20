//! The exported functions of this library, over slices. Outputs are filled with a mark, so that a word that should have stayed shows.
use crate::raw::Raw;
use crate::tables::{Tables, CONNECTION, EDGE, JUNCTION, LANE, PAIR, ROAD};

/// What every output word holds before a call.
pub const UNTOUCHED: u32 = 0xdead_beef;

/// The binding's declarations.
#[path = "../../bindings/rust/src/ffi.rs"]
#[rustfmt::skip]
mod ffi;
use ffi::*;

/// The first words, as many as a call counts.
fn first<const N: usize>(written: &mut [u32]) -> &mut [u32; N] {
    (&mut written[..N]).try_into().unwrap()
}

/// Calls an exported function with the map first, then slices as a pointer and a length, then `written`.
macro_rules! call {
    ($name:ident, $t:expr, [$($read:expr),*], [$($out:expr),*], $written:expr) => {
        unsafe {
            $name(
                $t.text.as_ptr(), $t.text.len(), $t.roads.as_ptr(), $t.roads.len(), $t.sections.as_ptr(), $t.sections.len(),
                $t.junctions.as_ptr(), $t.junctions.len(), $t.connections.as_ptr(), $t.connections.len(), $t.pairs.as_ptr(), $t.pairs.len(),
                $($read.as_ptr(), $read.len(),)*
                $($out.as_mut_ptr(), $out.len(),)*
                first(&mut $written),
            )
        }
    };
}

/// What a call answered and left: the refusal number (0 accepted), the counts, and each output word for word.
#[derive(Clone, Debug, PartialEq)]
pub struct Outcome {
    pub refusal: u32,
    pub written: Vec<u32>,
    pub outs: Vec<Vec<u32>>,
}

impl Outcome {
    /// A refusal changes no lent word.
    pub fn untouched(&self) -> bool {
        self.written.iter().chain(self.outs.iter().flatten()).all(|&w| w == UNTOUCHED)
    }

    /// The rows written, output by output, after a look that every word behind them is untouched.
    pub fn contents(&self, widths: &[usize]) -> Vec<Vec<u32>> {
        assert_eq!(self.refusal, 0);
        self.outs
            .iter()
            .zip(widths)
            .zip(&self.written)
            .map(|((out, width), rows)| {
                let (content, rest) = out.split_at(*rows as usize * width);
                assert!(rest.iter().all(|&w| w == UNTOUCHED), "a word behind the rows was touched");
                content.to_vec()
            })
            .collect()
    }
}

pub const REPAIR_WIDTHS: [usize; 5] = [ROAD, JUNCTION, CONNECTION, PAIR, 4];
pub const LIST_WIDTHS: [usize; 4] = [1, 1, 1, 1];
pub const TARGET_WIDTHS: [usize; 2] = [7, 4];
pub const READING_WIDTHS: [usize; 4] = [JUNCTION, CONNECTION, PAIR, 4];
pub const REVERSAL_WIDTHS: [usize; 6] = [ROAD, 1, CONNECTION, PAIR, LANE, EDGE];

/// Outputs that are kept from call to call.
pub struct Buffers {
    pub written: Vec<u32>,
    pub outs: Vec<Vec<u32>>,
}

impl Buffers {
    pub fn new<const N: usize>(lengths: [usize; N]) -> Self {
        Buffers { written: vec![UNTOUCHED; N.max(6)], outs: lengths.iter().map(|&n| vec![UNTOUCHED; n]).collect() }
    }
    pub fn repair(&mut self, t: &Tables) -> u32 {
        let [a, b, c, d, e] = &mut self.outs[..] else { unreachable!() };
        call!(vz_repair, t, [], [a, b, c, d, e], self.written)
    }
    pub fn succession(&mut self, t: &Tables) -> u32 {
        let [a, b, c, d] = &mut self.outs[..] else { unreachable!() };
        call!(vz_succession, t, [t.lanes], [a, b, c, d], self.written)
    }
    pub fn gaps(&mut self, t: &Tables, offsets: &[u32], ids: &[u32]) -> u32 {
        let [a] = &mut self.outs[..] else { unreachable!() };
        call!(vz_gaps, t, [t.lanes, t.edges, offsets, ids], [a], self.written)
    }
    pub fn reverse(&mut self, t: &Tables, marks: &[u32], edges: &mut [f32]) -> u32 {
        let [a, b, c, d, e] = &mut self.outs[..] else { unreachable!() };
        call!(vz_reverse, t, [t.lanes, t.edges, marks], [a, b, c, d, e, edges], self.written)
    }
    pub fn read_targets(&mut self, raw: &Raw) -> u32 {
        let [t, w] = &mut self.outs[..] else { unreachable!() };
        unsafe {
            vz_read_targets(
                raw.text.as_ptr(),
                raw.text.len(),
                raw.targets.as_ptr(),
                raw.targets.len(),
                t.as_mut_ptr(),
                t.len(),
                w.as_mut_ptr(),
                w.len(),
                first(&mut self.written),
            )
        }
    }
    pub fn read_junctions(&mut self, raw: &Raw) -> u32 {
        let [j, c, p, w] = &mut self.outs[..] else { unreachable!() };
        unsafe {
            vz_read_junctions(
                raw.text.as_ptr(),
                raw.text.len(),
                raw.junctions.as_ptr(),
                raw.junctions.len(),
                raw.connections.as_ptr(),
                raw.connections.len(),
                raw.links.as_ptr(),
                raw.links.len(),
                j.as_mut_ptr(),
                j.len(),
                c.as_mut_ptr(),
                c.len(),
                p.as_mut_ptr(),
                p.len(),
                w.as_mut_ptr(),
                w.len(),
                first(&mut self.written),
            )
        }
    }
    /// The rows written, output by output.
    pub fn contents(&self, widths: &[usize]) -> Vec<Vec<u32>> {
        self.outs.iter().zip(widths).zip(&self.written).map(|((o, w), n)| o[..*n as usize * w].to_vec()).collect()
    }
    fn outcome(mut self, refusal: u32) -> Outcome {
        self.written.truncate(self.outs.len());
        Outcome { refusal, written: self.written, outs: self.outs }
    }
}

pub fn repair(t: &Tables, lengths: [usize; 5]) -> Outcome {
    let mut b = Buffers::new(lengths);
    let refusal = b.repair(t);
    b.outcome(refusal)
}

pub fn succession(t: &Tables, lengths: [usize; 4]) -> Outcome {
    let mut b = Buffers::new(lengths);
    let refusal = b.succession(t);
    b.outcome(refusal)
}

pub fn gaps(t: &Tables, offsets: &[u32], ids: &[u32], length: usize) -> Outcome {
    let mut b = Buffers::new([length]);
    let refusal = b.gaps(t, offsets, ids);
    b.outcome(refusal)
}

/// The edges come back as their bits.
pub fn reverse(t: &Tables, marks: &[u32], [roads, sections, connections, pairs, lanes, edges]: [usize; 6]) -> Outcome {
    let mut b = Buffers::new([roads, sections, connections, pairs, lanes]);
    let mut floats = vec![f32::from_bits(UNTOUCHED); edges];
    let refusal = b.reverse(t, marks, &mut floats);
    b.outs.push(floats.iter().map(|x| x.to_bits()).collect());
    b.outcome(refusal)
}

pub fn read_targets(raw: &Raw, lengths: [usize; 2]) -> Outcome {
    let mut b = Buffers::new(lengths);
    let refusal = b.read_targets(raw);
    b.outcome(refusal)
}

pub fn read_lanes(raw: &Raw, length: usize) -> Outcome {
    let mut b = Buffers::new([length]);
    let refusal =
        unsafe { vz_read_lanes(raw.text.as_ptr(), raw.text.len(), raw.lanes.as_ptr(), raw.lanes.len(), b.outs[0].as_mut_ptr(), length, first(&mut b.written)) };
    b.outcome(refusal)
}

pub fn read_junctions(raw: &Raw, lengths: [usize; 4]) -> Outcome {
    let mut b = Buffers::new(lengths);
    let refusal = b.read_junctions(raw);
    b.outcome(refusal)
}

/// The length check's answer, and what stands in `sum` after it.
pub fn length(starts: &[f64], lengths: &[f64], length: f64) -> (u32, f64) {
    let mut sum = f64::from_bits(u64::from(UNTOUCHED));
    let answer = unsafe { vz_length(starts.as_ptr(), starts.len(), lengths.as_ptr(), lengths.len(), length, &mut sum) };
    (answer, sum)
}

/// The part of a row's list, of the lists' offsets and identities, successors first.
pub fn list([so, si, po, pi]: &[Vec<u32>; 4], row: u32, before: u32) -> [u32; 2] {
    let mut part = [UNTOUCHED; 2];
    unsafe { vz_list(so.as_ptr(), so.len(), si.as_ptr(), si.len(), po.as_ptr(), po.len(), pi.as_ptr(), pi.len(), row, before, &mut part) };
    part
}

/// The part of the text that a name is.
pub fn name(text: &[u8], start: u32, length: u32) -> [u32; 2] {
    let mut part = [UNTOUCHED; 2];
    unsafe { vz_name(text.as_ptr(), text.len(), start, length, &mut part) };
    part
}

/// The root's answer, and what stands in `out` after it.
#[inline]
pub fn root(x: f32) -> (u32, f32) {
    let mut out = f32::from_bits(UNTOUCHED);
    let answer = unsafe { vz_root(x, &mut out) };
    (answer, out)
}

/// The distance, u and v.
#[inline]
pub fn distance(first: &[f32; 6], second: &[f32; 6]) -> [f32; 3] {
    let mut places = [f32::from_bits(UNTOUCHED); 2];
    let gap = unsafe { vz_distance(first, second, &mut places) };
    [gap, places[0], places[1]]
}
