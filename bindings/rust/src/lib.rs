//! Lane links of OpenDRIVE maps: safe functions over the proved static library. Tables are slices of words, as
//! include/vorzhyket.h describes them; nothing is allocated or kept. A call that is refused changes no output.
//!
//! ```
//! use vorzhyket::{list, succession, ListOutputs, Lists, Map, Side, ABSENT};
//!
//! // Road a has section 0 and leads to the start of road b; b has sections 0 and 1.
//! let roads = [
//!     0, 1, ABSENT, 0, 0, 0, 0, 0, 0, 0, 0, 1, 0, 1, 1, 0, 1, 0, 0, 1,
//!     1, 1, ABSENT, 0, 0, 0, 0, 0, 0, 0, 0, 0, 0, 0, 0, 0, 0, 0, 1, 2,
//! ];
//! let map = Map { text: b"ab", roads: &roads, sections: &[0, 0, 1], ..Map::default() };
//! // Forward lanes numbered -1, each linked onward to number -1: 7 on a, 3 and 5 on b.
//! let minus_one = -1i32 as u32;
//! let lanes = [
//!     7, 0, 1, 0, minus_one, 0, 1, minus_one, 0, 0,
//!     3, 1, 1, 0, minus_one, 0, 1, minus_one, 0, 0,
//!     5, 1, 1, 1, minus_one, 0, 1, minus_one, 0, 0,
//! ];
//! let (mut onward_offsets, mut onward, mut before_offsets, mut before) = ([0; 4], [0; 8], [0; 4], [0; 8]);
//! let n = succession(map, &lanes, ListOutputs {
//!     successor_offsets: &mut onward_offsets,
//!     successor_ids: &mut onward,
//!     predecessor_offsets: &mut before_offsets,
//!     predecessor_ids: &mut before,
//! })?;
//! let lists = Lists {
//!     successor_offsets: &onward_offsets[..n.successor_offsets],
//!     successor_ids: &onward[..n.successor_ids],
//!     predecessor_offsets: &before_offsets[..n.predecessor_offsets],
//!     predecessor_ids: &before[..n.predecessor_ids],
//! };
//! assert_eq!(list(lists, 0, Side::Onward), [3]);
//! assert_eq!(list(lists, 2, Side::Before), [3]);
//! # Ok::<(), vorzhyket::Refusal>(())
//! ```
#[rustfmt::skip]
mod ffi;
mod refusal;
pub mod sizes;

pub use refusal::Refusal;

/// Calls an exported function: the slices that it reads; those that it writes; and how many rows it wrote to each.
macro_rules! call {
    ($function:ident, [$($read:expr),*], [$($write:expr),*], $written:expr) => {
        // SAFETY: each pointer and length is a live slice's, and a `&mut` overlaps nothing else.
        Refusal::check(unsafe {
            ffi::$function($($read.as_ptr(), $read.len(),)* $($write.as_mut_ptr(), $write.len(),)* $written)
        })
    };
}

/// Where a name is absent, its start; its length is then 0.
pub const ABSENT: u32 = u32::MAX;

/// Where a row's number stands and there is none.
pub const NO_ROW: u32 = u32::MAX;

/// The tables of a map.
#[derive(Clone, Copy, Debug, Default)]
pub struct Map<'a> {
    pub text: &'a [u8],
    pub roads: &'a [u32],
    pub sections: &'a [u32],
    pub junctions: &'a [u32],
    pub connections: &'a [u32],
    pub pairs: &'a [u32],
}

/// What [`repair`] writes.
#[derive(Debug)]
pub struct RepairOutputs<'a> {
    pub roads: &'a mut [u32],
    pub junctions: &'a mut [u32],
    pub connections: &'a mut [u32],
    pub pairs: &'a mut [u32],
    pub warnings: &'a mut [u32],
}

/// The rows that [`repair`] wrote to each output.
#[derive(Clone, Copy, Debug, PartialEq, Eq)]
pub struct RepairCounts {
    pub roads: usize,
    pub junctions: usize,
    pub connections: usize,
    pub pairs: usize,
    pub warnings: usize,
}

/// What [`succession`] writes: the lanes onward and the lanes before, as offsets and packed identities.
#[derive(Debug)]
pub struct ListOutputs<'a> {
    pub successor_offsets: &'a mut [u32],
    pub successor_ids: &'a mut [u32],
    pub predecessor_offsets: &'a mut [u32],
    pub predecessor_ids: &'a mut [u32],
}

/// The words that [`succession`] wrote to each output.
#[derive(Clone, Copy, Debug, PartialEq, Eq)]
pub struct ListCounts {
    pub successor_offsets: usize,
    pub successor_ids: usize,
    pub predecessor_offsets: usize,
    pub predecessor_ids: usize,
}

/// The lists that [`succession`] wrote, for [`list`].
#[derive(Clone, Copy, Debug, Default)]
pub struct Lists<'a> {
    pub successor_offsets: &'a [u32],
    pub successor_ids: &'a [u32],
    pub predecessor_offsets: &'a [u32],
    pub predecessor_ids: &'a [u32],
}

/// Which list of a lane: the lanes onward or the lanes before.
#[derive(Clone, Copy, Debug, PartialEq, Eq)]
pub enum Side {
    Onward,
    Before,
}

/// What [`reverse`] writes.
#[derive(Debug)]
pub struct ReversalOutputs<'a> {
    pub roads: &'a mut [u32],
    pub sections: &'a mut [u32],
    pub connections: &'a mut [u32],
    pub pairs: &'a mut [u32],
    pub lanes: &'a mut [u32],
    pub edges: &'a mut [f32],
}

/// The rows that [`reverse`] wrote to each output; a row of edges is twelve floats.
#[derive(Clone, Copy, Debug, PartialEq, Eq)]
pub struct ReversalCounts {
    pub roads: usize,
    pub sections: usize,
    pub connections: usize,
    pub pairs: usize,
    pub lanes: usize,
    pub edges: usize,
}

/// What [`read_targets`] writes.
#[derive(Debug)]
pub struct TargetOutputs<'a> {
    pub targets: &'a mut [u32],
    pub warnings: &'a mut [u32],
}

/// The rows that [`read_targets`] wrote to each output.
#[derive(Clone, Copy, Debug, PartialEq, Eq)]
pub struct TargetCounts {
    pub targets: usize,
    pub warnings: usize,
}

/// The tables that [`read_junctions`] reads: attributes as a file has them.
#[derive(Clone, Copy, Debug, Default)]
pub struct RawJunctions<'a> {
    pub text: &'a [u8],
    pub junctions: &'a [u32],
    pub connections: &'a [u32],
    pub lane_links: &'a [u32],
}

/// What [`read_junctions`] writes.
#[derive(Debug)]
pub struct JunctionOutputs<'a> {
    pub junctions: &'a mut [u32],
    pub connections: &'a mut [u32],
    pub pairs: &'a mut [u32],
    pub warnings: &'a mut [u32],
}

/// The rows that [`read_junctions`] wrote to each output.
#[derive(Clone, Copy, Debug, PartialEq, Eq)]
pub struct JunctionCounts {
    pub junctions: usize,
    pub connections: usize,
    pub pairs: usize,
    pub warnings: usize,
}

/// Repairs the map: links to junctions that roads lack, connections of direct junctions the other way. Writes the
/// repaired tables, and a warning row for each link that was lacking.
pub fn repair(map: Map, outputs: RepairOutputs) -> Result<RepairCounts, Refusal> {
    let (m, o, mut n) = (map, outputs, [0; 5]);
    call!(vz_repair, [m.text, m.roads, m.sections, m.junctions, m.connections, m.pairs], [o.roads, o.junctions, o.connections, o.pairs, o.warnings], &mut n)?;
    let [roads, junctions, connections, pairs, warnings] = n.map(|k| k as usize);
    Ok(RepairCounts { roads, junctions, connections, pairs, warnings })
}

/// Finds the lanes onward of every lane, and the lanes before it.
pub fn succession(map: Map, lanes: &[u32], outputs: ListOutputs) -> Result<ListCounts, Refusal> {
    let (m, o, mut n) = (map, outputs, [0; 4]);
    call!(
        vz_succession,
        [m.text, m.roads, m.sections, m.junctions, m.connections, m.pairs, lanes],
        [o.successor_offsets, o.successor_ids, o.predecessor_offsets, o.predecessor_ids],
        &mut n
    )?;
    let [successor_offsets, successor_ids, predecessor_offsets, predecessor_ids] = n.map(|k| k as usize);
    Ok(ListCounts { successor_offsets, successor_ids, predecessor_offsets, predecessor_ids })
}

/// Measures the gap of every lane link of the successors' offsets and identities. Writes a row of five words for each
/// link whose gap is not at most 0.1, and returns how many: lane row, successor row, gap bits, and the bits of u and v,
/// how far along the lane's exit and the successor's entry they come closest, from 0 at the first point to 1 at the
/// second. Of pairs of ends that are equally near, the one with the smallest u counts, then the smallest v. A place that
/// is -0 is written as 0, and with an infinite gap both are 0.
pub fn gaps(map: Map, lanes: &[u32], edges: &[f32], offsets: &[u32], ids: &[u32], out: &mut [u32]) -> Result<usize, Refusal> {
    let (m, mut n) = (map, [0; 1]);
    call!(vz_gaps, [m.text, m.roads, m.sections, m.junctions, m.connections, m.pairs, lanes, edges, offsets, ids], [out], &mut n)?;
    Ok(n[0] as usize)
}

/// Reverses the reference lines of the marked roads: a mark, 0 or 1, for each road.
pub fn reverse(map: Map, lanes: &[u32], edges: &[f32], marks: &[u32], outputs: ReversalOutputs) -> Result<ReversalCounts, Refusal> {
    let (m, o, mut n) = (map, outputs, [0; 6]);
    call!(
        vz_reverse,
        [m.text, m.roads, m.sections, m.junctions, m.connections, m.pairs, lanes, edges, marks],
        [o.roads, o.sections, o.connections, o.pairs, o.lanes, o.edges],
        &mut n
    )?;
    let [roads, sections, connections, pairs, lanes, edges] = n.map(|k| k as usize);
    Ok(ReversalCounts { roads, sections, connections, pairs, lanes, edges })
}

/// The lanes onward of a lane row, or the lanes before: empty where the row is outside the list, or its two offsets
/// fall or pass the end.
pub fn list<'a>(lists: Lists<'a>, row: u32, side: Side) -> &'a [u32] {
    let (l, mut part) = (lists, [0; 2]);
    let (so, si, po, pi) = (l.successor_offsets, l.successor_ids, l.predecessor_offsets, l.predecessor_ids);
    let before = (side == Side::Before) as u32;
    // SAFETY: each pointer and length is a live slice's.
    unsafe { ffi::vz_list(so.as_ptr(), so.len(), si.as_ptr(), si.len(), po.as_ptr(), po.len(), pi.as_ptr(), pi.len(), row, before, &mut part) };
    match side {
        Side::Onward => part_of(si, part),
        Side::Before => part_of(pi, part),
    }
}

/// A name's bytes: empty for an absent or misplaced name.
///
/// ```
/// assert_eq!(vorzhyket::name(b"westeast", 4, 4), b"east");
/// assert_eq!(vorzhyket::name(b"westeast", 4, 5), b"");
/// ```
pub fn name(text: &[u8], start: u32, length: u32) -> &[u8] {
    let mut part = [0; 2];
    // SAFETY: the pointer and the length are the text's.
    unsafe { ffi::vz_name(text.as_ptr(), text.len(), start, length, &mut part) };
    part_of(text, part)
}

/// The f32 nearest to the true root of x. Either zero, infinity and a NaN give themselves.
///
/// ```
/// assert_eq!(vorzhyket::root(2.0), Ok(2f32.sqrt()));
/// assert_eq!(vorzhyket::root(-2.0), Err(vorzhyket::Refusal::BelowZero));
/// ```
pub fn root(x: f32) -> Result<f32, Refusal> {
    let mut out = 0.0;
    // SAFETY: `out` is a local.
    Refusal::check(unsafe { ffi::vz_root(x, &mut out) })?;
    Ok(out)
}

/// How far apart two segments are, and where they are so: the parts `u` of the first and `v` of the second, from 0 at a
/// segment's first point to 1 at its second. A place can be -0, and it is a NaN only where the distance is one.
#[derive(Clone, Copy, Debug, PartialEq)]
pub struct Closest {
    pub gap: f32,
    pub u: f32,
    pub v: f32,
}

/// The distance of two segments, each two points of three coordinates, and where they come closest.
///
/// ```
/// let near = vorzhyket::distance(&[0., 0., 0., 4., 0., 0.], &[1., 3., 0., 1., 5., 0.]);
/// assert_eq!(near, vorzhyket::Closest { gap: 3., u: 0.25, v: 0. });
/// ```
pub fn distance(first: &[f32; 6], second: &[f32; 6]) -> Closest {
    let mut places = [0.0; 2];
    // SAFETY: two arrays of six, and a local of two.
    let gap = unsafe { ffi::vz_distance(first, second, &mut places) };
    Closest { gap, u: places[0], v: places[1] }
}

/// Reads targets, two raw targets to a road, predecessor first: for each raw target of nine words, a target's seven. A
/// contact is given where contactPoint is "start" or "end"; any other reads as start and isn't given. Writes a warning
/// row for each target that is there with such another: 4, [`NO_ROW`], raw road row, 0 for a predecessor and 1 for a
/// successor. An odd count of raw targets is a [`Refusal::BadSize`].
pub fn read_targets(text: &[u8], raw: &[u32], outputs: TargetOutputs) -> Result<TargetCounts, Refusal> {
    let (o, mut n) = (outputs, [0; 2]);
    call!(vz_read_targets, [text, raw], [o.targets, o.warnings], &mut n)?;
    let [targets, warnings] = n.map(|k| k as usize);
    Ok(TargetCounts { targets, warnings })
}

/// Reads junctions with their connections and pairs. Writes a warning row for each connection or lane link that is
/// dropped, and for each connection kept whose contactPoint is there and neither "start" nor "end": 4, raw junction row,
/// raw connection row, 0, ahead of the rows of its lane links.
pub fn read_junctions(raw: RawJunctions, outputs: JunctionOutputs) -> Result<JunctionCounts, Refusal> {
    let (r, o, mut n) = (raw, outputs, [0; 4]);
    call!(vz_read_junctions, [r.text, r.junctions, r.connections, r.lane_links], [o.junctions, o.connections, o.pairs, o.warnings], &mut n)?;
    let [junctions, connections, pairs, warnings] = n.map(|k| k as usize);
    Ok(JunctionCounts { junctions, connections, pairs, warnings })
}

/// Reads the links of lanes: for each raw lane, predecessor flag and number, then successor flag and number. Returns
/// how many rows.
pub fn read_lanes(text: &[u8], raw: &[u32], out: &mut [u32]) -> Result<usize, Refusal> {
    let mut n = [0; 1];
    call!(vz_read_lanes, [text, raw], [out], &mut n)?;
    Ok(n[0] as usize)
}

/// The sum of the last start and the last length, where it is more than 0.01 off the road's length; none where there
/// is nothing to report.
///
/// ```
/// assert_eq!(vorzhyket::length_check(&[0.0, 40.0], &[40.0, 10.0], 50.02), Ok(Some(50.0)));
/// assert_eq!(vorzhyket::length_check(&[0.0, 40.0], &[40.0, 10.0], 50.0), Ok(None));
/// ```
pub fn length_check(starts: &[f64], lengths: &[f64], length: f64) -> Result<Option<f64>, Refusal> {
    let mut sum = 0.0;
    // SAFETY: each pointer and length is a live slice's, and `sum` is a local.
    match unsafe { ffi::vz_length(starts.as_ptr(), starts.len(), lengths.as_ptr(), lengths.len(), length, &mut sum) } {
        1 => Ok(Some(sum)),
        n => Refusal::check(n).map(|()| None),
    }
}

fn part_of<T>(whole: &[T], [first, count]: [u32; 2]) -> &[T] {
    &whole[first as usize..][..count as usize]
}

#[cfg(test)]
mod tests {
    use super::*;

    /// A refusal leaves `written` and `out` as they were, for each of the functions that can refuse.
    #[test]
    fn refusals_leave_the_counts() {
        let (text, short, none, floats) = ([0u8; 1], [0u32; 19], [0u32; 0], [0f32; 0]);
        let (mut a, mut b, mut c, mut d, mut e, mut f) = ([0u32; 0], [0u32; 0], [0u32; 0], [0u32; 0], [0u32; 0], [0f32; 0]);
        let mut n = [7; 5];
        assert_eq!(call!(vz_repair, [text, short, none, none, none, none], [a, b, c, d, e], &mut n), Err(Refusal::BadSize));
        assert_eq!(n, [7; 5]);
        let mut n = [7; 4];
        assert_eq!(call!(vz_succession, [text, short, none, none, none, none, none], [a, b, c, d], &mut n), Err(Refusal::BadSize));
        assert_eq!(n, [7; 4]);
        let mut n = [7; 1];
        assert_eq!(call!(vz_gaps, [text, short, none, none, none, none, none, floats, none, none], [a], &mut n), Err(Refusal::BadSize));
        assert_eq!(n, [7; 1]);
        let mut n = [7; 6];
        assert_eq!(call!(vz_reverse, [text, short, none, none, none, none, none, floats, none], [a, b, c, d, e, f], &mut n), Err(Refusal::BadSize));
        assert_eq!(n, [7; 6]);
        let mut out = 7.0;
        // SAFETY: `out` is a local.
        assert_eq!(Refusal::check(unsafe { ffi::vz_root(-1.0, &mut out) }), Err(Refusal::BelowZero));
        assert_eq!(out, 7.0);
        let mut n = [7; 2];
        assert_eq!(call!(vz_read_targets, [text, short], [a, b], &mut n), Err(Refusal::BadSize));
        assert_eq!(n, [7; 2]);
        let mut n = [7; 1];
        assert_eq!(call!(vz_read_lanes, [text, short], [a], &mut n), Err(Refusal::BadSize));
        assert_eq!(n, [7; 1]);
        let mut n = [7; 4];
        assert_eq!(call!(vz_read_junctions, [text, short, none, none], [a, b, c, d], &mut n), Err(Refusal::BadSize));
        assert_eq!(n, [7; 4]);
    }

    /// `sum` is written only where the sum is reported.
    #[test]
    fn a_length_not_reported_leaves_the_sum() {
        for (lengths, length, number, left) in [(&[10.0][..], 10.0, 0, 7.0), (&[], 10.0, 16, 7.0), (&[10.0], 10.02, 1, 10.0)] {
            let mut sum = 7.0;
            // SAFETY: both are live slices, and `sum` is a local.
            assert_eq!(unsafe { ffi::vz_length([0.0].as_ptr(), 1, lengths.as_ptr(), lengths.len(), length, &mut sum) }, number);
            assert_eq!(sum, left);
        }
    }
}
