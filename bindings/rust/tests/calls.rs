//! Each call accepted, and the parts and numbers beside them.
mod maps;
use maps::*;
use vorzhyket::*;

#[test]
fn repair_links_the_incoming_road() {
    let m = junction(0, false, &[[-1, -1]]);
    let (n, [roads, junctions, connections, pairs, warnings]) = repaired(&m, 100).unwrap();
    assert_eq!(n, RepairCounts { roads: 2, junctions: 1, connections: 1, pairs: 1, warnings: 1 });
    assert_eq!(roads[11..18], [1, 1, C[0], C[1], 1, 1, 0]);
    assert_eq!((&roads[..11], &roads[18..]), (&m.roads[..11], &m.roads[18..]));
    assert_eq!((junctions, connections, pairs), (m.junctions, m.connections, m.pairs));
    assert_eq!(warnings, [3, 0, 0, 1]);
}

#[test]
fn repair_turns_a_direct_connection() {
    let m = junction(1, true, &[[-1, 2]]);
    let (n, [roads, junctions, connections, pairs, _]) = repaired(&m, 100).unwrap();
    assert_eq!((n.connections, n.pairs, n.warnings), (2, 2, 0));
    assert_eq!(roads, m.roads);
    assert_eq!(junctions, [C[0], C[1], 1, 0, 2]);
    assert_eq!(connections, [A[0], A[1], B[0], B[1], 0, 0, 1, B[0], B[1], A[0], A[1], 1, 1, 1]);
    assert_eq!(pairs, [-1i32 as u32, 2, 2, -1i32 as u32]);
}

#[test]
fn succession_within_and_across_roads() {
    assert_eq!(lists(&three_lanes(), 10).unwrap(), [vec![0, 1, 2, 2], vec![3, 5], vec![0, 0, 1, 2], vec![7, 3]]);
}

#[test]
fn succession_keeps_both_pairs() {
    let m = junction(0, true, &[[-1, -1], [-1, -1]]);
    assert_eq!(lists(&m, 10).unwrap(), [vec![0, 2, 2], vec![9, 9], vec![0, 0, 2], vec![7, 7]]);
}

#[test]
fn succession_of_two_way_lanes() {
    assert_eq!(lists(&two_way(2), 10).unwrap(), [vec![0, 1, 2], vec![2, 1], vec![0, 1, 2], vec![2, 1]]);
    assert_eq!(lists(&two_way(1), 10).unwrap(), [vec![0, 0, 0], vec![], vec![0, 0, 0], vec![]]);
}

#[test]
fn no_lanes() {
    let m = Owned { lanes: vec![], edges: vec![], ..three_lanes() };
    assert_eq!(lists(&m, 1).unwrap(), [vec![0], vec![], vec![0], vec![]]);
}

#[test]
fn gaps_of_links_that_do_not_meet() {
    let mut m = three_lanes();
    let [offsets, ids, ..] = lists(&m, 10).unwrap();
    assert_eq!(gap_rows(&m, &offsets, &ids, 0).unwrap(), []);
    for x in m.edges[24..].iter_mut().step_by(3) {
        *x += 0.25;
    }
    let row = |gap: f32, u: f32, v: f32| [1, 2, gap.to_bits(), u.to_bits(), v.to_bits()];
    assert_eq!(gap_rows(&m, &offsets, &ids, 10).unwrap(), row(0.25, 0.0, 0.0));
    m.edges[25] = 0.5;
    assert_eq!(gap_rows(&m, &offsets, &ids, 5).unwrap(), row(0.25, 0.25, 0.0));
    // at a point, u of the distance is -0
    m.edges.copy_within(18..21, 24);
    m.edges[24] += 0.25;
    m.edges.copy_within(24..27, 27);
    assert_eq!(distance(m.edges[18..24].try_into().unwrap(), m.edges[24..30].try_into().unwrap()).u.to_bits(), (-0f32).to_bits());
    assert_eq!(gap_rows(&m, &offsets, &ids, 5).unwrap(), row(0.25, 0.0, 0.0));
    for x in [f32::NAN, f32::INFINITY, f32::MAX] {
        m.edges[24] = x;
        assert_eq!(gap_rows(&m, &offsets, &ids, 5).unwrap(), row(f32::INFINITY, 0.0, 0.0));
    }
}

/// Two-way lanes whose lines across meet one above the other, at u = 1/4 or 1/2 and v = 1/8 or 3/8, at those heights.
fn crossing([first_start, first_end, second_start, second_end]: [f32; 4]) -> Owned {
    let along = |y: f32, z: f32| [0., y, z, 4., y, z];
    let aslant = |x: f32, z: f32| [x, -1., z, x, 7., z];
    Owned { edges: [along(2., first_start), along(0., first_end), aslant(2., second_start), aslant(1., second_end)].concat(), ..two_way(2) }
}

/// The gap rows of a map of two roads, and the same after each reversal of them.
fn rows_that_stay(m: &Owned) -> Vec<u32> {
    let [offsets, ids, ..] = lists(m, 10).unwrap();
    let rows = gap_rows(m, &offsets, &ids, 10).unwrap();
    for marks in [[0, 1], [1, 0], [1, 1]] {
        assert_eq!(gap_rows(&reversed(m, &marks, 100).unwrap(), &offsets, &ids, 10).unwrap(), rows, "{marks:?}");
    }
    rows
}

#[test]
fn ties_go_to_the_smallest_u_then_v() {
    for (heights, gap, u, v) in [
        // all four are as far apart: both decide
        ([0., 0., 1., 1.], 1f32, 0.25f32, 0.125f32),
        // the entry's end is further off: v decides between the exits
        ([0., 0., 1., 2.], 1., 0.5, 0.125),
        // the exit's end is further off: u decides between the entries
        ([0., -1., 1., 1.], 1., 0.25, 0.375),
        // both ends are
        ([0., -1., 1., 2.], 1., 0.5, 0.375),
        // the exit's start with the entry's end, and the exit's end with the entry's start at a smaller v: u counts first
        ([0., 2., 1., -1.], 1., 0.25, 0.375),
        // one alone is least, at neither the smallest u nor the smallest v
        ([0., 3., 0.5, 9.], 0.5, 0.5, 0.375),
        // a NaN is passed over
        ([0., f32::NAN, 1., f32::NAN], 1., 0.5, 0.375),
        ([f32::NAN, f32::NAN, 1., 1.], f32::INFINITY, 0., 0.),
    ] {
        let rows = rows_that_stay(&crossing(heights));
        assert_eq!(rows[..5], [0, 1, gap.to_bits(), u.to_bits(), v.to_bits()], "{heights:?}");
    }
    // the other way the first lane's ends are the entries
    assert_eq!(rows_that_stay(&crossing([0., 2., 1., -1.]))[5..], [1, 0, 1f32.to_bits(), 0.125f32.to_bits(), 0.5f32.to_bits()]);
}

#[test]
fn ties_count_minus_zero_as_zero() {
    let slope = [0., 1., 1., 0., 0., 0.];
    let gap = 0.5f32.sqrt();
    // edges that run off from beside the slope or, at its top, from before it, and the places of the slope and of the edge
    let back = ([0., 1., 0., -1., 1., 0.], [0.5, -0.0]);
    let ahead = ([0., 1.25, 0.25, 1., 1.25, 0.25], [0.25, 0.]);
    let across = ([-0.5, 1.25, 0.25, 1.5, 1.25, 0.25], [0.25, 0.25]);
    let back_at_top = ([0., 1.5, 1.5, -1., 1.5, 1.5], [0., -0.0]);
    let across_at_top = ([0.5, 1.5, 1.5, -1.5, 1.5, 1.5], [0., 0.25]);
    // the off edge is the exit
    for ([first, second], [u, v]) in [
        // -0 and 0 are equal, so that v decides
        ([back, ahead], [0f32, 0.25f32]),
        // -0 is below 1/4
        ([back, across], [0., 0.5]),
    ] {
        for (edge, [on_slope, off]) in [first, second] {
            let near = distance(&edge, &slope);
            assert_eq!([near.gap, near.u, near.v].map(f32::to_bits), [gap, off, on_slope].map(f32::to_bits), "{edge:?}");
        }
        let m = Owned { edges: [second.0, first.0, slope, slope].concat(), ..two_way(2) };
        assert_eq!(rows_that_stay(&m)[..5], [0, 1, gap.to_bits(), u.to_bits(), v.to_bits()]);
    }
    // the off edge is the entry: v at -0 is below 1/4, and shown as 0
    for (edge, [on_slope, off]) in [back_at_top, across_at_top] {
        let near = distance(&slope, &edge);
        assert_eq!([near.gap, near.u, near.v].map(f32::to_bits), [gap, on_slope, off].map(f32::to_bits), "{edge:?}");
    }
    let m = Owned { edges: [slope, slope, back_at_top.0, across_at_top.0].concat(), ..two_way(2) };
    assert_eq!(rows_that_stay(&m)[..5], [0, 1, gap.to_bits(), 0, 0]);
}

#[test]
fn places_of_one_way_lanes_survive_reversal() {
    let mut m = three_lanes();
    m.edges[25] = 0.5;
    m.edges[24] += 0.25;
    m.edges[27] += 0.25;
    assert_eq!(rows_that_stay(&m)[3..], [0.25f32.to_bits(), 0]);
}

#[test]
fn reversal_twice_gives_back_the_tables() {
    let m = three_lanes();
    let r = reversed(&m, &[0, 1], 100).unwrap();
    assert_eq!(r.sections, [0, 0, 1]);
    assert_eq!(r.lanes[10..20], lane(3, B, 1, 1, 1, Some(-1), Some(1)));
    assert_eq!(r.edges[12..18], m.edges[18..24]);
    assert_ne!(r.roads, m.roads);
    assert_eq!(lists(&r, 10), lists(&m, 10));
    assert_eq!(reversed(&r, &[0, 1], 100).unwrap(), m);
    assert_eq!(reversed(&m, &[0, 0], 100).unwrap(), m);
    let j = junction(1, true, &[[-1, 2]]);
    let r = reversed(&j, &[1, 0], 100).unwrap();
    assert_eq!(r.pairs, [1, 2]);
    assert_eq!(reversed(&r, &[1, 0], 100).unwrap(), j);
}

#[test]
fn lists_as_parts() {
    let [so, si, po, pi] = lists(&three_lanes(), 10).unwrap();
    let l = Lists { successor_offsets: &so, successor_ids: &si, predecessor_offsets: &po, predecessor_ids: &pi };
    assert_eq!([0, 1, 2].map(|r| list(l, r, Side::Onward)), [&[3][..], &[5], &[]]);
    assert_eq!([0, 1, 2].map(|r| list(l, r, Side::Before)), [&[][..], &[7], &[3]]);
    assert!(std::ptr::eq(list(l, 1, Side::Onward), &si[1..2]));
    assert!(list(l, 3, Side::Onward).is_empty() && list(l, u32::MAX, Side::Before).is_empty());
    for offsets in [&[2, 1][..], &[0, 3], &[1], &[]] {
        let damaged = Lists { successor_offsets: offsets, ..l };
        assert!(list(damaged, 0, Side::Onward).is_empty());
    }
}

#[test]
fn names_as_parts() {
    let text = b"westeast";
    assert!(std::ptr::eq(name(text, 4, 4), &text[4..]));
    assert_eq!(name(text, 0, 8), text);
    for (start, length) in [(ABSENT, 0), (4, 5), (9, 0), (8, 0), (ABSENT, ABSENT)] {
        assert!(name(text, start, length).is_empty());
    }
}

#[test]
fn roots() {
    for (x, r) in [
        (0x4080_0000, 0x4000_0000),
        (0x4000_0000, 0x3FB5_04F3),
        (0x0000_0001, 0x1A35_04F3),
        (0x7F7F_FFFF, 0x5F7F_FFFF),
        (0, 0),
        (0x8000_0000, 0x8000_0000),
        (0x7F80_0000, 0x7F80_0000),
    ] {
        assert_eq!(root(f32::from_bits(x)).unwrap().to_bits(), r);
    }
    assert!(root(f32::NAN).unwrap().is_nan());
    for x in [-1.0, -f32::MIN_POSITIVE, f32::NEG_INFINITY] {
        assert_eq!(root(x), Err(Refusal::BelowZero));
    }
}

#[test]
fn distances() {
    let far = |first, second, gap: f32, u: f32, v: f32| {
        let Closest { gap: a, u: b, v: c } = distance(&first, &second);
        assert_eq!([a, b, c].map(f32::to_bits), [gap, u, v].map(f32::to_bits), "{first:?} and {second:?}");
    };
    let line = [0., 0., 0., 4., 0., 0.];
    // side by side
    far([0., 0., 0., 0., 2., 0.], [0.25, 0., 0., 0.25, 2., 0.], 0.25, 0.0, 0.0);
    // within both
    far(line, [1., -1., 1., 1., 7., 1.], 1.0, 0.25, 0.125);
    // at the end of the first, and at the start or the end of the second
    far(line, [7., 4., 0., 7., 9., 0.], 5.0, 1.0, 0.0);
    far(line, [7., 9., 0., 7., 4., 0.], 5.0, 1.0, 1.0);
    // points
    far([3., 2., 4., 3., 2., 4.], [0., 0., 0., 0., 8., 0.], 5.0, 0.0, 0.25);
    far([0., 0., 0., 0., 8., 0.], [3., 2., 4., 3., 2., 4.], 5.0, 0.25, 0.0);
    far([0., 0., 0., 0., 0., 0.], [1., 2., 2., 1., 2., 2.], 3.0, 0.0, 0.0);
    // -0 stays
    far(line, [0., 3., 0., 0., 3., 0.], 3.0, -0.0, 0.0);
    far(line, [0., 3., 0., 0., 5., 0.], 3.0, -0.0, 0.0);
    // the square is infinite
    far(line, [f32::MAX, 0., 0., f32::MAX, 0., 0.], f32::INFINITY, 1.0, 0.0);
    assert!(distance(&line, &[f32::NAN; 6]).gap.is_nan());
}

/// A call fits a thread of 1.5 MiB, as the header says.
#[test]
fn little_stack() {
    let run = || {
        let m = three_lanes();
        repaired(&m, 100).unwrap();
        let [offsets, ids, ..] = lists(&m, 10).unwrap();
        gap_rows(&m, &offsets, &ids, 0).unwrap();
        reversed(&m, &[1, 0], 200).unwrap();
    };
    std::thread::Builder::new().stack_size(1536 * 1024).spawn(run).unwrap().join().unwrap();
}
