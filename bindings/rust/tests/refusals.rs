//! Every refusal is reached by a call, with its number, and leaves the outputs as they were.
mod maps;
use maps::*;
use vorzhyket::*;

const ROOM: usize = 100;

/// A number, and a change for which a call is refused by it.
type Damage = (u32, fn(&mut Owned));

/// The map of three lanes, changed.
fn changed(change: impl Fn(&mut Owned)) -> Owned {
    let mut m = three_lanes();
    change(&mut m);
    m
}

/// The four calls' answers on it, with lists and marks that fit the map before the change.
fn answers(m: &Owned) -> [Option<u32>; 4] {
    let (offsets, ids) = (&[0, 1, 2, 2], &[3, 5]);
    [repaired(m, ROOM).err(), lists(m, ROOM).err(), gap_rows(m, offsets, ids, ROOM).err(), reversed(m, &[0, 1], ROOM).err()].map(|r| r.map(Refusal::number))
}

#[test]
fn of_the_map() {
    assert_eq!(answers(&three_lanes()), [None; 4]);
    let of_all: [Damage; 5] = [
        (1, |m| m.roads.truncate(39)),
        (2, |m| m.roads[12] = 2),
        (3, |m| m.roads[20] = 0),
        (4, |m| m.roads[38] = 2),
        (5, |m| m.junctions = vec![0, 1, 0, 0, 1]),
    ];
    for (number, change) in of_all {
        assert_eq!(answers(&changed(change)), [Some(number); 4]);
    }
    let of_lanes: [Damage; 3] = [(6, |m| m.lanes[10] = 7), (7, |m| m.lanes[3] = 1), (8, |m| m.lanes[23] = 0)];
    for (number, change) in of_lanes {
        assert_eq!(answers(&changed(change)), [None, Some(number), Some(number), Some(number)]);
    }
}

#[test]
fn of_short_outputs() {
    let m = three_lanes();
    assert_eq!(repaired(&m, 39).unwrap_err(), Refusal::OutputShort);
    assert_eq!(lists(&m, 3).unwrap_err(), Refusal::OutputShort);
    assert!(lists(&m, 4).is_ok());
    assert_eq!(reversed(&m, &[0, 0], 39).unwrap_err(), Refusal::OutputShort);
    assert!(reversed(&m, &[0, 0], 40).is_ok());
    let apart = changed(|m| m.edges[24] = 9.0);
    assert_eq!(gap_rows(&apart, &[0, 0, 0, 1], &[7], sizes::GAP - 1).unwrap_err(), Refusal::OutputShort);
    assert_eq!(gap_rows(&apart, &[0, 0, 0, 1], &[7], sizes::GAP).unwrap().len(), sizes::GAP);
}

#[test]
fn of_edges_lists_and_marks() {
    let fewer = changed(|m| m.edges.truncate(24));
    assert_eq!(answers(&fewer), [None, None, Some(10), Some(10)]);
    let m = three_lanes();
    for (offsets, ids) in [(&[0, 2, 1, 2][..], &[3, 5][..]), (&[0, 1, 2], &[3, 5]), (&[1, 1, 2, 2], &[3, 5]), (&[0, 1, 2, 2], &[3]), (&[0, 1, 2, 2], &[3, 4])] {
        assert_eq!(gap_rows(&m, offsets, ids, ROOM).unwrap_err(), Refusal::BadLists);
    }
    for marks in [&[0, 2][..], &[0], &[0, 0, 0]] {
        assert_eq!(reversed(&m, marks, ROOM).unwrap_err(), Refusal::BadMarks);
    }
    let least = changed(|m| m.lanes[4] = i32::MIN as u32);
    assert_eq!(reversed(&least, &[0, 0], ROOM).unwrap_err(), Refusal::LeastNumber);
}

#[test]
fn of_a_marked_road_with_one_direct_junction_at_both_ends() {
    let mut m = junction(1, true, &[]);
    m.roads[4..11].copy_from_slice(&target(1, C, 0));
    assert_eq!(reversed(&m, &[1, 0], ROOM).unwrap_err(), Refusal::TwoEnded);
    assert!(reversed(&m, &[0, 1], ROOM).is_ok());
}

#[test]
fn of_a_root_below_zero() {
    assert_eq!(root(-1.0).unwrap_err(), Refusal::BelowZero);
}

#[test]
fn numbers_and_words() {
    for (i, r) in Refusal::ALL.into_iter().enumerate() {
        assert_eq!(r.number() as usize, i + 1);
        assert_eq!(Refusal::of_number(r.number()), Some(r));
        assert!(!r.to_string().is_empty());
    }
    assert_eq!(Refusal::of_number(0), None);
    assert_eq!(Refusal::OutputShort.to_string(), "an output is shorter than its content");
}
