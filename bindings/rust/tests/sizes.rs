//! The header and the binding have the same widths and limits.
use vorzhyket::sizes::*;

#[test]
fn as_in_the_header() {
    let header = include_str!("../../../include/vorzhyket.h");
    let of = |name: &str| {
        let rest = header.split_once(&format!("    VZ_{name} = ")).unwrap_or_else(|| panic!("{name}")).1;
        rest.split(|c: char| !c.is_ascii_digit()).next().unwrap().parse::<usize>().unwrap()
    };
    let ours = [
        ("TARGET", TARGET),
        ("ROAD", ROAD),
        ("SECTION", SECTION),
        ("JUNCTION", JUNCTION),
        ("CONNECTION", CONNECTION),
        ("PAIR", PAIR),
        ("LANE", LANE),
        ("EDGE", EDGE),
        ("WARNING", WARNING),
        ("GAP", GAP),
        ("RAW_TARGET", RAW_TARGET),
        ("RAW_JUNCTION", RAW_JUNCTION),
        ("RAW_CONNECTION", RAW_CONNECTION),
        ("RAW_LANE_LINK", RAW_LANE_LINK),
        ("RAW_LANE", RAW_LANE),
        ("LINKS", LINKS),
        ("MOST_TEXT", MOST_TEXT),
        ("MOST_ROWS", MOST_ROWS),
        ("MOST_ROWS_REPAIR", MOST_ROWS_REPAIR),
        ("MOST_IDENTITIES", MOST_IDENTITIES),
        ("MOST_OFFSETS", MOST_OFFSETS),
    ];
    for (name, size) in ours {
        assert_eq!(size, of(name), "{name}");
    }
}
