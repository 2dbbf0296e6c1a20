//! Takes links.rs, gaps.rs and coords.rs of libopendrive-rs from the checkout that LIBOPENDRIVE names, at build time.
//! Only `across` is replaced, by the lent points; the build fails if the source is not as expected. Behind two of the files stand doors to private functions,
//! for the benchmark, the distance and its places, and `distance` once more, with the places u and v in its answer.
use std::{env, fs, path::PathBuf};

const ACROSS: &str = "fn across(lane: &Lane, end: bool) -> [Point; 2] {";
const DISTANCE: &str = "fn distance([p, q]: [Point; 2], [r, s]: [Point; 2]) -> f32 {\n";
const LENGTH: &str = "\n    ((p + d1 * u) - (r + d2 * v)).length()\n}\n";

/// Appended to links.rs: the repair of one junction row, as `junctions` does it after reading.
const LINKS_DOORS: &str = "
pub(crate) fn repair_row(id: &str, kind: u32, conns: &mut Vec<JunctionConn>, roads: &mut HashMap<String, RoadInfo>, warnings: &mut Vec<Warning>) {
    match kind {
        0 => warnings.extend(missing_links(id, conns, roads)),
        1 => {
            let back = reversed(id, conns, roads);
            conns.extend(back);
        }
        _ => (),
    }
}
";

/// Appended to gaps.rs, behind `closest`. The pairs of a link's ends come in the order in which `link_gaps` measures them.
const GAPS_DOORS: &str = "
pub(crate) fn distance_of(first: &[Point; 2], second: &[Point; 2]) -> f32 {
    distance(*first, *second)
}

pub(crate) fn closest_of(first: &[Point; 2], second: &[Point; 2]) -> (f32, f32, f32) {
    closest(*first, *second)
}

pub(crate) fn pairs_of_ends(lane: &Lane, to: &Lane) -> Vec<[[Point; 2]; 2]> {
    ends(lane, Direction::Forward).flat_map(|exit| ends(to, Direction::Backward).map(move |entry| [exit, entry])).collect()
}
";

fn main() {
    println!("cargo:rerun-if-env-changed=LIBOPENDRIVE");
    println!("cargo:rerun-if-env-changed=VORZHYKET_LIB");
    let root = PathBuf::from(env::var("LIBOPENDRIVE").expect("LIBOPENDRIVE: the path of a checkout of libopendrive-rs"));
    let out = PathBuf::from(env::var("OUT_DIR").unwrap());
    let read = |file: &str| {
        let path = root.join(file);
        println!("cargo:rerun-if-changed={}", path.display());
        fs::read_to_string(&path).unwrap_or_else(|e| panic!("{}: {e}", path.display()))
    };
    fs::write(out.join("links.rs"), read("src/parse/links.rs") + LINKS_DOORS).unwrap();
    fs::write(out.join("coords.rs"), read("src/coords.rs")).unwrap();
    let gaps = read("src/parse/gaps.rs");
    fs::write(out.join("gaps.rs"), with_lent_points(&gaps) + "\n" + &closest(&gaps) + GAPS_DOORS).unwrap();
    let path = |file: &str| format!("{:?}", out.join(file).display().to_string());
    fs::write(
        out.join("original.rs"),
        format!(
            "#[path = {}] pub mod coords;\npub mod parse {{\n    pub use crate::shim::{{LaneHeight, RoadEnd, Warning}};\n    #[path = {}] pub mod links;\n    #[path = {}] pub mod gaps;\n    pub fn link_gaps(lanes: &[crate::Lane], metas: &[links::LaneMeta]) -> Vec<Warning> {{\n        gaps::link_gaps(lanes, metas)\n    }}\n    pub fn road_length(road: &crate::road::Road) -> Option<Warning> {{\n        gaps::road_length(road)\n    }}\n}}\n",
            path("coords.rs"),
            path("links.rs"),
            path("gaps.rs")
        ),
    )
    .unwrap();
    let lib = env::var("VORZHYKET_LIB").expect("VORZHYKET_LIB: the folder of libvorzhyket.a");
    println!("cargo:rustc-link-search=native={lib}");
    println!("cargo:rustc-link-lib=static=vorzhyket");
    println!("cargo:rerun-if-changed={lib}/libvorzhyket.a");
}

/// gaps.rs with the body of `across` replaced: a lane's two ends are lent.
fn with_lent_points(source: &str) -> String {
    let at = source.find(ACROSS).expect("gaps.rs has no `across` as expected");
    assert_eq!(source.matches(ACROSS).count(), 1, "gaps.rs has `across` more than once");
    let body = at + ACROSS.len();
    let end = body + source[body..].find("\n}\n").expect("`across` does not end as expected");
    assert!(source[body..end].contains("lane.center.points()"), "`across` is not as expected");
    format!("{}\n    lane.ends[usize::from(end)]{}", &source[..body], &source[end..])
}

/// The text of `distance` as a function of its own, `closest`, that answers the distance, u and v.
fn closest(source: &str) -> String {
    let at = source.find(DISTANCE).expect("gaps.rs has no `distance` as expected");
    assert_eq!(source.matches("fn distance(").count(), 1, "gaps.rs has `distance` more than once");
    let body = at + DISTANCE.len();
    let end = body + source[body..].find("\n}\n").expect("`distance` does not end as expected") + "\n}\n".len();
    let steps = source[body..end].strip_suffix(LENGTH).expect("`distance` does not answer the length between the places u and v, as expected");
    format!("fn closest([p, q]: [Point; 2], [r, s]: [Point; 2]) -> (f32, f32, f32) {{\n{steps}\n    (((p + d1 * u) - (r + d2 * v)).length(), u, v)\n}}\n")
}
