//! What stands around the map: the title, the legend, the scale bar, what was left out.
use super::scene::{Scene, HEAD, WIDTH};
use super::trace::text;
use super::words::{breadth, count, words};
use super::{MOST_LABELS, MOST_MARKS};
use crate::found::Found;
use crate::map::Map;
use crate::way::Way;
use vorzhyket::sizes::{LANE, ROAD};

/// The height of the legend's line, and of a line of remarks below it.
const LINE: f64 = 64.0;
const REMARK: f64 = 34.0;

/// The size of its text, as in the style sheet.
const SIZE: f64 = 24.0;

/// The sizes of the map.
pub fn title(map: &Map, found: &Found) -> String {
    let links = found.successors.iter().map(Vec::len).sum();
    let (roads, lanes) = (map.tables.roads.len() / ROAD, map.tables.lanes.len() / LANE);
    [count(roads, "road"), count(lanes, "lane"), count(links, "link"), count(found.gaps.len(), "gap")].join(", ")
}

/// What a reader has to know beside the legend, as lines.
pub fn remarks(map: &Map, scene: &Scene, linked: bool) -> Vec<String> {
    let mut lines: Vec<String> = Vec::new();
    for part in parts(map, scene, linked) {
        match lines.last_mut() {
            Some(line) if breadth(line, SIZE) + breadth(&part, SIZE) < WIDTH - 80.0 => *line += &format!("; {part}"),
            _ => lines.push(part),
        }
    }
    lines
}

fn parts(map: &Map, scene: &Scene, linked: bool) -> Vec<String> {
    let mut lines = Vec::new();
    if map.origin != [0.0, 0.0] {
        lines.push(format!("places are counted from x {}, y {}", map.origin[0], map.origin[1]));
    }
    if !linked {
        lines.push("links are left out at this scale".into());
    }
    if scene.marks.len() > MOST_MARKS {
        lines.push("a ring stands for all gaps at its place".into());
    }
    if scene.marks.len() > MOST_LABELS {
        lines.push("widths stand beside the widest gaps".into());
    }
    if scene.skipped > 0 {
        lines.push(format!("{} not drawn: coordinates that are no place", count(scene.skipped, "lane")));
    }
    if scene.unmarked > 0 {
        lines.push(format!("{} not marked: no width or no place", count(scene.unmarked, "gap")));
    }
    lines
}

/// The sheet's height.
pub fn height(scene: &Scene, remarks: &[String]) -> f64 {
    HEAD + scene.height + LINE + REMARK * remarks.len() as f64
}

/// The legend below the map: only what the map has.
pub fn legend(out: &mut String, scene: &Scene, remarks: &[String], linked: bool) {
    let middle = HEAD + scene.height + LINE / 2.0;
    let mut x = 32.0;
    out.push_str(if scene.wide < super::THIN { "<g class=\"v\">\n" } else { "<g>\n" });
    let mut entry = |out: &mut String, sign: String, line: &str| {
        out.push_str(&sign.replace("{x}", &text(x)).replace("{y}", &text(middle)));
        words(out, "n", [x + 46.0, middle + SIZE * 0.35], line);
        x += 46.0 + breadth(line, SIZE) + 28.0;
    };
    let has = |way: Way| scene.lanes.iter().flatten().any(|lane| lane.way == way);
    for (way, class, line) in [(Way::Forward, "f", "forward"), (Way::Backward, "b", "backward"), (Way::Both, "t", "both ways")] {
        if has(way) {
            entry(out, swatch(class), line);
        }
    }
    if let Some(class) = inside_class(scene) {
        entry(out, swatch(class), "in a junction");
    }
    if linked {
        entry(out, LINK.into(), "link");
        if scene.lanes.iter().flatten().any(|lane| lane.joined != [true; 2]) {
            entry(out, STOP.into(), "no link");
        }
    }
    if !scene.marks.is_empty() {
        entry(out, GAP.into(), "gap over 0.1 m");
    }
    out.push_str("</g>\n");
    scale_bar(out, scene, middle);
    for (i, line) in remarks.iter().enumerate() {
        words(out, "n q", [32.0, HEAD + scene.height + LINE + REMARK * (i as f64 + 0.5) - 4.0], line);
    }
}

const LINK: &str = "<path class=\"k\" stroke-width=\"2.5\" d=\"M{x} {y}h36\"/><path class=\"a\" transform=\"translate({x} {y})\" d=\"M26 0l-14-6v12z\"/>";
const STOP: &str = "<path class=\"k\" stroke-width=\"2.5\" d=\"M{x} {y}h30m0-9v18\"/>";
const GAP: &str = "<path class=\"x\" d=\"M{x} {y}m5 0h26\"/><circle class=\"o\" transform=\"translate({x} {y})\" cx=\"18\" cy=\"0\" r=\"14\"/>";

fn swatch(class: &str) -> String {
    format!("<path class=\"{class}\" d=\"M{{x}} {{y}}m0-11h36v22h-36z\"/>")
}

/// The lighter colour of a lane inside a junction, where there is one.
fn inside_class(scene: &Scene) -> Option<&'static str> {
    let row = scene.roads.iter().filter(|road| road.inside).flat_map(|road| &road.lanes).find(|&&row| scene.lane(row).is_some())?;
    scene.lane(*row).map(|lane| super::class(lane.way, true))
}

/// A bar of a round length at the right, and the arrow to the north.
fn scale_bar(out: &mut String, scene: &Scene, middle: f64) {
    let metres = round_length(200.0 / scene.scale);
    let (long, end) = (metres * scene.scale, WIDTH - 84.0);
    let bar = format!("M{} {}v12h{}v-12", text(end - long), text(middle + 4.0), text(long));
    out.push_str(&format!("<path class=\"r\" d=\"{bar}\"/>"));
    words(out, "n m", [end - long / 2.0, middle + 8.0], &length(metres));
    let north = format!("M{} {}l10 30-10-7-10 7z", text(WIDTH - 44.0), text(middle - 22.0));
    out.push_str(&format!("<path class=\"a\" d=\"{north}\"/>"));
    words(out, "l m", [WIDTH - 44.0, middle + 28.0], "N");
}

/// The greatest of 1, 2 and 5 and their tenfolds that is not above x.
fn round_length(x: f64) -> f64 {
    let ten = 10f64.powf(x.log10().floor());
    [5.0, 2.0].map(|k| k * ten).into_iter().find(|&k| k <= x).unwrap_or(ten)
}

fn length(metres: f64) -> String {
    match metres {
        m if m >= 1000.0 => format!("{} km", m / 1000.0),
        m if m >= 1.0 => format!("{m} m"),
        m if m >= 0.01 => format!("{:.0} cm", m * 100.0),
        m => format!("{:.3} mm", m * 1000.0),
    }
}
