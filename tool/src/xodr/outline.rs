//! The borders of lanes as seen from above, as lines that are smooth enough to draw.
use super::cross_section::{borders, Borders};
use super::lanes::Section;
use super::profile::Seam;
use super::roads::Road;
use crate::map::Outline;

/// The most points of a border.
const MOST_POINTS: usize = 256;
/// The most stations at which the road or a lane changes its formula that are taken note of.
const MOST_KNOTS: usize = 32;
/// A border may be this far off the straight line between two of its points, in metres.
const TOLERANCE: f64 = 0.02;

/// An outline for each lane of the section, empty where its borders are no finite numbers.
pub fn outlines(road: &Road, section: &Section, origin: [f64; 2]) -> Vec<Outline> {
    let lanes = section.left.len() + section.right.len();
    let Some(cuts) = cuts(road, section) else {
        return vec![Outline::default(); lanes];
    };
    (0..lanes)
        .map(|lane| {
            let border = |side: usize| {
                let line = cuts.iter().map(|cut| cut.borders[lane][side]).map(|[x, y, _]| [x - origin[0], y - origin[1]]).collect();
                without_straight(line)
            };
            let outline = Outline { left: border(0), right: border(1) };
            let finite = outline.left.iter().chain(&outline.right).flatten().all(|c| c.is_finite());
            if finite {
                outline
            } else {
                Outline::default()
            }
        })
        .collect()
}

/// The section's lanes at a station.
struct Cut {
    s: f64,
    borders: Vec<Borders>,
}

/// The section cut at its ends and wherever a border would be too far off a straight line.
fn cuts(road: &Road, section: &Section) -> Option<Vec<Cut>> {
    let cut = |s: f64| {
        let seam = if s < section.end { Seam::After } else { Seam::Before };
        borders(road, section, s, seam).map(|borders| Cut { s, borders })
    };
    let mut cuts: Vec<Cut> = knots(road, section).into_iter().map(cut).collect::<Option<_>>()?;
    let mut bends: Vec<f64> = Vec::new();
    for pair in cuts.windows(2) {
        bends.push(bend(&pair[0], &pair[1], cut)?);
    }
    while cuts.len() < MOST_POINTS {
        let Some(i) = (0..bends.len()).max_by(|&i, &j| bends[i].total_cmp(&bends[j])).filter(|&i| bends[i] > TOLERANCE) else {
            break;
        };
        let middle = cut((cuts[i].s + cuts[i + 1].s) / 2.0)?;
        bends[i] = bend(&cuts[i], &middle, cut)?;
        bends.insert(i + 1, bend(&middle, &cuts[i + 1], cut)?);
        cuts.insert(i + 1, middle);
    }
    Some(cuts)
}

/// The section's ends, and between them the stations at which a formula ends and another begins.
fn knots(road: &Road, section: &Section) -> Vec<f64> {
    let (start, end) = (section.start, section.end);
    let mut knots: Vec<f64> = road.reference.starts_between(start, end).chain(road.offsets.starts_between(start, end)).take(MOST_KNOTS).collect();
    for lane in section.lanes() {
        let room = MOST_KNOTS.saturating_sub(knots.len());
        let starts = lane.widths.starts_between(0.0, end - start).chain(lane.borders.starts_between(0.0, end - start));
        knots.extend(starts.take(room).map(|d| start + d));
    }
    knots.extend([start, end]);
    knots.sort_by(f64::total_cmp);
    knots.dedup();
    knots
}

/// How far a border between two cuts is off the straight line, at the most.
fn bend(first: &Cut, last: &Cut, cut: impl Fn(f64) -> Option<Cut>) -> Option<f64> {
    let mut most = 0f64;
    for part in [0.25, 0.5, 0.75] {
        let between = cut(first.s + (last.s - first.s) * part)?;
        for ((a, b), c) in first.borders.iter().zip(&last.borders).zip(&between.borders) {
            for side in 0..2 {
                let off = |i: usize| a[side][i] + (b[side][i] - a[side][i]) * part - c[side][i];
                most = most.max(off(0).hypot(off(1)));
            }
        }
    }
    Some(most)
}

/// The line without the points that lie on the straight line between their neighbours: of a straight line, its ends.
fn without_straight(line: Vec<[f64; 2]>) -> Vec<[f64; 2]> {
    let Some(last) = line.len().checked_sub(1) else {
        return line;
    };
    let mut kept = vec![line[0]];
    let mut from = 0;
    while from < last {
        let mut to = from + 1;
        while to < last && (from + 1..=to).all(|i| distance(line[i], line[from], line[to + 1]) <= TOLERANCE) {
            to += 1;
        }
        kept.push(line[to]);
        from = to;
    }
    kept
}

/// How far a point is from the segment between two others.
fn distance(p: [f64; 2], a: [f64; 2], b: [f64; 2]) -> f64 {
    let (along, to) = ([b[0] - a[0], b[1] - a[1]], [p[0] - a[0], p[1] - a[1]]);
    let square = along[0] * along[0] + along[1] * along[1];
    let part = if square > 0.0 { ((to[0] * along[0] + to[1] * along[1]) / square).clamp(0.0, 1.0) } else { 0.0 };
    (to[0] - part * along[0]).hypot(to[1] - part * along[1])
}
