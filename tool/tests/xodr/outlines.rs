//! Outlines: from the section's start to its end, smooth and short.
use crate::{edges, file, ALL};
use lanes::map::Outline;
use lanes::xodr::{self, Choice};

const OUTLINES: Choice = Choice { outlines: true, ..ALL };

fn outlines(name: &str) -> Vec<Outline> {
    xodr::read(&file(&format!("tests/data/{name}.xodr")), &OUTLINES).unwrap().outlines
}

#[test]
fn they_end_where_the_edges_are() {
    for name in ["shapes", "directions", "across", "surface", "utm"] {
        let map = xodr::read(&file(&format!("tests/data/{name}.xodr")), &OUTLINES).unwrap();
        assert_eq!(map.outlines.len(), map.lines.lanes.len());
        for (row, outline) in map.outlines.iter().enumerate() {
            let e = edges(&map, row);
            let ends = [outline.left.first(), outline.right.first(), outline.left.last(), outline.right.last()].map(|p| *p.unwrap());
            for (point, edge) in ends.iter().zip(e.chunks(3)) {
                assert!((point[0] as f32, point[1] as f32) == (edge[0], edge[1]), "{name}, lane {row}: {point:?} is not {edge:?}");
            }
        }
    }
}

#[test]
fn straight_lanes_have_two_points_a_border() {
    for outline in outlines("directions") {
        assert_eq!((outline.left.len(), outline.right.len()), (2, 2));
    }
}

#[test]
fn an_arc_is_smooth() {
    let outline = &outlines("shapes")[1];
    assert!((5..=64).contains(&outline.left.len()) && (5..=64).contains(&outline.right.len()));
    for (border, radius) in [(&outline.left, 10.0), (&outline.right, 13.0)] {
        for pair in border.windows(2) {
            let middle = [(pair[0][0] + pair[1][0]) / 2.0, (pair[0][1] + pair[1][1]) / 2.0 - 10.0];
            assert!(radius - middle[0].hypot(middle[1]) < 0.05);
        }
    }
}

#[test]
fn no_border_has_more_than_256_points() {
    let wide: String = (0..500).map(|i| format!(r#"<width sOffset="{i}" a="{}"/>"#, 2 + i % 3)).collect();
    let lanes = format!(r#"<laneSection s="0"><right><lane id="-1">{wide}</lane></right></laneSection>"#);
    let plan = r#"<planView><geometry s="0" x="0" y="0" hdg="0" length="500"><arc curvature="0.3"/></geometry></planView>"#;
    let text = format!(r#"<OpenDRIVE><road id="1" length="500">{plan}<lanes>{lanes}</lanes></road></OpenDRIVE>"#);
    let map = xodr::read(text.as_bytes(), &OUTLINES).unwrap();
    assert_eq!((map.outlines[0].left.len(), map.outlines[0].right.len()), (256, 256));
}
