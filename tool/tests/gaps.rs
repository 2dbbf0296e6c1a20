//! `lanes gaps`: where the edges come closest, on maps whose places are worked out by hand. The sums are plain lengths along
//! the axes, or those of the triangle of 3, 4 and 5.
mod common;
use common::{examples, prints, run};

/// Road a leads to road b. The exit of a reaches from y 4 down to y -4 at x 10. The entry of b stands upright 2 m behind it, at
/// y 1, from z -1 to z 3: so they are nearest 3 m along the one and 1 m along the other, within both.
const UPRIGHT: &str = "road a to road b start sections 0\nroad b from road a end sections 0\n\
    lane 1 a 0 -1 forward next -1\nedges 0 4 0 0 -4 0 10 4 0 10 -4 0\n\
    lane 2 b 0 -1 forward back -1\nedges 12 1 -1 12 1 3 30 4 0 30 -4 0\n";

#[test]
fn places_within_both_edges() {
    let text = "a/0/-1 to b/0/-1: 2.000000 m (bits 40000000)\n\
                \x20 a/0/-1 at its end, 3.000 m from the first point: x 10.000 m, y 1.000 m\n\
                \x20 b/0/-1 at its start, 1.000 m from the first point: x 12.000 m, y 1.000 m\n\
                gaps: 1 gap in 1 link\n";
    prints("gaps", UPRIGHT, 1, text);
    let check = run("", UPRIGHT).text();
    assert!(check.contains("\n  2.000 m from a/0/-1 to b/0/-1, at 10.00, 1.00\n"), "{check}");
    let json = run("--json", UPRIGHT).text();
    let places = "\"width\":2,\"bits\":\"40000000\",\"x\":10,\"y\":1,\
                  \"exit\":{\"end\":\"end\",\"u\":0.375,\"metres\":3,\"x\":10,\"y\":1},\
                  \"entry\":{\"end\":\"start\",\"v\":0.25,\"metres\":1,\"x\":12,\"y\":1}}]";
    assert!(json.contains(places), "{json}");
}

/// The exit of a slants from 0, 0 by 3 and -4, so it is 5 m long. Lane b begins as a point, 2.5 m off the exit's middle.
const SLANTED: &str = "road a to road b start sections 0\nroad b from road a end sections 0\n\
    lane 1 a 0 -1 forward next -1\nedges -9 0 0 -6 -4 0 0 0 0 3 -4 0\n\
    lane 2 b 0 -1 forward back -1\nedges 3.5 -0.5 0 3.5 -0.5 0 30 0 0 30 -4 0\n";

#[test]
fn metres_count_along_the_edge() {
    let text = "a/0/-1 to b/0/-1: 2.500000 m (bits 40200000)\n\
                \x20 a/0/-1 at its end, 2.500 m from the first point: x 1.500 m, y -2.000 m\n\
                \x20 b/0/-1 at its start, 0.000 m from the first point: x 3.500 m, y -0.500 m\n\
                gaps: 1 gap in 1 link\n";
    prints("gaps", SLANTED, 1, text);
}

/// Traffic runs from the end of a to its start and on into the end of b, which lies 2 m to the west and 1 m to the south.
const BACKWARD: &str = "road a from road b end sections 0\nroad b to road a start sections 0\n\
    lane 1 a 0 1 backward back 1\nedges 0 4 0 0 0 0 10 4 0 10 0 0\n\
    lane 2 b 0 1 backward next 1\nedges -20 4 0 -20 0 0 -2 3 0 -2 -1 0\n";

#[test]
fn a_backward_lane_is_left_at_its_start() {
    let text = "a/0/1 to b/0/1: 2.000000 m (bits 40000000)\n\
                \x20 a/0/1 at its start, 1.000 m from the first point: x 0.000 m, y 3.000 m\n\
                \x20 b/0/1 at its end, 0.000 m from the first point: x -2.000 m, y 3.000 m\n\
                gaps: 1 gap in 1 link\n";
    prints("gaps", BACKWARD, 1, text);
}

/// Lane a runs both ways and b begins 1 m before its start: of its two exits the second is nearer. Lane b runs both ways too, so it
/// leads back, and there the second entry is nearer.
#[test]
fn a_two_way_lane_has_the_place_at_its_nearer_end() {
    let map = "road a from road b start sections 0\nroad b from road a start sections 0\n\
               lane 1 a 0 -1 both back -1\nedges 0 0 0 0 -4 0 10 0 0 10 -4 0\n\
               lane 2 b 0 -1 forward back -1\nedges -1 -1 0 -1 -5 0 -9 -1 0 -9 -5 0\n";
    let there = "a/0/-1 to b/0/-1: 1.000000 m (bits 3f800000)\n\
                 \x20 a/0/-1 at its start, 1.000 m from the first point: x 0.000 m, y -1.000 m\n\
                 \x20 b/0/-1 at its start, 0.000 m from the first point: x -1.000 m, y -1.000 m\n";
    prints("gaps", map, 1, &format!("{there}gaps: 1 gap in 1 link\n"));
    let back = "b/0/-1 to a/0/-1: 1.000000 m (bits 3f800000)\n\
                \x20 b/0/-1 at its start, 0.000 m from the first point: x -1.000 m, y -1.000 m\n\
                \x20 a/0/-1 at its start, 1.000 m from the first point: x 0.000 m, y -1.000 m\n";
    prints("gaps", &map.replace("forward", "both"), 1, &format!("{there}{back}gaps: 2 gaps in 2 links\n"));
}

/// Road a leads to road b; the lanes run as said, and have these edges.
fn pair(ways: [&str; 2], edges: [&str; 2]) -> String {
    format!(
        "road a to road b start sections 0\nroad b from road a end sections 0\n\
         lane 1 a 0 -1 {} next -1\nedges {}\nlane 2 b 0 -1 {} back -1\nedges {}\n",
        ways[0], edges[0], ways[1], edges[1]
    )
}

/// Maps with two-way lanes of which several pairs of ends are equally near, and what is said of their gaps.
fn ties() -> Vec<(String, &'static str)> {
    vec![
        // b begins as a point, a metre off both ends of a: u is 0.25 at its start and 0.5 at its end
        (
            pair(["both", "forward"], ["-1 -1 0 -1 3 0 1 -2 0 1 2 0", "0 0 0 0 0 0 0 30 0 4 30 0"]),
            "a/0/-1 to b/0/-1: 1.000000 m (bits 3f800000)\n\
             \x20 a/0/-1 at its start, 1.000 m from the first point: x -1.000 m, y 0.000 m\n\
             \x20 b/0/-1 at its start, 0.000 m from the first point: x 0.000 m, y 0.000 m\n\
             gaps: 1 gap in 1 link\n",
        ),
        // b starts and ends a metre behind the end of a, beside either half of it: u is 0 at its start
        (
            pair(["forward", "both"], ["0 0 0 0 -4 0 10 0 0 10 -4 0", "11 0 0 11 -2 0 11 -2 0 11 -4 0"]),
            "a/0/-1 to b/0/-1: 1.000000 m (bits 3f800000)\n\
             \x20 a/0/-1 at its end, 0.000 m from the first point: x 10.000 m, y 0.000 m\n\
             \x20 b/0/-1 at its start, 0.000 m from the first point: x 11.000 m, y 0.000 m\n\
             gaps: 1 gap in 1 link\n",
        ),
        // the end of a stands upright, its middle between the two ends of b: u is 0.5 at both, so v decides
        (
            pair(["forward", "both"], ["0 -9 0 4 -9 0 0 0 -2 0 0 2", "1 -1 0 1 3 0 -1 -2 0 -1 2 0"]),
            "a/0/-1 to b/0/-1: 1.000000 m (bits 3f800000)\n\
             \x20 a/0/-1 at its end, 2.000 m from the first point: x 0.000 m, y 0.000 m\n\
             \x20 b/0/-1 at its start, 1.000 m from the first point: x 1.000 m, y 0.000 m\n\
             gaps: 1 gap in 1 link\n",
        ),
        // 5 m off the start of b, u is -0 at the end of a and 0 at its start, a point: so v decides, 0.5 or 0.25
        (
            pair(["both", "forward"], ["1 5 0 1 5 0 0 3 -4 0 -1 -7", "2 0 0 -2 0 0 0 30 0 4 30 0"]),
            "a/0/-1 to b/0/-1: 5.000000 m (bits 40a00000)\n\
             \x20 a/0/-1 at its start, 0.000 m from the first point: x 1.000 m, y 5.000 m\n\
             \x20 b/0/-1 at its start, 1.000 m from the first point: x 1.000 m, y 0.000 m\n\
             gaps: 1 gap in 1 link\n",
        ),
        // 5 m off the start of b, a point, u is 0 at the end of a and -0 at its start, v is 0: the smaller x counts
        (
            pair(["both", "forward"], ["-5 0 0 -5 4 0 3 4 0 6 8 0", "0 0 0 0 0 0 0 30 0 4 30 0"]),
            "a/0/-1 to b/0/-1: 5.000000 m (bits 40a00000)\n\
             \x20 a/0/-1 at its start, 0.000 m from the first point: x -5.000 m, y 0.000 m\n\
             \x20 b/0/-1 at its start, 0.000 m from the first point: x 0.000 m, y 0.000 m\n\
             gaps: 1 gap in 1 link\n",
        ),
        // a is symmetric about the start of b, a point: u and v are equal, so the smaller x of the exit counts
        (
            pair(["both", "forward"], ["-1 -2 0 -1 2 0 1 -2 0 1 2 0", "0 0 0 0 0 0 0 30 0 4 30 0"]),
            "a/0/-1 to b/0/-1: 1.000000 m (bits 3f800000)\n\
             \x20 a/0/-1 at its start, 2.000 m from the first point: x -1.000 m, y 0.000 m\n\
             \x20 b/0/-1 at its start, 0.000 m from the first point: x 0.000 m, y 0.000 m\n\
             gaps: 1 gap in 1 link\n",
        ),
        // a ring with a metre between its two roads on either side, alike
        (
            "road a from road b end to road b start sections 0\nroad b from road a end to road a start sections 0\n\
             lane 1 a 0 -1 both next -1\nedges 0 0 0 0 -4 0 10 0 0 10 -4 0\n\
             lane 2 b 0 -1 both next -1\nedges 11 0 0 11 -4 0 -1 0 0 -1 -4 0\n"
                .to_string(),
            "a/0/-1 to b/0/-1: 1.000000 m (bits 3f800000)\n\
             \x20 a/0/-1 at its start, 0.000 m from the first point: x 0.000 m, y 0.000 m\n\
             \x20 b/0/-1 at its end, 0.000 m from the first point: x -1.000 m, y 0.000 m\n\
             b/0/-1 to a/0/-1: 1.000000 m (bits 3f800000)\n\
             \x20 b/0/-1 at its end, 0.000 m from the first point: x -1.000 m, y 0.000 m\n\
             \x20 a/0/-1 at its start, 0.000 m from the first point: x 0.000 m, y 0.000 m\n\
             gaps: 2 gaps in 2 links\n",
        ),
    ]
}

/// Of several pairs of ends that are equally near the smallest u counts, then the smallest v, and where these are equal
/// too the smallest x and y.
#[test]
fn equally_near_ends() {
    for (map, text) in ties() {
        prints("gaps", &map, 1, text);
    }
    // the summary, JSON and the picture have the same places: of the symmetric lane, that with the smaller x
    let symmetric = &ties()[5].0;
    assert!(run("", symmetric).text().contains("\n  1.000 m from a/0/-1 to b/0/-1, at -1.00, 0.00\n"));
    let exit = "\"exit\":{\"end\":\"start\",\"u\":0.5,\"metres\":2,\"x\":-1,\"y\":0}";
    assert!(run("--json", symmetric).text().contains(exit));
    assert!(run("draw", symmetric).text().contains("; from its start, 2.000 m from the first point; to its start, "));
    // where a comment above says -0, it is
    let beside = |edge: [f32; 6], entry: [f32; 6]| vorzhyket::distance(&edge, &entry).u.to_bits();
    assert_eq!(beside([0., 3., -4., 0., -1., -7.], [2., 0., 0., -2., 0., 0.]), (-0f32).to_bits());
    assert_eq!(beside([-5., 0., 0., -5., 4., 0.], [0.; 6]), (-0f32).to_bits());
    assert_eq!(beside([3., 4., 0., 6., 8., 0.], [0.; 6]), 0f32.to_bits());
}

#[test]
fn an_infinite_gap_has_no_place() {
    // no number; and a number whose square is none
    for x in ["nan", "inf", "x7149f2ca"] {
        let map = UPRIGHT.replace("edges 12 1 -1 12 1 3", &format!("edges {x} 1 -1 {x} 1 3"));
        let text = "a/0/-1 to b/0/-1: no distance (bits 7f800000)\n\
                    \x20 no place: coordinates are no numbers, or too large\n\
                    gaps: 1 gap in 1 link\n";
        prints("gaps", &map, 1, text);
        let check = run("", &map).text();
        assert!(check.contains("\n  no distance from a/0/-1 to b/0/-1, no place\n"), "{check}");
        let json = run("--json", &map).text();
        assert!(json.contains("\"width\":null,\"bits\":\"7f800000\",\"x\":null,\"y\":null,\"exit\":null,\"entry\":null}]"), "{json}");
    }
}

/// Two roads to the east with a lane on either side, 3 m wide. The second starts 0.5 m farther east and 1 m to the north, so that
/// where traffic runs east it is entered 1 m from its left border, and where traffic runs west it is left there.
fn file(x: f64, y: f64) -> String {
    let lane = |number: i32, link: &str| {
        let link = format!("<link><{link} id=\"{number}\"/></link>");
        format!("<lane id=\"{number}\" type=\"driving\">{link}<width sOffset=\"0\" a=\"3\"/></lane>")
    };
    let road = |id: u32, x: f64, y: f64, link: &str, other: u32, at: &str| {
        format!(
            "<road id=\"{id}\" length=\"10\"><link><{link} elementType=\"road\" elementId=\"{other}\" contactPoint=\"{at}\"/></link>\
             <planView><geometry s=\"0\" x=\"{x}\" y=\"{y}\" hdg=\"0\" length=\"10\"><line/></geometry></planView>\
             <lanes><laneSection s=\"0\"><left>{}</left><right>{}</right></laneSection></lanes></road>",
            lane(1, link),
            lane(-1, link)
        )
    };
    format!("<OpenDRIVE>{}{}</OpenDRIVE>", road(1, x, y, "successor", 2, "start"), road(2, x + 10.5, y + 1.0, "predecessor", 1, "end"))
}

#[test]
fn of_open_drive_metres_count_from_the_left_border() {
    let text = "1/0/-1 to 2/0/-1: 0.500000 m (bits 3f000000)\n\
                \x20 1/0/-1 at its end, 0.000 m from the left border: x 10.000 m, y 0.000 m\n\
                \x20 2/0/-1 at its start, 1.000 m from the left border: x 10.500 m, y 0.000 m\n\
                2/0/1 to 1/0/1: 0.500000 m (bits 3f000000)\n\
                \x20 2/0/1 at its start, 1.000 m from the left border: x 10.500 m, y 3.000 m\n\
                \x20 1/0/1 at its end, 0.000 m from the left border: x 10.000 m, y 3.000 m\n\
                gaps: 2 gaps in 2 links; left is as the reference line runs\n";
    prints("gaps", &file(0.0, 0.0), 1, text);
    // far from the origin edges count from the middle of the map, and places from 0, 0
    let far = text.replace("x 10.", "x 390010.").replace("y 0.000", "y 5820000.000").replace("y 3.000", "y 5820003.000");
    prints("gaps", &file(390_000.0, 5_820_000.0), 1, &far);
    let check = run("", &file(390_000.0, 5_820_000.0)).text();
    assert!(check.contains("\n  0.500 m from 1/0/-1 to 2/0/-1, at 390010.00, 5820000.00\n"), "{check}");
    let draw = run("draw", &file(390_000.0, 5_820_000.0)).text();
    let title = "<title>1/0/-1 to 2/0/-1: 0.50 m; from its end, 0.000 m from the left border; to its start, 1.000 m from the left border</title>";
    assert!(draw.contains(title), "{draw}");
    // without gaps there is nothing to say of left
    let met = file(0.0, 0.0).replace("x=\"10.5\" y=\"1\"", "x=\"10\" y=\"0\"");
    prints("gaps", &met, 0, "gaps: 0 gaps in 2 links\n");
}

/// The lines of places: each lane's road, its end, and the rest.
fn places(text: &str) -> Vec<[String; 3]> {
    let lines = text.lines().filter_map(|l| l.strip_prefix("  "));
    let part = |l: &str| {
        let (lane, place) = l.split_once(" at its ").unwrap_or_default();
        let (end, rest) = place.split_once(", ").unwrap_or_default();
        [lane.split('/').next().unwrap_or_default(), end, rest].map(str::to_string)
    };
    lines.map(part).collect()
}

/// Reversal of roads turns start into end there, and leaves metres, x and y; also where ends are equally near.
#[test]
fn reversal_leaves_the_places() {
    let tied = ties().into_iter().map(|(map, _)| map);
    for map in [UPRIGHT, SLANTED, BACKWARD].map(String::from).into_iter().chain(tied) {
        let before = places(&run("gaps", &map).text());
        assert!(before.len() >= 2);
        for roads in ["a", "b", "a b"] {
            let other = |end: &str| if end == "end" { "start" } else { "end" }.to_string();
            let turned = |place: &[String; 3]| match place.clone() {
                [name, end, rest] if roads.contains(&name) => [name, other(&end), rest],
                place => place,
            };
            let after = places(&run("gaps", &run(&format!("reverse - {roads}"), &map).text()).text());
            assert_eq!(after, before.iter().map(turned).collect::<Vec<_>>(), "{roads} reversed\n{map}");
        }
    }
    let town = run(&format!("form {}", examples().join("town.xodr").display()), "").text();
    let (before, after) = (places(&run("gaps", &town).text()), places(&run("gaps", &run("reverse --all", &town).text()).text()));
    assert_eq!((before.len(), after.len()), (22, 22));
    for ([road, end, rest], after) in before.into_iter().zip(after) {
        let other = if end == "end" { "start" } else { "end" };
        assert_eq!(after, [road, other.to_string(), rest]);
    }
}
