//! A map as a picture: one SVG 1.1 document with no scripts and nothing from elsewhere.
//!
//! Lanes are areas, coloured by direction: their outlines where the file has curves, else the quads of their edges.
//! A fine line runs through each lane from entry to exit and on into the lanes that follow; it ends in a bar where no
//! lane follows or none leads in. A ring marks each gap, where its two edges come closest. Sizes follow the sheet, so
//! that ten lanes and ten thousand are legible; where lanes are about as thin as a line, the fine lines are left out.
mod lanes;
mod legend;
mod marks;
mod scene;
mod shape;
mod trace;
mod words;

use crate::found::Found;
use crate::map::Map;
use crate::way::Way;
use scene::{Scene, HEAD, WIDTH};
use trace::text;

/// Lanes in one path of fine lines.
const CHUNK: usize = 400;

/// The gaps of which each has a mark and a title of its own; of more, one ring stands for all that lie within it.
const MOST_MARKS: usize = 2000;

/// Gaps with their width beside them.
const MOST_LABELS: usize = 40;

/// Lanes thinner than this have no borders and no fine lines, and are drawn wider than they are, in full colour.
const THIN: f64 = 1.5;

/// Writes the document.
pub fn draw(map: &Map, found: &Found, out: &mut Vec<u8>) {
    let tables = &map.tables;
    let sheet = match Scene::of(map, found) {
        Some(scene) => picture(map, found, &scene),
        None if tables.lanes.is_empty() => notice("the map has no lanes"),
        None if !tables.has_edges() => notice("the map has no edges; try `lanes dot`"),
        None => notice("no lane has a place: coordinates are not finite; try `lanes dot`"),
    };
    out.extend_from_slice(sheet.as_bytes());
}

/// A document of one line of text.
fn notice(line: &str) -> String {
    let mut out = head(line, 120.0);
    words::words(&mut out, "h", [32.0, 70.0], line);
    out.push_str("</svg>\n");
    out
}

fn head(title: &str, height: f64) -> String {
    let (wide, high) = (text(WIDTH), text(height));
    format!(
        "<?xml version=\"1.0\" encoding=\"UTF-8\"?>\n\
         <svg xmlns=\"http://www.w3.org/2000/svg\" version=\"1.1\" width=\"{wide}\" height=\"{high}\" viewBox=\"0 0 {wide} {high}\">\n\
         <title>{title}</title>\n<style type=\"text/css\">{STYLE}</style>\n<rect width=\"{wide}\" height=\"{high}\" fill=\"#fff\"/>\n"
    )
}

/// Colours that colour-blind readers tell apart (after Okabe and Ito), and gaps in red-violet with a light rim.
/// Text: h title, n legend, l names, g widths, q remarks, m centred; w its ground. Lanes: f, b, t forward, backward,
/// two-way, and with a j inside a junction, below u with borders or v thin. Fine lines: k, arrow heads a, scale bar r.
/// Gaps: x the line, o the ring, y its rim.
const STYLE: &str = "
text{font-family:'Helvetica Neue',Helvetica,Arial,'Liberation Sans',sans-serif;fill:#1d2733}
.h{font-size:34px;font-weight:bold}.n{font-size:24px}.l{font-size:20px}.g{font-size:22px;font-weight:bold;fill:#a00055}
.q{fill:#5b6673}.m{text-anchor:middle}.w{fill:#fff;fill-opacity:.85}
.u{stroke:#fff;stroke-linejoin:round}.v{stroke-linejoin:round}
.f{fill:#5aa7dc}.b{fill:#f0ab45}.t{fill:#62cdae}.fj{fill:#c3def2}.bj{fill:#fae0b4}.tj{fill:#c9efe2}
.v .f{fill:#0072b2;stroke:#0072b2}.v .b{fill:#e08a00;stroke:#e08a00}.v .t{fill:#1dbf92;stroke:#1dbf92}
.v .fj{fill:#8cc0e4;stroke:#8cc0e4}.v .bj{fill:#f3c880;stroke:#f3c880}.v .tj{fill:#9fdfca;stroke:#9fdfca}
.k{fill:none;stroke:#1d2733;stroke-linejoin:round}.a{fill:#1d2733}.r{fill:none;stroke:#1d2733;stroke-width:3px}
.x{fill:none;stroke:#b0005e;stroke-width:4px}.o{fill:#b0005e;fill-opacity:.07;stroke:#b0005e;stroke-width:4px}
.y{fill:none;stroke:#fff;stroke-opacity:.8;stroke-width:9px}
";

/// The class of a lane's area.
fn class(way: Way, inside: bool) -> &'static str {
    match (way, inside) {
        (Way::Forward, false) => "f",
        (Way::Backward, false) => "b",
        (Way::Both, false) => "t",
        (Way::Forward, true) => "fj",
        (Way::Backward, true) => "bj",
        (Way::Both, true) => "tj",
    }
}

fn picture(map: &Map, found: &Found, scene: &Scene) -> String {
    let linked = scene.wide >= THIN;
    let (title, remarks) = (legend::title(map, found), legend::remarks(map, scene, linked));
    let mut out = head(&title, legend::height(scene, &remarks));
    words::words(&mut out, "h", [32.0, 50.0], &title);
    let ground = format!("<rect y=\"{}\" width=\"{}\" height=\"{}\" fill=\"#f4f5f6\"/>\n", text(HEAD), text(WIDTH), text(scene.height));
    out.push_str(&ground);
    lanes::areas(&mut out, scene);
    if linked {
        lanes::lines(&mut out, scene);
    }
    marks::marks(&mut out, map, scene);
    legend::legend(&mut out, scene, &remarks, linked);
    out.push_str("</svg>\n");
    out
}
