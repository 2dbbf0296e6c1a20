//! A map in the plain text of docs/MAP-FORMAT.md, and what the tool `lanes` has to print of it: written from that document,
//! beside what the original finds.
use crate::original::{closest, GapRow, Lists, Repaired};
use crate::tables::{Tables, ABSENT, CONNECTION, EDGE, JUNCTION, LANE, PAIR, ROAD};

/// A map in one of two spellings: names as they are and edges as bits, or some names so that they need quotation marks,
/// and edges in decimal where 15 digits are enough.
pub struct Form<'a> {
    pub map: &'a Tables,
    pub plain: bool,
}

/// A number and what it counts.
fn counted(n: usize, what: &str) -> String {
    format!("{n} {what}{}", if n == 1 { "" } else { "s" })
}

/// The width of a gap in metres, with so many places after the point: rounded to the nearest, a half up.
fn width(bits: u32, places: u32) -> String {
    if bits == f32::INFINITY.to_bits() {
        return "no distance".into();
    }
    let (mantissa, exponent, tens) = (u128::from(bits & 0x7f_ffff | 0x80_0000), (bits >> 23) as i32 - 150, 10u128.pow(places));
    let scaled = match exponent {
        0.. if exponent > 60 => u128::MAX,
        0.. => mantissa * tens << exponent,
        _ => (mantissa * 2 * tens + (1 << -exponent)) >> (1 - exponent),
    };
    if scaled >= 1_000_000_000 * tens {
        return "1000000000 m or more".into();
    }
    format!("{}.{:0width$} m", scaled / tens, scaled % tens, width = places as usize)
}

/// Metres with so many places after the point; what is huge or no number with an exponent.
fn metres(x: f64, places: usize) -> String {
    if x.abs() < 1e12 {
        let (text, zero) = (format!("{x:.places$}"), format!("{:.places$}", 0.0));
        return if text == format!("-{zero}") { zero } else { text };
    }
    format!("{x:e}")
}

/// A place on an edge: at the lane's end (1) or its start (0), metres along it from its first point, x and y.
struct Place {
    end: usize,
    along: f64,
    at: [f64; 2],
}

/// The ends by which traffic leaves a lane, or comes into it: 1 for its end, 0 for its start.
fn ends(way: u32, leaves: bool) -> Vec<usize> {
    match way {
        2 => vec![1, 0],
        w => vec![usize::from((w == 0) == leaves)],
    }
}

/// The most lines of a summary, and the most rows of a kind.
const SCREEN: usize = 24;
const FEW: usize = 5;

/// A summary: lines with rows under them, of which as many are shown as leave it on a screen; all where asked.
fn summary(kinds: &[(String, Vec<Vec<u8>>)], last: String, all: bool) -> Vec<u8> {
    let lines = |n: usize| 1 + kinds.iter().map(|(_, rows)| 1 + if rows.len() > n { n + 1 } else { rows.len() }).sum::<usize>();
    let few = (1..=FEW).filter(|&n| lines(n) <= SCREEN).max().unwrap_or(1);
    let mut out = Vec::new();
    for (head, rows) in kinds {
        let shown = if all { rows.len() } else { rows.len().min(few) };
        out.extend(format!("{head}\n").bytes());
        rows[..shown].iter().for_each(|r| out.extend([b"  ", &r[..], b"\n"].concat()));
        if shown < rows.len() {
            out.extend(format!("  .. and {} more (--all shows them)\n", rows.len() - shown).bytes());
        }
    }
    out.extend(last.bytes());
    out
}

impl Form<'_> {
    /// A name's bytes.
    pub fn spelled(&self, name: &[u32]) -> Vec<u8> {
        let bytes = self.map.bytes(name[0], name[1]);
        match bytes {
            b"ab" if !self.plain => b"a b".to_vec(),
            b"ba" if !self.plain => b"#ba".to_vec(),
            b"b\"" if !self.plain => b"b\t".to_vec(),
            _ => bytes.to_vec(),
        }
    }

    /// A name as a word.
    fn word(&self, name: &[u32]) -> Vec<u8> {
        let bytes = self.spelled(name);
        let plain = !bytes.is_empty() && bytes[0] != b'#' && bytes[0] != b'"' && !bytes.iter().any(|b| b" \t\r".contains(b));
        if plain {
            return bytes;
        }
        [b"\"", &bytes[..], b"\""].concat()
    }

    fn target(&self, lead: &str, w: &[u32]) -> Vec<u8> {
        if w[0] == 0 {
            return Vec::new();
        }
        let kind = if w[1] == 1 { "junction" } else { "road" };
        let contact = format!(" {}{}{}", if w[4] == 1 { "end" } else { "start" }, if w[5] == 1 { "" } else { "?" }, if w[6] == 1 { " along" } else { "" });
        [format!(" {lead} {kind} ").as_bytes(), &self.word(&w[2..4]), contact.as_bytes()].concat()
    }

    fn road(&self, r: &[u32]) -> Vec<u8> {
        let inside = if r[2..4] == [ABSENT, 0] { Vec::new() } else { [b" inside ", &self.word(&r[2..4])[..]].concat() };
        let own = &self.map.sections[r[18] as usize..(r[18] + r[19]) as usize];
        let sections: String = own.iter().map(|s| format!(" {s}")).collect();
        [b"road ", &self.word(r)[..], &inside, &self.target("from", &r[4..11]), &self.target("to", &r[11..18]), b" sections", sections.as_bytes(), b"\n"]
            .concat()
    }

    fn connection(&self, c: &[u32]) -> Vec<u8> {
        let pairs = &self.map.pairs[PAIR * c[5] as usize..PAIR * (c[5] + c[6]) as usize];
        let lines: String = pairs.chunks(PAIR).map(|p| format!("pair {} {}\n", p[0] as i32, p[1] as i32)).collect();
        let contact = if c[4] == 1 { " end\n" } else { " start\n" };
        [b"connection ", &self.word(c)[..], b" ", &self.word(&c[2..4]), contact.as_bytes(), lines.as_bytes()].concat()
    }

    fn junction(&self, j: &[u32]) -> Vec<u8> {
        let kind = [" common\n", " direct\n", " virtual\n"][j[2] as usize];
        let own = &self.map.connections[CONNECTION * j[3] as usize..CONNECTION * (j[3] + j[4]) as usize];
        let connections: Vec<u8> = own.chunks(CONNECTION).flat_map(|c| self.connection(c)).collect();
        [b"junction ", &self.word(j)[..], kind.as_bytes(), &connections].concat()
    }

    fn lane(&self, l: &[u32], edges: &[f32]) -> Vec<u8> {
        let link = |lead: &str, w: &[u32]| if w[0] == 1 { format!(" {lead} {}", w[1] as i32) } else { String::new() };
        let way = ["forward", "backward", "both"][l[5] as usize];
        let edges: String = edges.iter().map(|&x| format!(" {}", self.number(x))).collect();
        let rest = format!(" {} {} {way}{}{}\nedges{edges}\n", l[3], l[4] as i32, link("next", &l[6..8]), link("back", &l[8..10]));
        [format!("lane {} ", l[0]).as_bytes(), &self.word(&l[1..3]), rest.as_bytes()].concat()
    }

    /// A number of the edges.
    fn number(&self, x: f32) -> String {
        let decimal = x.to_string().to_lowercase();
        if self.plain || decimal.bytes().filter(u8::is_ascii_digit).count() > 15 {
            return format!("x{:08x}", x.to_bits());
        }
        decimal
    }

    /// The whole map.
    pub fn text(&self) -> Vec<u8> {
        let t = self.map;
        let roads = t.roads.chunks(ROAD).flat_map(|r| self.road(r));
        let junctions = t.junctions.chunks(JUNCTION).flat_map(|j| self.junction(j));
        let lanes = t.lanes.chunks(LANE).zip(t.edges.chunks(EDGE)).flat_map(|(l, e)| self.lane(l, e));
        roads.chain(junctions).chain(lanes).collect()
    }

    fn label(&self, l: &[u32]) -> Vec<u8> {
        [&self.word(&l[1..3])[..], format!("/{}/{}", l[3], l[4] as i32).as_bytes()].concat()
    }

    fn rows(&self) -> Vec<&[u32]> {
        self.map.lanes.chunks(LANE).collect()
    }

    fn row(&self, id: u32) -> &[u32] {
        self.map.lanes.chunks(LANE).find(|l| l[0] == id).unwrap()
    }

    /// `lanes repair`, of the original's repair; its names are stand-ins.
    pub fn repair(&self, found: &Repaired) -> Vec<u8> {
        let t = self.map;
        let named = |rows: &[u32], width: usize, name: &str| self.word(rows.chunks(width).find(|r| t.stand_in(r[0], r[1]) == name).unwrap());
        let mut out = Vec::new();
        for (junction, road, end) in &found.warnings {
            let end = if *end == 1 { " at its end\n" } else { " at its start\n" };
            out.extend([b"road ", &named(&t.roads, ROAD, road)[..], b" gets junction ", &named(&t.junctions, JUNCTION, junction), end.as_bytes()].concat());
        }
        let added = found.junctions.iter().map(Vec::len).sum::<usize>() - t.connections.len() / CONNECTION;
        out.extend(format!("repair: {} repaired, {} added\n", counted(found.warnings.len(), "road end"), counted(added, "connection")).bytes());
        out
    }

    /// `lanes links`.
    pub fn links(&self, lists: &Lists) -> Vec<u8> {
        let list =
            |ids: &[u32]| if ids.is_empty() { b" none".to_vec() } else { ids.iter().flat_map(|&i| [b" ", &self.label(self.row(i))[..]].concat()).collect() };
        let lanes = self.rows().into_iter().zip(lists.successors.iter().zip(&lists.predecessors));
        lanes.flat_map(|(l, (s, p))| [&self.label(l)[..], b" onward:", &list(s), b"; before:", &list(p), b"\n"].concat()).collect()
    }

    /// `lanes gaps`.
    pub fn gaps(&self, lists: &Lists, gaps: &[GapRow]) -> Vec<u8> {
        let rows = self.rows();
        let line = |g: &GapRow| {
            let labels = [0, 1].map(|k| self.label(rows[g[k] as usize]));
            let mut out = [&labels[0][..], b" to ", &labels[1], format!(": {} (bits {:08x})\n", width(g[2], 6), g[2]).as_bytes()].concat();
            let Some(places) = self.places(g) else {
                out.extend(b"  no place: coordinates are no numbers, or too large\n");
                return out;
            };
            for (label, Place { end, along, at }) in labels.iter().zip(places) {
                let (end, [x, y]) = (["start", "end"][end], at.map(|c| metres(c, 3)));
                let place = format!(" at its {end}, {} m from the first point: x {x} m, y {y} m\n", metres(along, 3));
                out.extend([b"  ", &label[..], place.as_bytes()].concat());
            }
            out
        };
        let links = lists.successors.iter().map(Vec::len).sum();
        let sum = format!("gaps: {} in {}\n", counted(gaps.len(), "gap"), counted(links, "link"));
        gaps.iter().flat_map(line).chain(sum.bytes()).collect()
    }

    /// `lanes dot`.
    pub fn dot(&self, lists: &Lists) -> Vec<u8> {
        let mut out = b"digraph lanes {\n  rankdir=LR;\n  node [shape=box];\n".to_vec();
        for l in self.rows() {
            let name = self.spelled(&l[1..3]).into_iter().flat_map(|b| if b == b'"' || b == b'\\' { vec![b'\\', b] } else { vec![b] });
            out.extend(format!("  {} [label=\"", l[0]).bytes().chain(name).chain(format!("/{}/{}\"];\n", l[3], l[4] as i32).bytes()));
        }
        let rows = self.rows();
        for (l, ids) in rows.iter().zip(&lists.successors) {
            for id in ids {
                let other = rows.iter().position(|r| r[0] == *id).unwrap();
                let both = lists.successors[other].contains(&l[0]);
                if !both || *id >= l[0] {
                    out.extend(format!("  {} -> {id}{};\n", l[0], if both && *id != l[0] { " [dir=both]" } else { "" }).bytes());
                }
            }
        }
        out.extend(b"}\n");
        out
    }

    /// The rows of a text of which the last line sums up, and that line.
    fn rows_and_sum(text: &[u8]) -> (Vec<Vec<u8>>, String) {
        let mut rows: Vec<Vec<u8>> = text.strip_suffix(b"\n").unwrap().split(|&b| b == b'\n').map(<[u8]>::to_vec).collect();
        let sum = String::from_utf8(rows.pop().unwrap()).unwrap();
        (rows, sum)
    }

    /// Where the exit and the entry of a gap come closest; none where it is infinite. Of several pairs of ends that are
    /// as far apart at the row's places it is the one of which the exit's x is smallest, then its y, then the entry's x
    /// and y; then the coordinates of the exit's edge, and of the entry's.
    fn places(&self, g: &GapRow) -> Option<[Place; 2]> {
        let across = |row: u32, end: usize| -> [f32; 6] { self.map.edges[row as usize * EDGE + 6 * end..][..6].try_into().unwrap() };
        let way = |row: u32| self.map.lanes[row as usize * LANE + 5];
        if g[2] == f32::INFINITY.to_bits() {
            return None;
        }
        let place = |k: usize, end: usize| {
            let (p, part) = (across(g[k], end).map(f64::from), f64::from(f32::from_bits(g[3 + k])));
            let [dx, dy, dz] = [p[3] - p[0], p[4] - p[1], p[5] - p[2]];
            Place { end, along: part * (dx * dx + dy * dy + dz * dz).sqrt(), at: [p[0] + part * dx, p[1] + part * dy] }
        };
        let entries = ends(way(g[1]), false);
        let pairs = ends(way(g[0]), true).into_iter().flat_map(|exit| entries.iter().map(move |&entry| [exit, entry]));
        let near = |&[exit, entry]: &[usize; 2]| closest(&across(g[0], exit), &across(g[1], entry)).map(|x| (x + 0.0).to_bits()) == g[2..];
        let key = |[exit, entry]: [usize; 2]| (place(0, exit).at, place(1, entry).at, across(g[0], exit), across(g[1], entry));
        let [exit, entry] = pairs.filter(near).min_by(|&a, &b| key(a).partial_cmp(&key(b)).unwrap()).expect("a pair of ends as the row says");
        Some([place(0, exit), place(1, entry)])
    }

    /// The gaps as `check` shows them, widest first, with the place on the exit.
    fn wide_gaps(&self, gaps: &[GapRow]) -> Vec<Vec<u8>> {
        let (rows, mut gaps) = (self.rows(), gaps.to_vec());
        gaps.sort_by(|a, b| f32::from_bits(b[2]).total_cmp(&f32::from_bits(a[2])));
        let row = |g: &GapRow| {
            let at = self.places(g).map_or(", no place".into(), |[exit, _]| format!(", at {}, {}", metres(exit.at[0], 2), metres(exit.at[1], 2)));
            let (from, to) = (self.label(rows[g[0] as usize]), self.label(rows[g[1] as usize]));
            [format!("{} from ", width(g[2], 3)).as_bytes(), &from, b" to ", &to, at.as_bytes()].concat()
        };
        gaps.iter().map(row).collect()
    }

    /// The lanes inside a junction that can be entered and not left (true), or left and not entered; but for those
    /// whose link at that end the original's repair took away.
    fn lost(&self, found: &Repaired, lists: &Lists) -> Vec<(bool, Vec<u8>)> {
        let t = self.map;
        let mut out = Vec::new();
        for (l, (onward, before)) in self.rows().into_iter().zip(lists.successors.iter().zip(&lists.predecessors)) {
            let row = t.roads.chunks(ROAD).position(|r| t.bytes(r[0], r[1]) == t.bytes(l[1], l[2])).unwrap();
            let road = &t.roads[row * ROAD..][..ROAD];
            if road[2..4] == [ABSENT, 0] || onward.is_empty() == before.is_empty() {
                continue;
            }
            let own = &t.sections[road[18] as usize..(road[18] + road[19]) as usize];
            let (_, from, to) = &found.roads[row];
            let taken = [road[4] == 1 && from.is_none() && own[0] == l[3], road[11] == 1 && to.is_none() && own[own.len() - 1] == l[3]];
            if ends(l[5], onward.is_empty()).iter().any(|&end| taken[end]) {
                continue;
            }
            let what = if onward.is_empty() { " can be entered and not left" } else { " can be left and not entered" };
            out.push((onward.is_empty(), [&self.label(l)[..], b" in junction ", &self.word(&road[2..4]), what.as_bytes()].concat()));
        }
        out
    }

    /// `lanes check`, and with `--all`.
    pub fn check(&self, found: &Repaired, lists: &Lists, gaps: &[GapRow], all: bool) -> Vec<u8> {
        let t = self.map;
        let sizes = [
            (t.roads.len() / ROAD, "road"),
            (t.sections.len(), "section"),
            (t.junctions.len() / JUNCTION, "junction"),
            (t.connections.len() / CONNECTION, "connection"),
            (t.pairs.len() / PAIR, "pair"),
            (t.lanes.len() / LANE, "lane"),
        ];
        let sizes: Vec<String> = sizes.iter().map(|&(n, what)| counted(n, what)).collect();
        let (repairs, repaired) = Self::rows_and_sum(&self.repair(found));
        let links: usize = lists.successors.iter().map(Vec::len).sum();
        let both = self.rows().into_iter().zip(&lists.successors).filter(|(l, _)| l[5] == 2).flat_map(|(_, ids)| ids).filter(|&&i| self.row(i)[5] == 2).count();
        let none = |lists: &[Vec<u32>]| counted(lists.iter().filter(|l| l.is_empty()).count(), "lane");
        let linked = format!(
            "links: {}, {}; {} with none onward, {} with none before",
            counted(links, "link"),
            counted(both, "two-way link"),
            none(&lists.successors),
            none(&lists.predecessors)
        );
        let listed = if all { self.rows_of_links(lists) } else { Vec::new() };
        let wide = format!("gaps: {} in {}{}", counted(gaps.len(), "gap"), counted(links, "link"), if gaps.len() > 1 { ", the widest first" } else { "" });
        let lost = self.lost(found, lists);
        let entered = lost.iter().filter(|l| l.0).count();
        let movements = match lost.len() {
            0 => "movements: none lost".into(),
            n => format!("movements: {} inside a junction can be entered and not left, {} left and not entered", counted(entered, "lane"), n - entered),
        };
        let kinds = [(gaps.len(), "gap", ""), (lost.len(), "lost movement", ""), (found.warnings.len(), "road end", " repaired")];
        let mut findings: Vec<String> = kinds.iter().filter(|k| k.0 > 0).map(|k| counted(k.0, k.1) + k.2).collect();
        if t.lanes.is_empty() {
            findings.insert(0, "no lanes".into());
        }
        if findings.is_empty() {
            findings.push("nothing".into());
        }
        let kinds = [
            (format!("map: {}", sizes.join(", ")), Vec::new()),
            (repaired, repairs),
            (linked, listed),
            (wide, self.wide_gaps(gaps)),
            (movements, lost.into_iter().map(|l| l.1).collect()),
        ];
        summary(&kinds, format!("found: {}\n", findings.join(", ")), all)
    }

    /// The lines of `lanes links`.
    fn rows_of_links(&self, lists: &Lists) -> Vec<Vec<u8>> {
        let text = self.links(lists);
        text.split_inclusive(|&b| b == b'\n').map(|l| l[..l.len() - 1].to_vec()).collect()
    }
}

/// Is the text, line by line, the one that is expected, where the numbers of edges may be spelled in another way?
pub fn same_text(found: &[u8], expected: &[u8]) -> bool {
    let (a, b): (Vec<&[u8]>, Vec<&[u8]>) = (found.split(|&c| c == b'\n').collect(), expected.split(|&c| c == b'\n').collect());
    a.len() == b.len() && a.iter().zip(&b).all(|(a, b)| a == b || matches!((edges(a), edges(b)), (Some(x), Some(y)) if x == y))
}

/// The bits of a line of edges; of each NaN the same.
fn edges(line: &[u8]) -> Option<Vec<u32>> {
    let words = std::str::from_utf8(line).ok()?.strip_prefix("edges ")?;
    let number = |w: &str| {
        let x = match w.strip_prefix('x') {
            Some(hex) => f32::from_bits(u32::from_str_radix(hex, 16).ok()?),
            None => w.parse().ok()?,
        };
        Some(if x.is_nan() { f32::NAN.to_bits() } else { x.to_bits() })
    };
    words.split(' ').map(number).collect()
}
