//! Lines as path data: coordinates in hundredths, as few points as show the same line.
use super::shape::{along, distance, Point};

/// The data of a path.
#[derive(Default)]
pub struct Trace {
    pub data: String,
    last: [i64; 2],
}

impl Trace {
    /// Begins a line at p.
    pub fn start(&mut self, p: Point) {
        self.last = hundredths(p);
        self.data.push('M');
        pair(&mut self.data, self.last);
    }

    /// Goes on to p; a point that rounds to the one before is left out.
    pub fn go(&mut self, p: Point) {
        let q = hundredths(p);
        let step = [q[0].saturating_sub(self.last[0]), q[1].saturating_sub(self.last[1])];
        if step != [0, 0] {
            self.data.push('l');
            pair(&mut self.data, step);
            self.last = q;
        }
    }

    pub fn close(&mut self) {
        self.data.push('z');
    }

    pub fn line(&mut self, points: &[Point]) {
        for (i, &p) in points.iter().enumerate() {
            if i == 0 {
                self.start(p)
            } else {
                self.go(p)
            }
        }
    }

    /// An area between two borders. All areas turn the same way, so that areas that overlap leave no hole.
    pub fn area(&mut self, left: &[Point], right: &[Point]) {
        let mut ring: Vec<Point> = left.iter().chain(right.iter().rev()).copied().collect();
        if turn(&ring) < 0.0 {
            ring.reverse();
        }
        self.line(&ring);
        self.close();
    }

    /// A full circle.
    pub fn circle(&mut self, [x, y]: Point, r: f64) {
        self.start([x - r, y]);
        for across in [2.0 * r, -2.0 * r] {
            self.data.push('a');
            pair(&mut self.data, hundredths([r, r]));
            self.data.push_str(" 0 1 0 ");
            pair(&mut self.data, hundredths([across, 0.0]));
        }
    }
}

/// Twice the area of a ring, with its sign.
fn turn(ring: &[Point]) -> f64 {
    let next = ring.iter().skip(1).chain(ring.first());
    ring.iter().zip(next).map(|(p, q)| p[0] * q[1] - p[1] * q[0]).sum()
}

fn hundredths(p: Point) -> [i64; 2] {
    p.map(|c| (c * 100.0).round() as i64)
}

/// Two coordinates; a minus sign parts them as well as a blank does.
fn pair(out: &mut String, p: [i64; 2]) {
    decimal(out, p[0]);
    if p[1] >= 0 {
        out.push(' ');
    }
    decimal(out, p[1]);
}

/// Hundredths as a decimal without needless noughts.
pub fn decimal(out: &mut String, hundredths: i64) {
    if hundredths < 0 {
        out.push('-');
    }
    let (whole, rest) = (hundredths.unsigned_abs() / 100, (hundredths.unsigned_abs() % 100) as u8);
    if whole > 0 || rest == 0 {
        out.push_str(&whole.to_string());
    }
    if rest > 0 {
        out.push('.');
        out.push((b'0' + rest / 10) as char);
        if rest % 10 > 0 {
            out.push((b'0' + rest % 10) as char);
        }
    }
}

/// A length or coordinate of the drawing as text.
pub fn text(x: f64) -> String {
    let mut out = String::new();
    decimal(&mut out, (x * 100.0).round() as i64);
    out
}

/// The directions from a point in which a line passes others closely enough: `least` to `most`, counted from `base`;
/// and how far the farthest of these lies.
struct Sector {
    base: f64,
    least: f64,
    most: f64,
    reach: f64,
}

/// A line with fewer points that passes every point left out at the tolerance or nearer, in one walk along it.
pub fn thinned(points: &[Point], tolerance: f64) -> Vec<Point> {
    let (Some(&first), Some(&last)) = (points.first(), points.last()) else { return Vec::new() };
    let (mut kept, mut from, mut before) = (vec![first], first, first);
    let mut sector: Option<Sector> = None;
    for &p in &points[1..] {
        let far = distance([from, p]);
        if sector.as_ref().is_some_and(|s| !s.admits(from, p, far, tolerance)) {
            kept.push(before);
            (from, sector) = (before, None);
        }
        let far = distance([from, p]);
        if far > tolerance {
            sector = Some(Sector::narrowed(sector, from, p, far, tolerance));
        }
        before = p;
    }
    kept.push(last);
    kept
}

impl Sector {
    fn angle(&self, from: Point, p: Point) -> f64 {
        let turn = (p[1] - from[1]).atan2(p[0] - from[0]) - self.base;
        let whole = std::f64::consts::TAU;
        turn - whole * (turn / whole).round()
    }

    fn admits(&self, from: Point, p: Point, far: f64, tolerance: f64) -> bool {
        let angle = self.angle(from, p);
        far >= self.reach - tolerance && self.least <= angle && angle <= self.most
    }

    fn narrowed(old: Option<Sector>, from: Point, p: Point, far: f64, tolerance: f64) -> Sector {
        let half = (tolerance / far).min(1.0).asin();
        match old {
            None => Sector { base: (p[1] - from[1]).atan2(p[0] - from[0]), least: -half, most: half, reach: far },
            Some(s) => {
                let angle = s.angle(from, p);
                Sector { base: s.base, least: s.least.max(angle - half), most: s.most.min(angle + half), reach: s.reach.max(far) }
            }
        }
    }
}

/// A line's length.
pub fn length(line: &[Point]) -> f64 {
    line.windows(2).map(|w| distance([w[0], w[1]])).sum()
}

/// The point that far along a line, and the direction there as a vector of length 1.
pub fn spot(line: &[Point], far: f64) -> Option<(Point, Point)> {
    let mut left = far;
    let mut found = None;
    for w in line.windows(2) {
        let long = distance([w[0], w[1]]);
        if long > 0.0 {
            let part = (left / long).clamp(0.0, 1.0);
            found = Some((along([w[0], w[1]], part), [(w[1][0] - w[0][0]) / long, (w[1][1] - w[0][1]) / long]));
            if left <= long {
                break;
            }
        }
        left -= long;
    }
    found
}

/// A line without its first `by`.
pub fn cut(line: &[Point], by: f64) -> Vec<Point> {
    let mut left = by;
    for (i, w) in line.windows(2).enumerate() {
        let long = distance([w[0], w[1]]);
        if left < long {
            let mut rest = vec![along([w[0], w[1]], left / long)];
            rest.extend(&line[i + 1..]);
            return rest;
        }
        left -= long;
    }
    line.last().map(|&p| vec![p]).unwrap_or_default()
}

#[cfg(test)]
mod tests {
    use super::*;

    /// How far p is from the nearest point of a line.
    fn off(p: Point, line: &[Point]) -> f64 {
        let near = |w: &[Point]| {
            let (d, e) = ([w[1][0] - w[0][0], w[1][1] - w[0][1]], [p[0] - w[0][0], p[1] - w[0][1]]);
            let part = (d[0] * e[0] + d[1] * e[1]) / (d[0] * d[0] + d[1] * d[1]);
            distance([p, along([w[0], w[1]], if part.is_finite() { part.clamp(0.0, 1.0) } else { 0.0 })])
        };
        line.windows(2).map(near).fold(f64::INFINITY, f64::min)
    }

    #[test]
    fn a_thinned_line_stays_near() {
        let circle = |n: usize| (0..=n).map(|i| i as f64 / n as f64 * 6.0).map(|a| [100.0 * a.cos(), 100.0 * a.sin()]).collect::<Vec<_>>();
        let zigzag: Vec<Point> = (0..500).map(|i| [(i as f64 * 0.37).sin() * 3.0 + i as f64 * 0.1, (i * i % 17) as f64 * 0.02]).collect();
        let back = vec![[0.0, 0.0], [10.0, 0.0], [4.0, 0.0], [4.0, 0.01], [4.0, 3.0]];
        for (line, most) in [(circle(2000), 100), (zigzag, 500), (back, 5), (vec![[1.0, 1.0]; 9], 2), (vec![[0.0, 0.0], [9.0, 0.0]], 2)] {
            let few = thinned(&line, 0.1);
            assert!(few.len() <= most, "{} points", few.len());
            assert_eq!((few.first(), few.last()), (line.first(), line.last()));
            for &p in &line {
                assert!(off(p, &few) <= 0.15, "{p:?} is {} off", off(p, &few));
            }
        }
    }

    #[test]
    fn numbers_have_no_needless_noughts() {
        for (n, short) in [(0, "0"), (5, ".05"), (-50, "-.5"), (100, "1"), (-12345, "-123.45"), (1020, "10.2")] {
            let mut out = String::new();
            decimal(&mut out, n);
            assert_eq!(out, short);
        }
        let mut trace = Trace::default();
        trace.line(&[[1.0, 2.0], [1.5, 1.0], [1.501, 1.001], [4.0, 1.0]]);
        assert_eq!(trace.data, "M1 2l.5-1l2.5 0");
    }

    #[test]
    fn areas_turn_the_same_way() {
        let (left, right) = ([[0.0, 0.0], [4.0, 0.0]], [[0.0, 2.0], [4.0, 2.0]]);
        let (mut first, mut second) = (Trace::default(), Trace::default());
        first.area(&left, &right);
        second.area(&right, &left);
        assert_eq!(first.data, "M0 0l4 0l0 2l-4 0z");
        assert_eq!(second.data, "M0 0l4 0l0 2l-4 0z");
    }

    #[test]
    fn lines_are_walked_and_cut() {
        let line = [[0.0, 0.0], [4.0, 0.0], [4.0, 0.0], [4.0, 6.0]];
        assert_eq!(length(&line), 10.0);
        assert_eq!(spot(&line, 6.0), Some(([4.0, 2.0], [0.0, 1.0])));
        assert_eq!(spot(&line, 99.0), Some(([4.0, 6.0], [0.0, 1.0])));
        assert_eq!(spot(&[[1.0, 1.0]; 3], 0.0), None);
        assert_eq!(cut(&line, 6.0), [[4.0, 2.0], [4.0, 6.0]]);
        assert_eq!(cut(&line, 99.0), [[4.0, 6.0]]);
    }
}
