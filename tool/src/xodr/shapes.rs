//! The shapes of a reference line's pieces, each from its own start: u metres ahead, v to the left, the turn so far.
use super::profile::{derivative, polynomial, SAME_STATION};
use std::cell::{Ref, RefCell};

/// Places and weights of Gauss' rule with four points, on -1 to 1.
const GAUSS: [[f64; 2]; 4] = [
    [-0.8611363115940526, 0.3478548451374538],
    [-0.3399810435848563, 0.6521451548625461],
    [0.3399810435848563, 0.6521451548625461],
    [0.8611363115940526, 0.3478548451374538],
];

/// Steps of a spiral: a metre each on one of up to 4,096 m.
const MOST_SPIRAL_STEPS: usize = 4096;
/// Steps of a polynomial: a quarter of a metre each on one of up to 4,096 m.
const MOST_CURVE_STEPS: usize = 16384;
/// Arcs of a smaller curvature are straight.
const STRAIGHT: f64 = 1e-9;
/// A polynomial is at its end this far before its length, in metres.
const AT_ITS_END: f64 = 1e-6;

/// Where a shape is, and how far it has turned.
#[derive(Clone, Copy, Debug, Default)]
pub struct Place {
    pub u: f64,
    pub v: f64,
    pub turn: f64,
}

#[derive(Debug)]
pub enum Shape {
    /// Of no length: its start.
    Point,
    Line,
    Arc(f64),
    Spiral(Spiral),
    Curve(Curve),
}

impl Shape {
    /// Where it is ds metres into it.
    pub fn place(&self, ds: f64) -> Place {
        match self {
            Shape::Point => Place::default(),
            Shape::Arc(k) if k.abs() >= STRAIGHT => Place { u: (k * ds).sin() / k, v: (1.0 - (k * ds).cos()) / k, turn: k * ds },
            Shape::Line | Shape::Arc(_) => Place { u: ds, v: 0.0, turn: 0.0 },
            Shape::Spiral(spiral) => spiral.place(ds),
            Shape::Curve(curve) => curve.place(ds),
        }
    }

    /// Whether a table was made of it.
    pub fn has_table(&self) -> bool {
        match self {
            Shape::Spiral(spiral) => !spiral.steps.borrow().is_empty(),
            Shape::Curve(curve) => !curve.lengths.borrow().is_empty(),
            _ => false,
        }
    }

    /// Drops the table; it is made again where it is needed.
    pub fn drop_table(&self) {
        match self {
            Shape::Spiral(spiral) => drop(spiral.steps.take()),
            Shape::Curve(curve) => drop(curve.lengths.take()),
            _ => {}
        }
    }
}

/// A table that is made when it is first asked for: empty until then.
type Table<T> = RefCell<Vec<T>>;

fn table<T>(table: &Table<T>, make: impl FnOnce() -> Vec<T>) -> Ref<'_, Vec<T>> {
    if table.borrow().is_empty() {
        table.replace(make());
    }
    table.borrow()
}

/// A clothoid: its curvature at the start, how much that grows with each metre, and its length, above 0.
#[derive(Debug)]
pub struct Spiral {
    curvature: f64,
    rate: f64,
    length: f64,
    /// u and v at each step.
    steps: Table<[f64; 2]>,
}

impl Spiral {
    pub fn new(first: f64, last: f64, length: f64) -> Self {
        Spiral { curvature: first, rate: (last - first) / length, length, steps: Table::default() }
    }

    fn turn(&self, d: f64) -> f64 {
        self.curvature * d + self.rate * d * d / 2.0
    }

    /// How far it gets from one place to another.
    fn reach(&self, from: f64, to: f64) -> [f64; 2] {
        let half = (to - from) / 2.0;
        GAUSS.iter().fold([0.0; 2], |[u, v], [node, weight]| {
            let (sin, cos) = self.turn(from + half * (1.0 + node)).sin_cos();
            [u + weight * half * cos, v + weight * half * sin]
        })
    }

    fn steps(&self) -> Ref<'_, Vec<[f64; 2]>> {
        table(&self.steps, || {
            let n = (self.length.ceil() as usize).clamp(4, MOST_SPIRAL_STEPS);
            let step = self.length / n as f64;
            let (mut at, mut places) = ([0.0; 2], vec![[0.0; 2]]);
            for i in 0..n {
                let [u, v] = self.reach(i as f64 * step, (i + 1) as f64 * step);
                at = [at[0] + u, at[1] + v];
                places.push(at);
            }
            places
        })
    }

    fn place(&self, ds: f64) -> Place {
        let ds = ds.max(0.0).min(self.length);
        let steps = self.steps();
        let n = steps.len() - 1;
        let step = self.length / n as f64;
        let i = ((ds / step) as usize).min(n);
        let ([u, v], [more_u, more_v]) = (steps[i], self.reach(i as f64 * step, ds));
        Place { u: u + more_u, v: v + more_v, turn: self.turn(ds) }
    }
}

/// What a curve's parameter is.
#[derive(Clone, Copy, Debug, PartialEq)]
enum Parameter {
    /// From 0 to 1, along the curve by its length.
    Normalized,
    /// The metres themselves.
    ArcLength,
    /// u itself, from 0 to the length: the curve then is longer than the geometry, which ends within it.
    Ahead,
}

/// Two cubics in one parameter, u and v.
#[derive(Debug)]
pub struct Curve {
    u: [f64; 4],
    v: [f64; 4],
    length: f64,
    parameter: Parameter,
    /// The curve's length up to each of equal steps of the parameter.
    lengths: Table<f64>,
}

impl Curve {
    pub fn param_poly3(u: [f64; 4], v: [f64; 4], length: f64, by_length: bool) -> Self {
        let parameter = if by_length { Parameter::ArcLength } else { Parameter::Normalized };
        Curve { u, v, length, parameter, lengths: Table::default() }
    }

    pub fn poly3(v: [f64; 4], length: f64) -> Self {
        Curve { u: [0.0, 1.0, 0.0, 0.0], v, length, parameter: Parameter::Ahead, lengths: Table::default() }
    }

    /// The parameter's last value.
    fn end(&self) -> f64 {
        if self.parameter == Parameter::Normalized {
            1.0
        } else {
            self.length
        }
    }

    fn place(&self, ds: f64) -> Place {
        let p = match self.parameter {
            Parameter::Ahead => self.parameter_after(ds.max(0.0).min(self.whole())),
            _ if ds <= SAME_STATION => 0.0,
            _ if ds >= self.length - AT_ITS_END => self.end(),
            Parameter::ArcLength => ds,
            Parameter::Normalized => self.parameter_after(ds / self.length * self.whole()),
        };
        Place { u: polynomial(&self.u, p), v: polynomial(&self.v, p), turn: derivative(&self.v, p).atan2(derivative(&self.u, p)) }
    }

    fn lengths(&self) -> Ref<'_, Vec<f64>> {
        table(&self.lengths, || {
            let n = ((self.length / 0.25).ceil() as usize).clamp(16, MOST_CURVE_STEPS);
            let (step, mut sum, mut lengths) = (self.end() / n as f64, 0.0, vec![0.0]);
            for i in 0..n {
                let speed = |node: f64| {
                    let p = (i as f64 + 0.5 + node / 2.0) * step;
                    derivative(&self.u, p).hypot(derivative(&self.v, p))
                };
                sum += GAUSS.iter().map(|[node, weight]| weight * speed(*node)).sum::<f64>() * step / 2.0;
                lengths.push(sum);
            }
            lengths
        })
    }

    fn whole(&self) -> f64 {
        self.lengths().last().copied().unwrap_or(0.0)
    }

    /// The parameter where the curve is that long: within a step, in proportion.
    fn parameter_after(&self, want: f64) -> f64 {
        let lengths = self.lengths();
        let n = lengths.len() - 1;
        let i = lengths[1..].partition_point(|&l| l < want).min(n - 1);
        let piece = lengths[i + 1] - lengths[i];
        let part = if piece > 0.0 { (want - lengths[i]) / piece } else { 0.0 };
        self.end() * (i as f64 + part) / n as f64
    }
}
