//! Profiles along a road: cubics, each from its start to the start of the next.
use super::document::{number, Element};

/// Stations closer than this, in metres, are the same.
pub const SAME_STATION: f64 = 1e-9;

/// Where a profile jumps at a seam, a stretch that begins there has the value after the jump, one that ends there the
/// value from before it.
#[derive(Clone, Copy, Debug, PartialEq)]
pub enum Seam {
    Before,
    After,
}

impl Seam {
    /// What starts here or before is in force at s.
    pub fn latest_start(self, s: f64) -> f64 {
        match self {
            Seam::Before => s - SAME_STATION,
            Seam::After => s + SAME_STATION,
        }
    }
}

#[derive(Clone, Copy, Debug)]
pub struct Cubic {
    pub start: f64,
    coefficients: [f64; 4],
}

impl Cubic {
    pub fn value(&self, s: f64) -> f64 {
        polynomial(&self.coefficients, s - self.start)
    }

    pub fn slope(&self, s: f64) -> f64 {
        derivative(&self.coefficients, s - self.start)
    }
}

pub fn polynomial([a, b, c, d]: &[f64; 4], p: f64) -> f64 {
    a + p * (b + p * (c + p * d))
}

pub fn derivative([_, b, c, d]: &[f64; 4], p: f64) -> f64 {
    b + p * (2.0 * c + 3.0 * p * d)
}

/// Cubics in the order of their starts.
#[derive(Debug, Default)]
pub struct Profile(Vec<Cubic>);

impl Profile {
    /// The cubics that these elements are. One without a start is left out; a coefficient that is missing is 0.
    pub fn of<'a>(elements: impl Iterator<Item = Element<'a>>, start: &str) -> Self {
        let cubic = |e: Element| Some(Cubic { start: number(e, start)?, coefficients: ["a", "b", "c", "d"].map(|k| number(e, k).unwrap_or(0.0)) });
        let mut cubics: Vec<Cubic> = elements.filter_map(cubic).collect();
        cubics.sort_by(|p, q| p.start.total_cmp(&q.start));
        Profile(cubics)
    }

    pub fn is_empty(&self) -> bool {
        self.0.is_empty()
    }

    /// The cubic in force at s. A stretch that ends where the first begins has that one.
    pub fn active(&self, s: f64, seam: Seam) -> Option<&Cubic> {
        let latest = |limit: f64| self.0.partition_point(|c| c.start <= limit).checked_sub(1);
        match latest(seam.latest_start(s)) {
            Some(i) => self.0.get(i),
            None => self.0.first().filter(|c| c.start <= Seam::After.latest_start(s)),
        }
    }

    /// Its value at s: 0 before the first cubic.
    pub fn value(&self, s: f64, seam: Seam) -> f64 {
        self.active(s, seam).map_or(0.0, |c| c.value(s))
    }

    pub fn slope(&self, s: f64, seam: Seam) -> f64 {
        self.active(s, seam).map_or(0.0, |c| c.slope(s))
    }

    /// The starts between two stations.
    pub fn starts_between(&self, first: f64, last: f64) -> impl Iterator<Item = f64> + '_ {
        let from = self.0.partition_point(|c| c.start <= first);
        self.0[from..].iter().map(|c| c.start).take_while(move |&s| s < last)
    }
}
