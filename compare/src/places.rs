//! The places u and v that gap rows show, beside the original's pairs of ends, and what they were chosen from.
use crate::original::{first_least, GapRow, Near, Wide};
use std::cmp::Ordering;

impl Wide {
    /// The pairs of ends that are as near as the gap says; none where it is infinite.
    fn least(&self) -> Vec<&Near> {
        let gap = f32::from_bits(self.words[2]);
        self.pairs.iter().filter(|p| p.distance == gap && gap.is_finite()).collect()
    }

    /// Do several pairs of ends tie, at different places?
    pub fn tied(&self) -> bool {
        let least = self.least();
        least.iter().any(|p| p.places != least[0].places)
    }

    /// The row that the original's own reading gives: the first least pair.
    pub fn first(&self) -> GapRow {
        let [_, u, v] = first_least(&self.pairs);
        self.shown([u, v])
    }

    /// The row that the rule for ties gives: the least pair with the smallest u, then the smallest v, as floats.
    pub fn smallest(&self) -> GapRow {
        self.smallest_by(|a, b| a.places.partial_cmp(&b.places).expect("a NaN beside a finite distance"))
    }

    /// The row of the least pair that is smallest in that order; of an infinite gap both places are 0.
    fn smallest_by(&self, order: impl Fn(&Near, &Near) -> Ordering) -> GapRow {
        let places = self.least().into_iter().min_by(|a, b| order(a, b)).map_or([0.0; 2], |p| p.places);
        self.shown(places.map(|x| (x + 0.0).to_bits()))
    }

    /// The row that is expected: where nothing ties the original's own, and else what the rule gives.
    pub fn row(&self) -> GapRow {
        if self.tied() {
            self.smallest()
        } else {
            self.first()
        }
    }

    /// The row with the bits of those places.
    fn shown(&self, [u, v]: [u32; 2]) -> GapRow {
        let [lane, successor, gap] = self.words;
        [lane, successor, gap, u, v]
    }
}

/// This library's gap rows beside the original's links: the same lanes and gap bits, in order; where no pairs of ends
/// tie, the places of the original's first least pair; and where some tie, those of the smallest u, then v.
pub fn beside(wide: &[Wide], rows: &[GapRow]) -> Result<(), String> {
    let (theirs, found): (Vec<&[u32]>, Vec<&[u32]>) = (wide.iter().map(|w| &w.words[..]).collect(), rows.iter().map(|r| &r[..3]).collect());
    if theirs != found {
        return Err(format!("gaps\n theirs {theirs:?}\n ours   {found:?}"));
    }
    for (w, row) in wide.iter().zip(rows) {
        if !w.tied() && *row != w.first() {
            return Err(format!("places with no tie\n theirs {:?}\n ours   {row:?}", w.first()));
        }
        if w.tied() && *row != w.smallest() {
            return Err(format!("places of a tie\n theirs, by u and v, {:?}\n ours {row:?}", w.smallest()));
        }
    }
    Ok(())
}

/// What the places of the gap rows were chosen from.
#[derive(Default)]
pub struct Count {
    /// Rows with a place between 0 and 1.
    inside: usize,
    /// Rows with a least pair of which a place is -0.
    minus_zero: usize,
    infinite: usize,
    /// Those of them with a pair of ends that is infinitely far apart at other places than 0.
    far: usize,
    /// Rows with a pair of ends whose distance is a NaN beside one whose distance is none.
    nan: usize,
    /// Rows with more than one pair of ends.
    choice: usize,
    /// Those of them of which another pair than the first is least.
    later: usize,
    /// Rows with several least pairs.
    several: usize,
    ties: Ties,
}

/// Rows with several least pairs, at different places.
#[derive(Default)]
pub struct Ties {
    all: usize,
    /// Those with one place at the smallest u.
    by_u: usize,
    /// Those with several places at the smallest u.
    by_v: usize,
    /// Those that show another place than the original's first least pair.
    elsewhere: usize,
    /// Those of which one pair has a -0 where another has a +0, in u and in v.
    signs: [usize; 2],
    /// Those of which another place is the smallest if -0 is below +0.
    by_sign: usize,
    /// Those of which another place is the smallest if bits are compared.
    by_bits: usize,
    /// Those of which another place is the smallest if the squares of the distances are compared before it.
    by_square: usize,
}

/// Is it a zero with a sign?
fn is_minus_zero(x: f32) -> bool {
    x.to_bits() == (-0f32).to_bits()
}

/// The order of two pairs by u, then v, each compared in that way.
fn by_places(order: impl Fn(f32, f32) -> Ordering) -> impl Fn(&Near, &Near) -> Ordering {
    move |a, b| order(a.places[0], b.places[0]).then(order(a.places[1], b.places[1]))
}

impl Ties {
    /// Those decided by u, by v, and those with another place if -0 were below +0, or by bits.
    pub fn kinds(&self) -> [usize; 4] {
        [self.by_u, self.by_v, self.by_sign, self.by_bits]
    }

    pub fn add(&mut self, w: &Wide) {
        if !w.tied() {
            return;
        }
        let (least, row) = (w.least(), w.smallest());
        let [u, v] = [3, 4].map(|k| f32::from_bits(row[k]));
        let several = least.iter().any(|p| p.places[0] == u && p.places[1] != v);
        let opposed = |k: usize| least.iter().any(|p| is_minus_zero(p.places[k])) && least.iter().any(|p| p.places[k].to_bits() == 0);
        self.all += 1;
        *(if several { &mut self.by_v } else { &mut self.by_u }) += 1;
        self.elsewhere += usize::from(row != w.first());
        (0..2).for_each(|k| self.signs[k] += usize::from(opposed(k)));
        self.by_sign += usize::from(row != w.smallest_by(by_places(|a, b| a.total_cmp(&b))));
        self.by_bits += usize::from(row != w.smallest_by(by_places(|a, b| a.to_bits().cmp(&b.to_bits()))));
        let by_square = |a: &Near, b: &Near| (a.square, a.places).partial_cmp(&(b.square, b.places)).expect("a NaN beside a finite distance");
        self.by_square += usize::from(row != w.smallest_by(by_square));
    }

    pub fn print(&self) {
        println!(
            "  ties at different places: {}, decided by u {}, by v {}; shown elsewhere than the original's first least pair {}",
            self.all, self.by_u, self.by_v, self.elsewhere
        );
        println!(
            "  ties with a -0 against a +0: {} in u, {} in v; with another place if -0 were below +0: {}, by bits: {}, by squares before u and v: {}",
            self.signs[0], self.signs[1], self.by_sign, self.by_bits, self.by_square
        );
    }
}

impl Count {
    pub fn add(&mut self, w: &Wide) {
        let (gap, least) = (f32::from_bits(w.words[2]), w.least());
        let inside = |&x: &u32| (f32::MIN_POSITIVE..1.0).contains(&f32::from_bits(x));
        self.inside += usize::from(w.row()[3..].iter().any(inside));
        self.minus_zero += usize::from(least.iter().any(|p| p.places.iter().any(|&x| is_minus_zero(x))));
        self.infinite += usize::from(gap.is_infinite());
        self.far += usize::from(gap.is_infinite() && w.pairs.iter().any(|p| p.distance == gap && p.places != [0.0; 2]));
        self.nan += usize::from(gap.is_finite() && w.pairs.iter().any(|p| p.distance.is_nan()));
        self.choice += usize::from(w.pairs.len() > 1);
        self.later += usize::from(w.pairs[0].distance != gap && gap.is_finite());
        self.several += usize::from(least.len() > 1);
        self.ties.add(w);
    }

    pub fn print(&self) {
        println!(
            "  rows whose places are between 0 and 1: {}; with a least pair at -0: {}; of an infinite gap: {}, {} of them left out; with a NaN passed over: {}",
            self.inside, self.minus_zero, self.infinite, self.far, self.nan
        );
        println!("  rows with several pairs of ends: {}, {} of them with a later one least, {} with several least", self.choice, self.later, self.several);
        self.ties.print();
    }
}
