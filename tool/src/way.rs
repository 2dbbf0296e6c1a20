//! A lane's direction of travel, and the ends at which traffic leaves it and comes into it.

/// A lane's direction of travel. Its start and its end are those of its section as the reference line runs, whichever
/// way traffic goes.
#[derive(Clone, Copy, Debug, PartialEq)]
pub enum Way {
    Forward,
    Backward,
    Both,
}

impl Way {
    /// The word of a lane's row.
    pub fn of(word: u32) -> Way {
        match word {
            0 => Way::Forward,
            1 => Way::Backward,
            _ => Way::Both,
        }
    }

    /// The ends by which traffic leaves a lane: true for its end, false for its start. Of a two-way lane the end stands
    /// first, as in the library.
    pub fn exits(self) -> &'static [bool] {
        match self {
            Way::Forward => &[true],
            Way::Backward => &[false],
            Way::Both => &[true, false],
        }
    }

    /// The ends by which traffic comes into a lane.
    pub fn entries(self) -> &'static [bool] {
        match self {
            Way::Forward => &[false],
            Way::Backward => &[true],
            Way::Both => &[true, false],
        }
    }
}
