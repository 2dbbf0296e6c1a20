use std::fmt;

/// Why a call was refused: the first reason that applies. A refused call changes nothing that it was lent.
#[derive(Clone, Copy, Debug, PartialEq, Eq, Hash)]
pub enum Refusal {
    BadSize = 1,
    BadWord = 2,
    RoadTwice = 3,
    BadSections = 4,
    BadParts = 5,
    IdentityTwice = 6,
    LaneUnlisted = 7,
    PlaceTwice = 8,
    OutputShort = 9,
    BadEdges = 10,
    BadLists = 11,
    BadMarks = 12,
    LeastNumber = 13,
    TwoEnded = 14,
    BelowZero = 15,
    Uneven = 16,
}

impl Refusal {
    /// Every refusal, in the order of the numbers.
    pub const ALL: [Refusal; 16] = [
        Refusal::BadSize,
        Refusal::BadWord,
        Refusal::RoadTwice,
        Refusal::BadSections,
        Refusal::BadParts,
        Refusal::IdentityTwice,
        Refusal::LaneUnlisted,
        Refusal::PlaceTwice,
        Refusal::OutputShort,
        Refusal::BadEdges,
        Refusal::BadLists,
        Refusal::BadMarks,
        Refusal::LeastNumber,
        Refusal::TwoEnded,
        Refusal::BelowZero,
        Refusal::Uneven,
    ];

    /// The specification's number.
    pub fn number(self) -> u32 {
        self as u32
    }

    /// The refusal of that number.
    pub fn of_number(number: u32) -> Option<Refusal> {
        Refusal::ALL.into_iter().find(|r| r.number() == number)
    }

    /// Ok for 0, which a call that was accepted returns.
    pub(crate) fn check(number: u32) -> Result<(), Refusal> {
        match number {
            0 => Ok(()),
            n => Err(Refusal::of_number(n).expect("the library returns no other number")),
        }
    }
}

impl fmt::Display for Refusal {
    fn fmt(&self, f: &mut fmt::Formatter<'_>) -> fmt::Result {
        f.write_str(match self {
            Refusal::BadSize => "an input's length is no whole number of rows or above its limit",
            Refusal::BadWord => "a word or name breaks the table rules",
            Refusal::RoadTwice => "a road name stands twice",
            Refusal::BadSections => "a section part is misplaced or not strictly ascending",
            Refusal::BadParts => "a connection, pair or lane link part is misplaced",
            Refusal::IdentityTwice => "an identity stands twice",
            Refusal::LaneUnlisted => "a lane's road is unknown or its section is not listed there",
            Refusal::PlaceTwice => "two lanes have equal road, section and number",
            Refusal::OutputShort => "an output is shorter than its content",
            Refusal::BadEdges => "the edges are not 12 for each lane",
            Refusal::BadLists => "offsets fall, are wrongly sized, do not start at 0 or do not end at the count, or no lane bears an identity",
            Refusal::BadMarks => "the marks are not one 0 or 1 for each road",
            Refusal::LeastNumber => "a lane, link or pair number is -2,147,483,648",
            Refusal::TwoEnded => "a marked road names one direct junction at both ends",
            Refusal::BelowZero => "the root of a number below zero",
            Refusal::Uneven => "starts and lengths differ in count",
        })
    }
}

impl std::error::Error for Refusal {}
