//! One map through the original and this library.
use crate::original::{self, GapRow, Lists, Repaired, Wide};
use crate::tables::Tables;
use crate::{ours, places};

/// What both find on a map, and how each shows the gaps.
pub struct Found {
    /// The repaired tables, and what they say.
    pub tables: Tables,
    pub repaired: Repaired,
    pub lists: Lists,
    /// The original's gaps, and this library's rows of them.
    pub wide: Vec<Wide>,
    pub gaps: Vec<GapRow>,
}

/// An admitted map through both, which have to find the same.
pub fn find(t: &Tables) -> Result<Found, String> {
    let theirs = original::repair(t);
    let (tables, repaired) = ours::repair(t);
    if theirs != repaired {
        return Err(format!("repair\n theirs {theirs:?}\n ours   {repaired:?}"));
    }
    let ((a, wide), (lists, gaps)) = (original::lists_and_gaps(t), ours::lists_and_gaps(&tables));
    if a != lists {
        return Err(format!("lists\n theirs {a:?}\n ours   {lists:?}"));
    }
    places::beside(&wide, &gaps)?;
    Ok(Found { tables, repaired, lists, wide, gaps })
}

/// The lists that both find on an admitted map with no repair before.
pub fn unrepaired(t: &Tables) -> Result<Lists, String> {
    let (theirs, lists) = (original::lists_unrepaired(t), ours::lists(t));
    if theirs != lists {
        return Err(format!("lists without repair\n theirs {theirs:?}\n ours   {lists:?}"));
    }
    Ok(lists)
}
