//! Words in a row of each table, floats in a row of edges, and the most that is read: those of include/vorzhyket.h.
pub const TARGET: usize = 7;
pub const ROAD: usize = 20;
pub const SECTION: usize = 1;
pub const JUNCTION: usize = 5;
pub const CONNECTION: usize = 7;
pub const PAIR: usize = 2;
pub const LANE: usize = 10;
pub const EDGE: usize = 12;
pub const WARNING: usize = 4;
pub const GAP: usize = 5;
pub const RAW_TARGET: usize = 9;
pub const RAW_JUNCTION: usize = 8;
pub const RAW_CONNECTION: usize = 14;
pub const RAW_LANE_LINK: usize = 4;
pub const RAW_LANE: usize = 4;
pub const LINKS: usize = 4;

/// Bytes of text.
pub const MOST_TEXT: usize = 1_048_576;
/// Rows of each table.
pub const MOST_ROWS: usize = 16_384;
/// Connections, and pairs, handed to repair.
pub const MOST_ROWS_REPAIR: usize = 8_192;
pub const MOST_IDENTITIES: usize = 131_072;
pub const MOST_OFFSETS: usize = 16_385;
