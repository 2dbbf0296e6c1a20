//! What links.rs and gaps.rs lean on, no more than they use.
use crate::coords::Point;

#[derive(Debug, Clone, Copy, PartialEq, Eq, Hash)]
pub struct LaneId(pub usize);

#[derive(Debug, Clone, Copy, PartialEq, Eq)]
pub enum Direction {
    Forward,
    Backward,
    Both,
}

/// A lane, with the two points at its start and the two at its end in place of its center line.
#[derive(Debug, Clone)]
pub struct Lane {
    pub id: LaneId,
    pub direction: Direction,
    pub successors: Vec<LaneId>,
    pub predecessors: Vec<LaneId>,
    pub ends: [[Point; 2]; 2],
}

pub struct LaneHeight;

#[derive(Debug, Clone, Copy, PartialEq)]
pub enum RoadEnd {
    Start,
    End,
}

#[derive(Debug, Clone, PartialEq)]
#[allow(dead_code)]
pub enum Warning {
    ConnectionDropped { incoming_road_id: String, junction_id: String, connection_id: String },
    LaneLinkDropped { incoming_road_id: String, junction_id: String, connection_id: String, from: String, to: String },
    JunctionLinkMissing { road_id: String, junction_id: String, end: RoadEnd },
    RoadLengthMismatch { road_id: String, length: f64, plan_view: f64 },
    LinkGap { road_id: String, section: usize, lane: i32, to_road_id: String, to_section: usize, to_lane: i32, gap: f64 },
}

pub struct Geom {
    pub s: f64,
    pub length: f64,
}

pub struct Road {
    pub od_id: String,
    pub length: f64,
    pub geoms: Vec<Geom>,
}
