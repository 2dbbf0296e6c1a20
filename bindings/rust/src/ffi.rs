//! The exported functions, as include/vorzhyket.h declares them. A slice is a pointer and a length in elements.
extern "C" {
    pub fn vz_repair(
        text: *const u8, text_length: usize,
        roads: *const u32, roads_length: usize,
        sections: *const u32, sections_length: usize,
        junctions: *const u32, junctions_length: usize,
        connections: *const u32, connections_length: usize,
        pairs: *const u32, pairs_length: usize,
        roads_out: *mut u32, roads_out_length: usize,
        junctions_out: *mut u32, junctions_out_length: usize,
        connections_out: *mut u32, connections_out_length: usize,
        pairs_out: *mut u32, pairs_out_length: usize,
        warnings_out: *mut u32, warnings_out_length: usize,
        written: &mut [u32; 5],
    ) -> u32;

    pub fn vz_succession(
        text: *const u8, text_length: usize,
        roads: *const u32, roads_length: usize,
        sections: *const u32, sections_length: usize,
        junctions: *const u32, junctions_length: usize,
        connections: *const u32, connections_length: usize,
        pairs: *const u32, pairs_length: usize,
        lanes: *const u32, lanes_length: usize,
        successor_offsets: *mut u32, successor_offsets_length: usize,
        successor_ids: *mut u32, successor_ids_length: usize,
        predecessor_offsets: *mut u32, predecessor_offsets_length: usize,
        predecessor_ids: *mut u32, predecessor_ids_length: usize,
        written: &mut [u32; 4],
    ) -> u32;

    pub fn vz_gaps(
        text: *const u8, text_length: usize,
        roads: *const u32, roads_length: usize,
        sections: *const u32, sections_length: usize,
        junctions: *const u32, junctions_length: usize,
        connections: *const u32, connections_length: usize,
        pairs: *const u32, pairs_length: usize,
        lanes: *const u32, lanes_length: usize,
        edges: *const f32, edges_length: usize,
        offsets: *const u32, offsets_length: usize,
        ids: *const u32, ids_length: usize,
        gaps_out: *mut u32, gaps_out_length: usize,
        written: &mut [u32; 1],
    ) -> u32;

    pub fn vz_reverse(
        text: *const u8, text_length: usize,
        roads: *const u32, roads_length: usize,
        sections: *const u32, sections_length: usize,
        junctions: *const u32, junctions_length: usize,
        connections: *const u32, connections_length: usize,
        pairs: *const u32, pairs_length: usize,
        lanes: *const u32, lanes_length: usize,
        edges: *const f32, edges_length: usize,
        marks: *const u32, marks_length: usize,
        roads_out: *mut u32, roads_out_length: usize,
        sections_out: *mut u32, sections_out_length: usize,
        connections_out: *mut u32, connections_out_length: usize,
        pairs_out: *mut u32, pairs_out_length: usize,
        lanes_out: *mut u32, lanes_out_length: usize,
        edges_out: *mut f32, edges_out_length: usize,
        written: &mut [u32; 6],
    ) -> u32;

    pub fn vz_list(
        successor_offsets: *const u32, successor_offsets_length: usize,
        successor_ids: *const u32, successor_ids_length: usize,
        predecessor_offsets: *const u32, predecessor_offsets_length: usize,
        predecessor_ids: *const u32, predecessor_ids_length: usize,
        row: u32, before: u32, part: &mut [u32; 2],
    );

    pub fn vz_name(text: *const u8, text_length: usize, start: u32, length: u32, part: &mut [u32; 2]);

    pub fn vz_root(x: f32, out: &mut f32) -> u32;

    pub fn vz_distance(first: &[f32; 6], second: &[f32; 6], places: &mut [f32; 2]) -> f32;

    pub fn vz_read_targets(
        text: *const u8, text_length: usize,
        raw: *const u32, raw_length: usize,
        targets_out: *mut u32, targets_out_length: usize,
        warnings_out: *mut u32, warnings_out_length: usize,
        written: &mut [u32; 2],
    ) -> u32;

    pub fn vz_read_junctions(
        text: *const u8, text_length: usize,
        raw_junctions: *const u32, raw_junctions_length: usize,
        raw_connections: *const u32, raw_connections_length: usize,
        raw_lane_links: *const u32, raw_lane_links_length: usize,
        junctions_out: *mut u32, junctions_out_length: usize,
        connections_out: *mut u32, connections_out_length: usize,
        pairs_out: *mut u32, pairs_out_length: usize,
        warnings_out: *mut u32, warnings_out_length: usize,
        written: &mut [u32; 4],
    ) -> u32;

    pub fn vz_read_lanes(
        text: *const u8, text_length: usize,
        raw: *const u32, raw_length: usize,
        links_out: *mut u32, links_out_length: usize,
        written: &mut [u32; 1],
    ) -> u32;

    pub fn vz_length(
        starts: *const f64, starts_length: usize,
        lengths: *const f64, lengths_length: usize,
        length: f64, sum: &mut f64,
    ) -> u32;
}
