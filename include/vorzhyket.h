/* Vorzhyket: lane links of OpenDRIVE maps. Link with libvorzhyket.a.
 *
 * A table is a pointer and its length in elements, not in rows or bytes. What is read: the `const` tables. What is
 * written: the tables after them, and `written`. No pointer is null, also of an empty table, and what is written
 * overlaps nothing else. Nothing is kept between calls or allocated. A call takes up to 1.5 MiB of stack.
 *
 * A call returns 0, or the number of the first reason that applies for which it was refused (vz_length alone also 1,
 * which is no refusal there). Where it returns 0, `written` holds the rows written to each output, in the order of the
 * outputs, and the words after these rows are as they were. A refused call changes nothing, neither an output nor
 * `written`. Any content may be handed over. */
#ifndef VORZHYKET_H
#define VORZHYKET_H

#include <stddef.h>
#include <stdint.h>

#ifdef __cplusplus
extern "C" {
#endif

/* Words in a row. A name is two words, start and length in the text; VZ_ABSENT and 0 mean absent. A part is two
 * words, first row and count. Flags are 0 or 1. Lane numbers are 32-bit two's complement. */
enum {
    VZ_TARGET = 7,      /* present, kind (0 road, 1 junction), name, contact (0 start, 1 end), given, along */
    VZ_ROAD = 20,       /* name, junction name, predecessor target, successor target, section part */
    VZ_SECTION = 1,     /* its number */
    VZ_JUNCTION = 5,    /* name, kind (0 common, 1 direct, 2 virtual), connection part */
    VZ_CONNECTION = 7,  /* incoming road name, connecting road name, contact, pair part */
    VZ_PAIR = 2,        /* lane numbers, from and to */
    VZ_LANE = 10,       /* identity, road name, section, number, direction (0 forward, 1 backward, 2 both),
                           successor flag and number, predecessor flag and number */
    VZ_EDGE = 12,       /* floats of a lane: two points at its start, two at its end */
    VZ_WARNING = 4,     /* of repair: 3, junction row, road row, end. Of reading what is dropped: 1, raw junction row,
                           raw connection row, 0, or 2, raw junction row, raw connection row, raw lane link row; and
                           a contactPoint that is there and neither "start" nor "end": 4, VZ_NO_ROW, raw road row, 0
                           for a predecessor and 1 for a successor, or 4, raw junction row, raw connection row, 0 */
    VZ_GAP = 5,         /* lane row, successor row, bits of the gap, bits of u and v: how far along the lane's end and
                           the successor's, from first point to second, 0 to 1, the two come closest; never -0, and 0
                           and 0 where the gap is infinite */
    /* attributes as a file has them: every name may be absent */
    VZ_RAW_TARGET = 9,      /* element flag, elementType, elementId, contactPoint, elementS; flag 0 has all absent. Two
                               to a road, predecessor first */
    VZ_RAW_JUNCTION = 8,    /* id, type, mainRoad, raw connection part */
    VZ_RAW_CONNECTION = 14, /* id, type, incomingRoad, connectingRoad, linkedRoad, contactPoint, raw lane link part */
    VZ_RAW_LANE_LINK = 4,   /* from, to */
    VZ_RAW_LANE = 4,        /* predecessor id, successor id */
    VZ_LINKS = 4            /* of a lane: predecessor flag and number, successor flag and number */
};
#define VZ_ABSENT UINT32_MAX
#define VZ_NO_ROW UINT32_MAX

/* The most that is read. An output may be longer. */
enum {
    VZ_MOST_TEXT = 1048576,        /* bytes */
    VZ_MOST_ROWS = 16384,          /* of each table */
    VZ_MOST_ROWS_REPAIR = 8192,    /* of connections and of pairs handed to vz_repair */
    VZ_MOST_IDENTITIES = 131072,   /* packed identities */
    VZ_MOST_OFFSETS = 16385        /* words */
};

/* Why a call was refused. */
enum {
    VZ_ACCEPTED = 0,
    VZ_BAD_SIZE = 1,        /* an input's length is no whole number of rows or above its limit */
    VZ_BAD_WORD = 2,        /* a word or name breaks the table rules */
    VZ_ROAD_TWICE = 3,      /* a road name twice */
    VZ_BAD_SECTIONS = 4,    /* a section part misplaced or not strictly ascending */
    VZ_BAD_PARTS = 5,       /* a connection, pair or lane link part misplaced */
    VZ_IDENTITY_TWICE = 6,  /* an identity twice */
    VZ_LANE_UNLISTED = 7,   /* a lane's road unknown or its section not listed there */
    VZ_PLACE_TWICE = 8,     /* two lanes with equal road, section and number */
    VZ_OUTPUT_SHORT = 9,    /* an output shorter than its content */
    VZ_BAD_EDGES = 10,      /* edges not 12 for each lane */
    VZ_BAD_LISTS = 11,      /* offsets falling, wrongly sized, not starting at 0 or not ending at the count, or an
                               identity no lane bears */
    VZ_BAD_MARKS = 12,      /* marks not one 0 or 1 for each road */
    VZ_LEAST_NUMBER = 13,   /* a lane, link or pair number is -2,147,483,648 */
    VZ_TWO_ENDED = 14,      /* a marked road names one direct junction at both ends */
    VZ_BELOW_ZERO = 15,     /* a root below zero */
    VZ_UNEVEN = 16          /* starts and lengths differ in count */
};

/* Repairs the map: links to junctions that roads lack, connections of direct junctions the other way. Writes the
 * roads, junctions, connections and pairs of the repaired map, and a warning for each link that was lacking.
 * Refuses by 1 to 5 and 9. */
uint32_t vz_repair(
    const uint8_t *text, size_t text_length,
    const uint32_t *roads, size_t roads_length,
    const uint32_t *sections, size_t sections_length,
    const uint32_t *junctions, size_t junctions_length,
    const uint32_t *connections, size_t connections_length,
    const uint32_t *pairs, size_t pairs_length,
    uint32_t *roads_out, size_t roads_out_length,
    uint32_t *junctions_out, size_t junctions_out_length,
    uint32_t *connections_out, size_t connections_out_length,
    uint32_t *pairs_out, size_t pairs_out_length,
    uint32_t *warnings_out, size_t warnings_out_length,
    uint32_t written[5]);

/* Finds the lanes onward of every lane, and the lanes before it. Writes two lists, each as offsets (a word for each
 * lane and one more, the first 0) and the identities packed in lane row order; `written` counts words.
 * Refuses by 1 to 9. */
uint32_t vz_succession(
    const uint8_t *text, size_t text_length,
    const uint32_t *roads, size_t roads_length,
    const uint32_t *sections, size_t sections_length,
    const uint32_t *junctions, size_t junctions_length,
    const uint32_t *connections, size_t connections_length,
    const uint32_t *pairs, size_t pairs_length,
    const uint32_t *lanes, size_t lanes_length,
    uint32_t *successor_offsets, size_t successor_offsets_length,
    uint32_t *successor_ids, size_t successor_ids_length,
    uint32_t *predecessor_offsets, size_t predecessor_offsets_length,
    uint32_t *predecessor_ids, size_t predecessor_ids_length,
    uint32_t written[4]);

/* Measures the gap of every lane link, by the successors' offsets and identities. Writes a row for each link whose
 * gap is not at most 0.1. Of the pairs of ends that are equally near, which two-way lanes can have, the one with the
 * smallest u counts, then the smallest v; -0 equals 0. Refuses by 1 to 11. */
uint32_t vz_gaps(
    const uint8_t *text, size_t text_length,
    const uint32_t *roads, size_t roads_length,
    const uint32_t *sections, size_t sections_length,
    const uint32_t *junctions, size_t junctions_length,
    const uint32_t *connections, size_t connections_length,
    const uint32_t *pairs, size_t pairs_length,
    const uint32_t *lanes, size_t lanes_length,
    const float *edges, size_t edges_length,
    const uint32_t *offsets, size_t offsets_length,
    const uint32_t *ids, size_t ids_length,
    uint32_t *gaps_out, size_t gaps_out_length,
    uint32_t written[1]);

/* Reverses the reference lines of the marked roads: a mark, 0 or 1, for each road. Writes the roads, sections,
 * connections, pairs, lanes and edges of the reversed map; the text and the junctions stay as they are.
 * Refuses by 1 to 10 and 12 to 14. */
uint32_t vz_reverse(
    const uint8_t *text, size_t text_length,
    const uint32_t *roads, size_t roads_length,
    const uint32_t *sections, size_t sections_length,
    const uint32_t *junctions, size_t junctions_length,
    const uint32_t *connections, size_t connections_length,
    const uint32_t *pairs, size_t pairs_length,
    const uint32_t *lanes, size_t lanes_length,
    const float *edges, size_t edges_length,
    const uint32_t *marks, size_t marks_length,
    uint32_t *roads_out, size_t roads_out_length,
    uint32_t *sections_out, size_t sections_out_length,
    uint32_t *connections_out, size_t connections_out_length,
    uint32_t *pairs_out, size_t pairs_out_length,
    uint32_t *lanes_out, size_t lanes_out_length,
    float *edges_out, size_t edges_out_length,
    uint32_t written[6]);

/* Where the list of a lane row lies: first index and count in successor_ids where before is 0, the lanes onward,
 * else in predecessor_ids, the lanes before. 0 and 0 where it is empty, also for a row outside the list or one whose
 * offsets fall or pass the end. */
void vz_list(
    const uint32_t *successor_offsets, size_t successor_offsets_length,
    const uint32_t *successor_ids, size_t successor_ids_length,
    const uint32_t *predecessor_offsets, size_t predecessor_offsets_length,
    const uint32_t *predecessor_ids, size_t predecessor_ids_length,
    uint32_t row, uint32_t before, uint32_t part[2]);

/* Where a name's bytes lie in the text: first index and count, 0 and 0 for an absent, misplaced or empty name. */
void vz_name(const uint8_t *text, size_t text_length, uint32_t start, uint32_t length, uint32_t part[2]);

/* The float nearest to the true root of x. Either zero, infinity and a NaN give themselves. Refuses by 15 below zero,
 * and leaves out as it was. */
uint32_t vz_root(float x, float *out);

/* The distance of two segments of two points each. Writes u and v to places: how far along the first segment and along
 * the second, from first point to second, 0 to 1, the two come closest. Either may be -0, and a NaN only where the
 * distance is one. */
float vz_distance(const float first[6], const float second[6], float places[2]);

/* Reads targets, two raw targets to a road. Writes a target for each: none where the flag is 0 or elementId is absent.
 * A contact is given where contactPoint is "start" or "end"; any other reads as start and isn't given. Writes a warning
 * for each target that is there with such another. Refuses by 1, also where the raw targets are odd in number, 2 and
 * 9. */
uint32_t vz_read_targets(
    const uint8_t *text, size_t text_length,
    const uint32_t *raw, size_t raw_length,
    uint32_t *targets_out, size_t targets_out_length,
    uint32_t *warnings_out, size_t warnings_out_length,
    uint32_t written[2]);

/* Reads junctions. Writes the junctions, connections and pairs of a map, and a warning for each connection or lane
 * link that is dropped, and for each connection kept whose contactPoint is there and neither "start" nor "end", ahead
 * of those of its lane links. Refuses by 1, 2, 5 and 9. */
uint32_t vz_read_junctions(
    const uint8_t *text, size_t text_length,
    const uint32_t *raw_junctions, size_t raw_junctions_length,
    const uint32_t *raw_connections, size_t raw_connections_length,
    const uint32_t *raw_lane_links, size_t raw_lane_links_length,
    uint32_t *junctions_out, size_t junctions_out_length,
    uint32_t *connections_out, size_t connections_out_length,
    uint32_t *pairs_out, size_t pairs_out_length,
    uint32_t *warnings_out, size_t warnings_out_length,
    uint32_t written[4]);

/* Reads the links of lanes. Writes a row of VZ_LINKS words for each raw lane: 0 and 0 where a name is absent or no lane
 * number. Refuses by 1, 2 and 9. */
uint32_t vz_read_lanes(
    const uint8_t *text, size_t text_length,
    const uint32_t *raw, size_t raw_length,
    uint32_t *links_out, size_t links_out_length,
    uint32_t written[1]);

/* Adds the last start and the last length of a road's geometry. Returns 1 and writes the sum where it is more than 0.01
 * off the road's length. Returns 0 where there is nothing to report, also with no geometry or a NaN difference, and 16
 * where starts and lengths differ in count; sum then stays as it was. */
uint32_t vz_length(
    const double *starts, size_t starts_length,
    const double *lengths, size_t lengths_length,
    double length, double *sum);

#ifdef __cplusplus
}
#endif

#endif
