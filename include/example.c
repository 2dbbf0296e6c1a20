/* Three lanes on two roads: which follows which. Prints '7: 3', '3: 5' and '5:'. */
#include <inttypes.h>
#include <stdio.h>
#include "vorzhyket.h"

int main(void)
{
    /* Road a has section 0 and leads to the start of road b; b has sections 0 and 1. */
    const uint8_t text[] = {'a', 'b'};
    const uint32_t roads[2 * VZ_ROAD] = {
        0, 1, VZ_ABSENT, 0, 0, 0, 0, 0, 0, 0, 0, 1, 0, 1, 1, 0, 1, 0, 0, 1,
        1, 1, VZ_ABSENT, 0, 0, 0, 0, 0, 0, 0, 0, 0, 0, 0, 0, 0, 0, 0, 1, 2,
    };
    const uint32_t sections[3] = {0, 0, 1};
    const uint32_t none[1] = {0};
    /* Forward lanes numbered -1, each linked onward to number -1: 7 on a, 3 and 5 on b. */
    const uint32_t minus_one = UINT32_MAX;
    const uint32_t lanes[3 * VZ_LANE] = {
        7, 0, 1, 0, minus_one, 0, 1, minus_one, 0, 0,
        3, 1, 1, 0, minus_one, 0, 1, minus_one, 0, 0,
        5, 1, 1, 1, minus_one, 0, 1, minus_one, 0, 0,
    };
    uint32_t onward_offsets[4], onward[8], before_offsets[4], before[8], written[4], part[2];

    uint32_t refusal = vz_succession(
        text, 2, roads, 2 * VZ_ROAD, sections, 3, none, 0, none, 0, none, 0, lanes, 3 * VZ_LANE,
        onward_offsets, 4, onward, 8, before_offsets, 4, before, 8, written);
    if (refusal != VZ_ACCEPTED) {
        printf("refused: %" PRIu32 "\n", refusal);
        return 1;
    }
    for (uint32_t row = 0; row < 3; row++) {
        printf("%" PRIu32 ":", lanes[row * VZ_LANE]);
        vz_list(onward_offsets, written[0], onward, written[1], before_offsets, written[2], before, written[3], row, 0, part);
        for (uint32_t i = 0; i < part[1]; i++)
            printf(" %" PRIu32, onward[part[0] + i]);
        printf("\n");
    }
    return 0;
}
