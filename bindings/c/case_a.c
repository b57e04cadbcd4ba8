/* Document 01's case A through the library: prints its record and its normalised weight, and answers 0 if they are the document's. */
#include "gelduvra.h"

#include <inttypes.h>
#include <stdio.h>

#define COLUMN(name) name, sizeof name / sizeof *name
#define EMPTY none, 0

int main(void)
{
    const uint32_t freq[] = {1065353216};
    const uint32_t first[] = {0};
    const uint32_t end[] = {4};
    const uint32_t code[] = {0};
    const uint32_t s_start[] = {2};
    const uint32_t s_end[] = {14};
    const uint32_t s_value[] = {0};
    const uint32_t s_first_use[] = {0};
    const uint32_t s_end_use[] = {2};
    const uint32_t s_flags[] = {0};
    const uint32_t position[] = {0, 3};
    const uint32_t u_kind[] = {5, 4};
    const uint32_t cost[] = {1065353216, 1065353216};
    const uint32_t none[1] = {0};
    uint32_t prev[1], next[1], inst[4], gap_from[5], gap_to[5], live[5], gap_block[5], segment_from[6], segment_to[6], segment_value[6], segment_gap[6];
    float weight[4], left[4], right[4], gap_weight[5], min_freq[5];
    uint64_t answer[10];

    gelduvra_propose_split(
        COLUMN(prev), COLUMN(next),
        COLUMN(inst), COLUMN(weight), COLUMN(left), COLUMN(right),
        COLUMN(gap_from), COLUMN(gap_to), COLUMN(gap_weight), COLUMN(live), COLUMN(min_freq), COLUMN(gap_block),
        COLUMN(segment_from), COLUMN(segment_to), COLUMN(segment_value), COLUMN(segment_gap),
        COLUMN(freq), COLUMN(first), COLUMN(end), COLUMN(code),
        COLUMN(s_start), COLUMN(s_end), COLUMN(s_value), COLUMN(s_first_use),
        COLUMN(s_end_use), COLUMN(s_flags), COLUMN(position), COLUMN(u_kind),
        COLUMN(cost), EMPTY, EMPTY, EMPTY,
        EMPTY, EMPTY, EMPTY, EMPTY,
        EMPTY, EMPTY, EMPTY,
        0, 1065353216, 1065353216, 1065353216, 1,
        answer);

    const uint64_t expected[10] = {GELDUVRA_PROPOSAL, GELDUVRA_ABSENT, GELDUVRA_ABSENT, 1073741824, 4, 0, 0, 2, 2, 2};
    int differ = 0;
    for (int i = 0; i < 10; i++) {
        printf("%" PRIu64 "\n", answer[i]);
        differ |= answer[i] != expected[i];
    }
    /* What is entered for the register if the proposal is taken. */
    uint32_t entered = gelduvra_normalised_weight((uint32_t)answer[3], (uint32_t)answer[4], 0);
    printf("%" PRIu32 "\n", entered);
    return differ | (entered != 1056964608);
}
