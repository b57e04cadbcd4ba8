/* A job through the library whose ten words all differ, so that no two of them can be exchanged unseen; of its seven gaps no two name the
 * same block. Prints the words, the normalised weight and the blocks, and answers 0 if they are those of `oracle/run tables`. */
#include "gelduvra.h"

#include <inttypes.h>
#include <stdio.h>

#define COLUMN(name) name, sizeof name / sizeof *name
#define EMPTY none, 0

int main(void)
{
    const uint32_t freq[] = {0, 1065353216, 8388609, 1, 1065353216, 1, 8388607, 8388608, 0, 0, 0};
    const uint32_t first[] = {0, 1, 2, 3, 4, 5, 6, 7, 8, 9, 10};
    const uint32_t end[] = {1, 2, 3, 4, 5, 6, 7, 8, 9, 10, 11};
    const uint32_t code[] = {2, 1, 2};
    const uint32_t s_start[] = {2, 8, 9, 16, 22, 28};
    const uint32_t s_end[] = {8, 9, 13, 17, 28, 44};
    const uint32_t s_value[] = {0, 1, 0, 2, 1, 1};
    const uint32_t s_first_use[] = {0, 1, 2, 2, 3, 4};
    const uint32_t s_end_use[] = {1, 2, 2, 3, 4, 4};
    const uint32_t s_flags[] = {5, 0, 1, 13, 0, 7};
    const uint32_t position[] = {2, 2, 3, 7};
    const uint32_t u_kind[] = {2, 3, 0, 2};
    const uint32_t cost[] = {0, 0, 0, 0};
    const uint32_t spill_weight[] = {1233101, 2055167};
    const uint32_t r_unit[] = {0, 0};
    const uint32_t r_start[] = {6, 16};
    const uint32_t r_end[] = {9, 44};
    const uint32_t r_kind[] = {0, 0};
    const uint32_t r_index[] = {0, 0};
    const uint32_t r_fixed[] = {4294967295u, 4294967295u};
    const uint32_t none[1] = {0};
    uint32_t prev[11], next[11], inst[6], gap_from[17], gap_to[17], live[17], gap_block[17];
    uint32_t segment_from[23], segment_to[23], segment_value[23], segment_gap[23];
    float weight[6], left[6], right[6], gap_weight[17], min_freq[17];
    uint64_t answer[10];

    gelduvra_propose_split(
        COLUMN(prev), COLUMN(next),
        COLUMN(inst), COLUMN(weight), COLUMN(left), COLUMN(right),
        COLUMN(gap_from), COLUMN(gap_to), COLUMN(gap_weight), COLUMN(live), COLUMN(min_freq), COLUMN(gap_block),
        COLUMN(segment_from), COLUMN(segment_to), COLUMN(segment_value), COLUMN(segment_gap),
        COLUMN(freq), COLUMN(first), COLUMN(end), COLUMN(code),
        COLUMN(s_start), COLUMN(s_end), COLUMN(s_value), COLUMN(s_first_use),
        COLUMN(s_end_use), COLUMN(s_flags), COLUMN(position), COLUMN(u_kind),
        COLUMN(cost), COLUMN(spill_weight), COLUMN(r_unit), COLUMN(r_start),
        COLUMN(r_end), COLUMN(r_kind), COLUMN(r_index), COLUMN(r_fixed),
        EMPTY, EMPTY, EMPTY,
        1, 1065353216, 1056964608, 1199570944, 1,
        answer);

    const uint64_t expected[10] = {GELDUVRA_PROPOSAL, 1, 4, 6291456, 3, 1233101, 1065353216, 5, 7, 9};
    int differ = 0;
    for (int i = 0; i < 10; i++) {
        printf("%" PRIu64 "\n", answer[i]);
        differ |= answer[i] != expected[i];
    }
    /* What is entered for the register if the proposal is taken. */
    uint32_t entered = gelduvra_normalised_weight((uint32_t)answer[3], (uint32_t)answer[4], 1);
    printf("%" PRIu32 "\n", entered);
    /* The block behind each gap's frequency. */
    const uint32_t blocks[7] = {0, 1, 2, 3, 4, 5, 8};
    for (int i = 0; i < 7; i++) {
        printf("%" PRIu32 "\n", gap_block[i]);
        differ |= gap_block[i] != blocks[i];
    }
    return differ | (entered != 1572864);
}
