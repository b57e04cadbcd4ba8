/* The proved split proposal, for programs in C: the three functions of crates/exports/out/libexports.a, which `bin/archive` makes.
 *
 * A column is a pointer and how many items it has; a table has as many rows as its shortest column. A pointer is never null, not
 * even of an empty column, and is aligned. No column that is written overlaps another. Nothing else is asked of the arguments: what
 * document 01 does not allow is refused, and then no column is changed. Frequencies, spill weights and scales are given as their
 * binary32 bits.
 */
#ifndef GELDUVRA_H
#define GELDUVRA_H

#include <stdbool.h>
#include <stddef.h>
#include <stdint.h>

#ifdef __cplusplus
extern "C" {
#endif

/* The symbols of the functions end in the version of this interface and in what to do, so that an archive of another version does not
 * link, and the linker's own message says how to get one that does, by the command's older name: today it is `bin/archive`. Programs use the
 * plain names. */
#define GELDUVRA_VERSIONED(name) name##_v3_else_run_rt_staticlib_exports
#define gelduvra_propose_split GELDUVRA_VERSIONED(gelduvra_propose_split)
#define gelduvra_find_optimal_split_point GELDUVRA_VERSIONED(gelduvra_find_optimal_split_point)
#define gelduvra_normalised_weight GELDUVRA_VERSIONED(gelduvra_normalised_weight)

/* The words of an answer: what it is, and six words more; the rows used of the use table, of the gaps and of the gap segments.
 * A proposal: left, right (GELDUVRA_ABSENT if absent), use weight, live instructions, interference weight, split cost; weights as bits.
 * A refusal: number, place. Words without a meaning are 0. */
enum gelduvra_answer { GELDUVRA_PROPOSAL = 0, GELDUVRA_NO_BEST_USE = 1, GELDUVRA_NO_REGION = 2, GELDUVRA_REFUSED = 3 };

#define GELDUVRA_ABSENT 4294967295u

/* The answer to a job, and its tables in the columns that are written, which come first. They need U+2, U+B+2, U+B+S+2 and B rows, for U uses, B blocks
 * and S segments; later rows are left as they were. */
void gelduvra_propose_split(
    /* links of each block: previous, next; 4294967295 if absent */
    uint32_t *prev_lower_freq, size_t prev_lower_freq_len,
    uint32_t *next_lower_freq, size_t next_lower_freq_len,
    /* use table: instruction, main, left and right weight */
    uint32_t *inst, size_t inst_len,
    float *weight, size_t weight_len,
    float *left_weight, size_t left_weight_len,
    float *right_weight, size_t right_weight_len,
    /* gaps: from, to, weight, live instructions, frequency, the block that carries it */
    uint32_t *gap_from, size_t gap_from_len,
    uint32_t *gap_to, size_t gap_to_len,
    float *gap_weight, size_t gap_weight_len,
    uint32_t *live, size_t live_len,
    float *min_freq, size_t min_freq_len,
    uint32_t *gap_block, size_t gap_block_len,
    /* gap segments: from and to point, value, gap */
    uint32_t *segment_from, size_t segment_from_len,
    uint32_t *segment_to, size_t segment_to_len,
    uint32_t *segment_value, size_t segment_value_len,
    uint32_t *segment_gap, size_t segment_gap_len,
    /* blocks: frequency bits, first instruction, end */
    const uint32_t *freq, size_t freq_len,
    const uint32_t *first, size_t first_len,
    const uint32_t *end, size_t end_len,
    /* values: rematerialisation code */
    const uint32_t *code, size_t code_len,
    /* segments: start and end point, value, first use, end use, flags */
    const uint32_t *s_start, size_t s_start_len,
    const uint32_t *s_end, size_t s_end_len,
    const uint32_t *s_value, size_t s_value_len,
    const uint32_t *s_first_use, size_t s_first_use_len,
    const uint32_t *s_end_use, size_t s_end_use_len,
    const uint32_t *s_flags, size_t s_flags_len,
    /* uses: position, kind, cost field */
    const uint32_t *position, size_t position_len,
    const uint32_t *u_kind, size_t u_kind_len,
    const uint32_t *cost, size_t cost_len,
    /* spill weights, as bits: where a reservation was entered for a proposal, exactly its gelduvra_normalised_weight */
    const uint32_t *spill_weight, size_t spill_weight_len,
    /* reservations: unit, start and end point, kind, index, fixed */
    const uint32_t *r_unit, size_t r_unit_len,
    const uint32_t *r_start, size_t r_start_len,
    const uint32_t *r_end, size_t r_end_len,
    const uint32_t *r_kind, size_t r_kind_len,
    const uint32_t *r_index, size_t r_index_len,
    const uint32_t *r_fixed, size_t r_fixed_len,
    /* fixed uses: unit, point, value */
    const uint32_t *f_unit, size_t f_unit_len,
    const uint32_t *f_point, size_t f_point_len,
    const uint32_t *f_value, size_t f_value_len,
    /* the adjustment k, the bits of the three scales, the units */
    uint32_t k, uint32_t cheaper_than_move, uint32_t cheaper_than_load, uint32_t indirect, uint32_t units,
    uint64_t answer[10]);

/* The lower-cost split point between two instructions. The words: 0 and the instruction, or 1 and a refusal's number and place. */
void gelduvra_find_optimal_split_point(
    const uint32_t *freq, size_t freq_len,
    const uint32_t *first, size_t first_len,
    const uint32_t *end, size_t end_len,
    uint32_t after, uint32_t before, bool prefer_early,
    uint64_t answer[3]);

/* The normalised weight of a proposal, as bits: of word 3, the bits of its use weight, of word 4, its live instructions, and of the k of
 * its job. It is the use weight over the instructions and k, rounded as proved, at most the largest finite float. Bits of a use weight
 * that are negative or not a number count as zero.
 * Whoever takes a proposal and evicts what its region meets enters exactly these bits as the spill weight of the register that evicts.
 * With another weight the law that evictions end does not hold. */
uint32_t gelduvra_normalised_weight(uint32_t use_weight, uint32_t live_insts, uint32_t k);

#ifdef __cplusplus
}
#endif

#endif
