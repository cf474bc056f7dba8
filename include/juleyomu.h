/* Juleyomu: fee rates to confirm within N blocks, for a program in C11 or C++.
 *
 * `tools/library`, at the root of the repository, writes target/staticlib/libexports.a (x86-64
 * Linux), which has these functions and no others:
 *
 *     cc -std=c11 -I include program.c target/staticlib/libexports.a
 *
 * Rates are sat/kvB, weights are weight units (WU), targets, depths and heights count blocks, clocks are
 * nanoseconds.
 *
 * A list is two arguments, a pointer and its number of elements. The pointer is never NULL, not even of an
 * empty list. No list that a call may write overlaps another argument. An array is a pointer to at least
 * as many places as its declaration says; nothing checks that.
 *
 * A list of rates is numbers and marks: mark 1 where the rate is there, 0 where it is missing. A single
 * rate under any other mark than 1 is missing.
 *
 * A function that can refuse answers with the number of its refusal, or JULEYOMU_DONE. A refused call
 * leaves states and lists as they were. No function allocates, keeps a pointer, or stops the program.
 */
#ifndef JULEYOMU_H
#define JULEYOMU_H

#include <stdbool.h>
#include <stddef.h>
#include <stdint.h>

#ifdef __cplusplus
extern "C" {
#endif

/* ---- Refusals ---- */

#define JULEYOMU_DONE 0
/* Lists that belong together differ in length: candidates and stock, the numbers and marks of one list of
 * rates, the lists of the loop over depths, output numbers and marks. Asked first. The history's own rows
 * are judged by 5 alone. */
#define JULEYOMU_REFUSAL_LENGTHS 1
/* A depth is less than the one before it. Asked after JULEYOMU_REFUSAL_MARK. */
#define JULEYOMU_REFUSAL_DEPTHS 2
/* More than JULEYOMU_MAX_TARGETS targets, at an opening or in a state that no call returned. */
#define JULEYOMU_REFUSAL_TARGETS 3
/* No room: a connect above held heights that fill the capacity, a preload of an absent height into a full
 * history, a push onto full windows, a rebuild longer than the capacity. */
#define JULEYOMU_REFUSAL_FULL 4
/* A capacity above JULEYOMU_MAX_CAPACITY, a lent list shorter than asked for (by the capacity, or for
 * JULEYOMU_RECENT_HASHES hashes), a state whose start and count together pass its capacity or that has more
 * hashes, or an output list shorter than the answer. Asked after 3 and before 4. */
#define JULEYOMU_REFUSAL_MEMORY 5
/* The median or a quantile of an empty list. */
#define JULEYOMU_REFUSAL_EMPTY 6
/* A quantile's confidence is NaN or outside 0 to 1. Asked after 6. */
#define JULEYOMU_REFUSAL_CONFIDENCE 7
/* An input mark other than 0 or 1. Asked after 1; the marks of an output list are only written. */
#define JULEYOMU_REFUSAL_MARK 8

/* ---- Sizes ---- */

/* Edges of the fee buckets, which are the default candidates too. */
#define JULEYOMU_EDGES 401
/* Fee buckets: one from each edge on; the last is open, for rates above the last edge. */
#define JULEYOMU_BUCKETS 402
/* Numbers of juleyomu_inflow_suffix_wu. */
#define JULEYOMU_SUFFIXES 403
/* Targets of one history or of one set of pair windows, at most. */
#define JULEYOMU_MAX_TARGETS 16
/* Blocks of one history, or hurdles of one set of pair windows, at most. */
#define JULEYOMU_MAX_CAPACITY 65536
/* Kept hashes, whatever the capacity: as many heights, and 32 bytes for each. */
#define JULEYOMU_RECENT_HASHES 144
#define JULEYOMU_HASH_BYTES 32
/* Pairs that a target needs before it answers. */
#define JULEYOMU_READY_PAIRS 2000

/* ---- Structs ---- */

/* A rate that may be missing: 1 and its number, or 0 and 0. */
typedef struct {
    uint8_t mark;
    uint64_t rate;
} JuleyomuMarkedRate;

/* An answer: a refusal or 0; 1 where a rate is there and else 0; the rate or 0. */
typedef struct {
    uint8_t refusal;
    uint8_t mark;
    uint64_t rate;
} JuleyomuRateFields;

/* A refusal or 0, and a count or 0. */
typedef struct {
    uint8_t refusal;
    size_t count;
} JuleyomuCountFields;

/* The admission meter: decayed WU/s of each bucket, decayed admitted WU, decay clock and admit clock. */
typedef struct {
    double admit_wu_s[JULEYOMU_BUCKETS];
    double admitted_wu;
    uint64_t last;
    uint64_t last_admit;
} JuleyomuFeeFlowMeter;

/* The WU/s admitted to each bucket, rounded. */
typedef struct {
    uint64_t wu_s[JULEYOMU_BUCKETS];
} JuleyomuAdmitRates;

/* Pair windows: `count` hurdles from place `start` on, and the pairs of the first `tracked` targets. */
typedef struct {
    uint32_t targets[JULEYOMU_MAX_TARGETS];
    size_t tracked;
    size_t capacity;
    size_t start;
    size_t count;
} JuleyomuAnalogHistory;

/* A refusal or 0, and the windows. */
typedef struct {
    uint8_t refusal;
    JuleyomuAnalogHistory state;
} JuleyomuUpdateFields;

/* A block: its hurdle (mark and sat/kvB, missing for a block without one) and its byte count. */
typedef struct {
    uint8_t mark;
    uint64_t rate;
    uint64_t bytes;
} JuleyomuMarkedBlock;

/* A refusal or 0; whether the height is held, and its block; else zeros. */
typedef struct {
    uint8_t refusal;
    bool held;
    JuleyomuMarkedBlock block;
} JuleyomuBlockFields;

/* A block's hash, or none. */
typedef struct {
    bool there;
    uint8_t bytes[JULEYOMU_HASH_BYTES];
} JuleyomuBlockHash;

/* A history: `count` rows from place `start` on, `hashes` hashes from place 0 on, the byte total and its
 * budget, and the last answer of juleyomu_history_rates until the next accepted connect, preload of an
 * absent height or cut. */
typedef struct {
    JuleyomuAnalogHistory analog;
    bool analog_stale;
    size_t start;
    size_t count;
    uint64_t txstat_bytes;
    uint64_t budget;
    size_t hashes;
    bool kept;
    uint64_t kept_numbers[JULEYOMU_MAX_TARGETS];
    uint8_t kept_marks[JULEYOMU_MAX_TARGETS];
} JuleyomuFeeHistory;

/* A refusal or 0, and the history. */
typedef struct {
    uint8_t refusal;
    JuleyomuFeeHistory state;
} JuleyomuHistoryFields;

/* hi * 2^64 + lo. */
typedef struct {
    uint64_t hi;
    uint64_t lo;
} JuleyomuWide;

/* A quotient and its remainder. */
typedef struct {
    JuleyomuWide quotient;
    uint64_t remainder;
} JuleyomuWideDivision;

/* ---- Edges and capacity ---- */

/* The bucket of a rate in sat/kvB: 0 below the second edge, 401 above 1,000,000. */
size_t juleyomu_bucket_index(uint64_t rate);

/* The first bucket whose floor is above a rate in sat/kvB; 402 where none is. */
size_t juleyomu_first_bucket_above(uint64_t rate);

/* The number of buckets, 402. */
size_t juleyomu_bucket_count(void);

/* The weight of n blocks in WU, 4,000,000 each; at least one block. */
uint64_t juleyomu_capacity_wu(uint32_t n);

/* The planned time of n blocks in seconds, 600 each; at least one block. */
uint64_t juleyomu_horizon_secs(uint32_t n);

/* The same, at most 600 seconds: how long an inflow is trusted. */
uint64_t juleyomu_inflow_horizon_secs(uint32_t n);

/* The weight to fill of n blocks in WU: 3,200,000 up to one block, else 3,800,000 x n. */
uint64_t juleyomu_effective_capacity_wu(uint32_t n);

/* The confidence of the capacity at n blocks: 0.999 up to one block, else 0.99. */
double juleyomu_inclusion_confidence(uint32_t n);

/* The edges of the buckets in sat/kvB, ascending from 100 to 1,000,000. */
void juleyomu_flow_bucket_edges(uint64_t out[JULEYOMU_EDGES]);

/* The default candidates in sat/kvB: the edges. */
void juleyomu_default_candidate_rates(uint64_t out[JULEYOMU_EDGES]);

/* The fine candidates in sat/kvB: the edges. */
void juleyomu_fine_candidate_rates(uint64_t out[JULEYOMU_EDGES]);

/* The weight in WU that flows into each bucket and those above it within `secs` seconds, from WU/s. */
void juleyomu_inflow_suffix_wu(const uint64_t *inflow, size_t inflow_len, uint64_t secs,
                               uint64_t out[JULEYOMU_SUFFIXES]);

/* The least candidate (sat/kvB) above which stock (WU, one for each candidate) and inflow (WU/s for each
 * bucket) fit into n blocks; no rate where none fits. Refuses 1. */
JuleyomuRateFields juleyomu_min_rate_for_capacity(const uint64_t *candidates, size_t candidates_len,
                                                  const uint64_t *stock, size_t stock_len,
                                                  const uint64_t *inflow, size_t inflow_len, uint32_t n);

/* The rate at a percentile (above 100 counts as 100) of rates in any order; no rate of an empty list. */
JuleyomuRateFields juleyomu_percentile_sat(const uint64_t *v, size_t v_len, uint8_t pct);

/* ---- Admission meter ---- */

/* The meter's half-life in seconds, 150. */
double juleyomu_admit_half_life_secs(void);

/* The admitted weight in WU that counts as full: what a full block every 600 seconds leaves. */
double juleyomu_flow_full_wu(void);

/* A meter that has seen nothing, opened at a clock. */
JuleyomuFeeFlowMeter juleyomu_fee_flow_meter(uint64_t now);

/* How full the meter is, from 0 to 1, decayed to the clock t; NaN where its total is NaN then. */
double juleyomu_fullness(JuleyomuFeeFlowMeter *m, uint64_t t);

/* The WU/s admitted to each bucket, decayed to the clock t. */
JuleyomuAdmitRates juleyomu_admit_rates_wu_s(JuleyomuFeeFlowMeter *m, uint64_t t);

/* Note a transaction of a weight in WU and a rate in sat/kvB, admitted at the clock t. */
void juleyomu_note_admit(JuleyomuFeeFlowMeter *m, uint64_t weight_wu, uint64_t rate, uint64_t t);

/* ---- Pair windows ----
 * Lent: `capacity` hurdles, and targets x capacity places of `befores` and of `aheads`. */

/* A window's median within this ratio of the present one looks like now: 1.25. */
double juleyomu_analog_band(void);

/* The confidence of a historical rate from two blocks on, 0.95. */
double juleyomu_historical_confidence_far(void);

/* The hurdles before a window of n blocks whose median is taken: n / 4, from 3 to 144. */
size_t juleyomu_analog_lookback(uint32_t n);

/* The logarithm of a rate in sat/kvB, of at least 1. */
double juleyomu_ln_rate(uint64_t rate);

/* The lower median of rates in any order. Refuses 6. */
JuleyomuRateFields juleyomu_lower_median(const uint64_t *values, size_t values_len);

/* The quantile of rates, between two of them on the scale of logarithms; sorts the list. Refuses 6, 7. */
JuleyomuRateFields juleyomu_log_quantile(uint64_t *outcomes, size_t outcomes_len, double confidence);

/* Windows with nothing held, for these targets (blocks). Refuses 3, 5. */
JuleyomuUpdateFields juleyomu_windows_new(const uint32_t *targets, size_t targets_len, size_t capacity,
                                          const uint64_t *hurdles, size_t hurdles_len,
                                          const double *befores, size_t befores_len,
                                          const uint64_t *aheads, size_t aheads_len);

/* Add the newest block's hurdle (sat/kvB). Refuses 3, 5, 4. */
JuleyomuUpdateFields juleyomu_windows_push_back(JuleyomuAnalogHistory state, uint64_t hurdle,
                                                uint64_t *hurdles, size_t hurdles_len, double *befores,
                                                size_t befores_len, uint64_t *aheads,
                                                size_t aheads_len);

/* Add an older block's hurdle (sat/kvB) before the others. Refuses 3, 5, 4. */
JuleyomuUpdateFields juleyomu_windows_push_front(JuleyomuAnalogHistory state, uint64_t hurdle,
                                                 uint64_t *hurdles, size_t hurdles_len, double *befores,
                                                 size_t befores_len, uint64_t *aheads,
                                                 size_t aheads_len);

/* Drop the newest block's hurdle. Refuses 3, 5 (a state that no call returned). */
JuleyomuUpdateFields juleyomu_windows_pop_back(JuleyomuAnalogHistory state);

/* Drop the oldest block's hurdle. Refuses 3, 5 (a state that no call returned). */
JuleyomuUpdateFields juleyomu_windows_pop_front(JuleyomuAnalogHistory state);

/* Replace all hurdles (sat/kvB, oldest first). Refuses 3, 5, 4. */
JuleyomuUpdateFields juleyomu_windows_rebuild(JuleyomuAnalogHistory state, const uint64_t *from,
                                              size_t from_len, uint64_t *hurdles, size_t hurdles_len,
                                              double *befores, size_t befores_len, uint64_t *aheads,
                                              size_t aheads_len);

/* How many pairs a target of n blocks has (0 blocks count as 1); 0 for a target that is not tracked.
 * Refuses 3, 5. */
JuleyomuCountFields juleyomu_windows_pairs(JuleyomuAnalogHistory state, uint32_t n);

/* The quantile `confidence`, in logarithms, of what the windows like now asked for within n blocks; no rate
 * under 2,000 pairs, for a target that is not tracked (0 blocks count as 1), or where `confidence` is NaN or
 * outside 0 to 1.
 * `scratch` has at least `capacity` places; all of it may be overwritten where there is a rate. Refuses 3, 5. */
JuleyomuRateFields juleyomu_windows_rate_sat_kvb(JuleyomuAnalogHistory state, uint32_t n,
                                                 double confidence, const uint64_t *hurdles,
                                                 size_t hurdles_len, const double *befores,
                                                 size_t befores_len, const uint64_t *aheads,
                                                 size_t aheads_len, uint64_t *scratch,
                                                 size_t scratch_len);

/* ---- Held blocks ----
 * Lent: four lists of `capacity` rows (heights, marks, rates, sizes), 144 hash heights, 144 x 32 hash
 * bytes, and the pair windows' three lists. The state passes by value: go on with the one returned. */

/* A history with nothing held, of at most `budget` bytes of blocks, for these targets. Refuses 3, 5. */
JuleyomuHistoryFields juleyomu_history_new(uint64_t budget, const uint32_t *targets, size_t targets_len,
                                           size_t capacity, const uint32_t *heights, size_t heights_len,
                                           const uint8_t *marks, size_t marks_len,
                                           const uint64_t *rates, size_t rates_len,
                                           const uint64_t *sizes, size_t sizes_len,
                                           const uint32_t *hash_heights, size_t hash_heights_len,
                                           const uint8_t *hash_bytes, size_t hash_bytes_len,
                                           const uint64_t *hurdles, size_t hurdles_len,
                                           const double *befores, size_t befores_len,
                                           const uint64_t *aheads, size_t aheads_len);

/* The held block of a height. Refuses 3, 5. */
JuleyomuBlockFields juleyomu_history_get(JuleyomuFeeHistory state, uint32_t height,
                                         const uint32_t *heights, size_t heights_len,
                                         const uint8_t *marks, size_t marks_len, const uint64_t *rates,
                                         size_t rates_len, const uint64_t *sizes, size_t sizes_len);

/* Connect a block: it replaces its height and every height above. Refuses 3, 5, 4. */
JuleyomuHistoryFields juleyomu_history_insert(JuleyomuFeeHistory state, uint32_t height,
                                              JuleyomuMarkedBlock block, JuleyomuBlockHash hash,
                                              uint32_t *heights, size_t heights_len, uint8_t *marks,
                                              size_t marks_len, uint64_t *rates, size_t rates_len,
                                              uint64_t *sizes, size_t sizes_len,
                                              uint32_t *hash_heights, size_t hash_heights_len,
                                              uint8_t *hash_bytes, size_t hash_bytes_len,
                                              uint64_t *hurdles, size_t hurdles_len, double *befores,
                                              size_t befores_len, uint64_t *aheads, size_t aheads_len);

/* Preload a block: kept only where its height is not held. Refuses 3, 5, 4. */
JuleyomuHistoryFields juleyomu_history_insert_if_absent(
    JuleyomuFeeHistory state, uint32_t height, JuleyomuMarkedBlock block, JuleyomuBlockHash hash,
    uint32_t *heights, size_t heights_len, uint8_t *marks, size_t marks_len, uint64_t *rates,
    size_t rates_len, uint64_t *sizes, size_t sizes_len, uint32_t *hash_heights,
    size_t hash_heights_len, uint8_t *hash_bytes, size_t hash_bytes_len, uint64_t *hurdles,
    size_t hurdles_len, double *befores, size_t befores_len, uint64_t *aheads, size_t aheads_len);

/* Drop every block above a height; at 4,294,967,295 that height too. Refuses 3, 5. */
JuleyomuHistoryFields juleyomu_history_truncate_above(
    JuleyomuFeeHistory state, uint32_t height, const uint32_t *heights, size_t heights_len,
    const uint8_t *marks, size_t marks_len, const uint64_t *rates, size_t rates_len,
    const uint64_t *sizes, size_t sizes_len, const uint32_t *hash_heights, size_t hash_heights_len,
    const uint8_t *hash_bytes, size_t hash_bytes_len);

/* The historical rate (sat/kvB) for each target, in their order; missing while a target has under 2,000
 * pairs. `scratch` has at least `capacity` places; all of it may be overwritten where there is a rate.
 * Refuses 1 (output numbers and marks), 3, 5. */
JuleyomuHistoryFields juleyomu_history_rates(JuleyomuFeeHistory state, const uint32_t *heights,
                                             size_t heights_len, const uint8_t *marks, size_t marks_len,
                                             const uint64_t *rates, size_t rates_len,
                                             const uint64_t *sizes, size_t sizes_len, uint64_t *hurdles,
                                             size_t hurdles_len, double *befores, size_t befores_len,
                                             uint64_t *aheads, size_t aheads_len, uint64_t *scratch,
                                             size_t scratch_len, uint64_t *out_numbers,
                                             size_t out_numbers_len, uint8_t *out_marks,
                                             size_t out_marks_len);

/* The held blocks, oldest first, at the front of the output lists; how many. Refuses 1, 3, 5. */
JuleyomuCountFields juleyomu_history_entries(JuleyomuFeeHistory state, const uint32_t *heights,
                                             size_t heights_len, const uint8_t *marks, size_t marks_len,
                                             const uint64_t *rates, size_t rates_len,
                                             const uint64_t *sizes, size_t sizes_len,
                                             uint32_t *out_heights, size_t out_heights_len,
                                             uint8_t *out_marks, size_t out_marks_len,
                                             uint64_t *out_rates, size_t out_rates_len,
                                             uint64_t *out_sizes, size_t out_sizes_len);

/* The kept hashes, oldest first: heights, and 32 bytes for each; how many. Refuses 3, 5. */
JuleyomuCountFields juleyomu_history_recent_hashes(JuleyomuFeeHistory state, const uint32_t *heights,
                                                   size_t heights_len, const uint8_t *bytes,
                                                   size_t bytes_len, uint32_t *out_heights,
                                                   size_t out_heights_len, uint8_t *out_bytes,
                                                   size_t out_bytes_len);

/* ---- Depth rates and targets ---- */

/* The weight of the live flow beside history at n blocks, at least one: exp(-(n - 1) / 6). */
double juleyomu_blend_weight(uint32_t n);

/* The flow's rate at n blocks: the greater of projected and frontier; projected alone up to 5 blocks. */
JuleyomuMarkedRate juleyomu_flow_for_depth(JuleyomuMarkedRate projected, JuleyomuMarkedRate frontier,
                                           uint32_t n);

/* Flow and history blended by the weight of n blocks; where one is missing, the other. */
JuleyomuMarkedRate juleyomu_blend_sat_kvb(JuleyomuMarkedRate flow, JuleyomuMarkedRate hist, uint32_t n);

/* Cold and warm blended by the warm-up share, held within 0 to 1, NaN and infinities as 0; warm alone only
 * at share 1. */
JuleyomuMarkedRate juleyomu_warmup_blend(double alpha, JuleyomuMarkedRate cold,
                                         JuleyomuMarkedRate warm);

/* The rate at n blocks, cold (history, raised by the frontier) or warm (flow blended with history; up to one
 * block the flow, and history where it is missing). */
JuleyomuMarkedRate juleyomu_depth_rate_sat_kvb(uint32_t n, bool flow_warm, JuleyomuMarkedRate flow,
                                               JuleyomuMarkedRate frontier, JuleyomuMarkedRate hist);

/* The published rate at n blocks: cold and warm blended by the share; up to one block, with a finite share
 * above 0, confirm is a floor of the warm one, or the warm one where that is missing. */
JuleyomuMarkedRate juleyomu_published_depth_rate(uint32_t n, double alpha, JuleyomuMarkedRate flow,
                                                 JuleyomuMarkedRate frontier, JuleyomuMarkedRate hist,
                                                 JuleyomuMarkedRate confirm);

/* Lower each rate to the least before it, so that no farther depth is dearer. */
void juleyomu_enforce_monotone_desc(uint64_t *rates, size_t rates_len);

/* Fill each hole after the first rate from the rate before it, then the same. Refuses 1, 8. */
uint8_t juleyomu_hold_defined_then_monotone(uint64_t *rates, size_t rates_len, uint8_t *marks,
                                            size_t marks_len);

/* The loop over depths (blocks): the published rate at each depth, held and never rising. Refuses 1, 8, 2. */
uint8_t juleyomu_published_depth_rates(
    const uint32_t *depths, size_t depths_len, const uint64_t *projected, size_t projected_len,
    const uint8_t *projected_marks, size_t projected_marks_len, const uint64_t *frontier,
    size_t frontier_len, const uint8_t *frontier_marks, size_t frontier_marks_len,
    const uint64_t *history, size_t history_len, const uint8_t *history_marks,
    size_t history_marks_len, JuleyomuMarkedRate confirm, double alpha, uint64_t *out, size_t out_len,
    uint8_t *out_marks, size_t out_marks_len);

/* The straight line from `left` at depth d0 to `right` at depth d1 (sat/kvB), at a target in blocks; outside
 * of them the nearer end, and `left` where d1 is not above d0. */
uint64_t juleyomu_lerp_sat_kvb(uint32_t d0, uint64_t left, uint32_t d1, uint64_t right, uint32_t target);

/* The quote (sat/kvB) for a target in blocks, from the depths and their published rates; no rate for a
 * target below every depth with a rate, at a depth whose own rate is missing, or, after refusal 1 and
 * before 8 and 2, where there are no depths or not as many as rates. Refuses 1 (rates and marks), 8, 2. */
JuleyomuRateFields juleyomu_fee_at_target_sat_kvb(const uint32_t *depths, size_t depths_len,
                                                  const uint64_t *rates, size_t rates_len,
                                                  const uint8_t *marks, size_t marks_len,
                                                  uint32_t target);

/* ---- Numbers ----
 * What the functions above reckon with. A cast of a float to a whole number gives 0 for NaN and below
 * zero, and the largest u64 when too big. */

/* The nearest double, ties to even. */
double juleyomu_f64_from_u64(uint64_t n);

/* Cut to a whole number. */
uint64_t juleyomu_f64_to_u64(double x);

/* Rounded to a whole number, halves away from zero. */
uint64_t juleyomu_round_to_u64(double x);

/* Neither NaN nor infinite. */
bool juleyomu_is_finite(double x);

/* The greater; the other one where one is NaN. */
double juleyomu_max(double x, double y);

/* x, held from lo to hi. */
double juleyomu_clamp(double x, double lo, double hi);

/* The greatest whole number that is not above x. */
double juleyomu_floor(double x);

/* The least whole number that is not below x. */
double juleyomu_ceil(double x);

/* The exponential: one fixed series, the same bits on every machine. */
double juleyomu_exp(double x);

/* a + b, at most the largest u64. */
uint64_t juleyomu_saturating_add(uint64_t a, uint64_t b);

/* a - b, at least 0. */
uint64_t juleyomu_saturating_sub(uint64_t a, uint64_t b);

/* a * b, at most the largest u64. */
uint64_t juleyomu_saturating_mul(uint64_t a, uint64_t b);

/* The lesser of two. */
uint64_t juleyomu_least(uint64_t a, uint64_t b);

/* The greater of two. */
uint64_t juleyomu_greatest(uint64_t a, uint64_t b);

/* a * b in two words. */
JuleyomuWide juleyomu_wide_product(uint64_t a, uint64_t b);

/* a + b in two words, modulo 2^128. */
JuleyomuWide juleyomu_wide_sum(JuleyomuWide a, JuleyomuWide b);

/* n / d and its remainder; 0 and 0 where d is 0. */
JuleyomuWideDivision juleyomu_wide_divide(JuleyomuWide n, uint64_t d);

/* The natural logarithm of a whole number (minus infinity of 0): one fixed series. */
double juleyomu_ln(uint64_t n);

/* The natural logarithm of 1.25, of the same series. */
double juleyomu_ln_1_25(void);

#ifdef __cplusplus
}
#endif

#endif
