/* Checks the header against the library: sizes of the structs, the starred cases A to K, every refusal, and a
 * short history. Says on standard error what is wrong; exit status 0 where nothing is. At the root:
 *
 *     cc -std=c11 -Wall -Wextra -pedantic -Werror -I include include/check.c \
 *         target/staticlib/libexports.a -o target/check && target/check
 */
#include "juleyomu.h"

#include <math.h>
#include <stdio.h>
#include <string.h>

/* The Rust wrapper asserts the same sizes and offsets (juleyomu/src/ffi.rs). */
_Static_assert(sizeof(size_t) == 8, "size_t");
_Static_assert(sizeof(bool) == 1, "bool");
_Static_assert(sizeof(JuleyomuMarkedRate) == 16, "JuleyomuMarkedRate");
_Static_assert(sizeof(JuleyomuRateFields) == 16, "JuleyomuRateFields");
_Static_assert(offsetof(JuleyomuRateFields, mark) == 1, "JuleyomuRateFields.mark");
_Static_assert(sizeof(JuleyomuCountFields) == 16, "JuleyomuCountFields");
_Static_assert(sizeof(JuleyomuFeeFlowMeter) == 3240, "JuleyomuFeeFlowMeter");
_Static_assert(offsetof(JuleyomuFeeFlowMeter, last_admit) == 3232, "JuleyomuFeeFlowMeter.last_admit");
_Static_assert(sizeof(JuleyomuAdmitRates) == 3216, "JuleyomuAdmitRates");
_Static_assert(sizeof(JuleyomuAnalogHistory) == 96, "JuleyomuAnalogHistory");
_Static_assert(sizeof(JuleyomuUpdateFields) == 104, "JuleyomuUpdateFields");
_Static_assert(sizeof(JuleyomuMarkedBlock) == 24, "JuleyomuMarkedBlock");
_Static_assert(sizeof(JuleyomuBlockFields) == 32, "JuleyomuBlockFields");
_Static_assert(offsetof(JuleyomuBlockFields, held) == 1, "JuleyomuBlockFields.held");
_Static_assert(sizeof(JuleyomuBlockHash) == 33, "JuleyomuBlockHash");
_Static_assert(sizeof(JuleyomuFeeHistory) == 296, "JuleyomuFeeHistory");
_Static_assert(offsetof(JuleyomuFeeHistory, txstat_bytes) == 120, "JuleyomuFeeHistory.txstat_bytes");
_Static_assert(offsetof(JuleyomuFeeHistory, kept_marks) == 280, "JuleyomuFeeHistory.kept_marks");
_Static_assert(sizeof(JuleyomuHistoryFields) == 304, "JuleyomuHistoryFields");
_Static_assert(sizeof(JuleyomuWide) == 16, "JuleyomuWide");
_Static_assert(sizeof(JuleyomuWideDivision) == 24, "JuleyomuWideDivision");

static int failures = 0;

static void is_true(int line, const char *what, bool holds) {
    if (!holds) {
        fprintf(stderr, "check.c:%d: %s\n", line, what);
        failures++;
    }
}

#define CHECK(fact) is_true(__LINE__, #fact, fact)

static bool found(JuleyomuRateFields a, uint64_t rate) {
    return a.refusal == JULEYOMU_DONE && a.mark == 1 && a.rate == rate;
}

static bool nothing(JuleyomuRateFields a) {
    return a.refusal == JULEYOMU_DONE && a.mark == 0 && a.rate == 0;
}

static bool refused(JuleyomuRateFields a, uint8_t number) {
    return a.refusal == number && a.mark == 0 && a.rate == 0;
}

static bool there(JuleyomuMarkedRate a, uint64_t rate) {
    return a.mark == 1 && a.rate == rate;
}

static bool missing(JuleyomuMarkedRate a) {
    return a.mark == 0 && a.rate == 0;
}

static JuleyomuMarkedRate rate_of(uint64_t rate) {
    JuleyomuMarkedRate a = {1, rate};
    return a;
}

static const JuleyomuMarkedRate NONE = {0, 0};

static void cases_a_to_d(void) {
    CHECK(juleyomu_bucket_index(0) == 0);
    CHECK(juleyomu_bucket_index(99) == 0);
    CHECK(juleyomu_bucket_index(101) == 0);
    CHECK(juleyomu_bucket_index(102) == 1);
    CHECK(juleyomu_bucket_index(1000000) == 400);
    CHECK(juleyomu_bucket_index(1000001) == 401);
    CHECK(juleyomu_first_bucket_above(0) == 0);
    CHECK(juleyomu_first_bucket_above(100) == 1);
    CHECK(juleyomu_first_bucket_above(1000000) == 401);
    CHECK(juleyomu_first_bucket_above(1000001) == 402);
    CHECK(juleyomu_effective_capacity_wu(0) == 3200000);
    CHECK(juleyomu_effective_capacity_wu(2) == 7600000);
    CHECK(juleyomu_effective_capacity_wu(UINT32_MAX) == UINT64_C(16320875721000000));
    CHECK(juleyomu_lerp_sat_kvb(3, 10, 6, 5, 4) == 8);
    CHECK(juleyomu_lerp_sat_kvb(3, 10, 6, 5, 5) == 7);
    CHECK(juleyomu_lerp_sat_kvb(1, 4, 3, 1, 2) == 3);
}

static void cases_e_and_f(void) {
    uint64_t rates[7] = {0, 9, 0, 12, 7, 0, 8};
    uint8_t marks[7] = {0, 1, 0, 1, 1, 0, 1};
    const uint64_t held[7] = {0, 9, 9, 9, 7, 7, 7};
    const uint8_t held_marks[7] = {0, 1, 1, 1, 1, 1, 1};
    CHECK(juleyomu_hold_defined_then_monotone(rates, 7, marks, 7) == JULEYOMU_DONE);
    CHECK(memcmp(rates, held, sizeof held) == 0);
    CHECK(memcmp(marks, held_marks, sizeof held_marks) == 0);

    const uint32_t depths[3] = {2, 6, 12};
    const uint64_t board[3] = {0, 600, 300};
    const uint8_t board_marks[3] = {0, 1, 1};
    CHECK(nothing(juleyomu_fee_at_target_sat_kvb(depths, 3, board, 3, board_marks, 3, 1)));
    CHECK(nothing(juleyomu_fee_at_target_sat_kvb(depths, 3, board, 3, board_marks, 3, 2)));
    CHECK(nothing(juleyomu_fee_at_target_sat_kvb(depths, 3, board, 3, board_marks, 3, 4)));
    CHECK(found(juleyomu_fee_at_target_sat_kvb(depths, 3, board, 3, board_marks, 3, 9), 450));
    CHECK(found(juleyomu_fee_at_target_sat_kvb(depths, 3, board, 3, board_marks, 3, 1000), 300));
}

static void cases_g_to_k(void) {
    const uint64_t four[4] = {1, 2, 3, 4};
    CHECK(found(juleyomu_percentile_sat(four, 4, 50), 2));
    CHECK(found(juleyomu_percentile_sat(four, 4, 255), 4));
    CHECK(nothing(juleyomu_percentile_sat(four, 0, 50)));
    const uint64_t values[4] = {5, 1, 4, 2};
    CHECK(found(juleyomu_lower_median(values, 4), 2));
    CHECK(juleyomu_analog_lookback(0) == 3);
    CHECK(juleyomu_analog_lookback(12) == 3);
    CHECK(juleyomu_analog_lookback(16) == 4);
    CHECK(juleyomu_analog_lookback(576) == 144);
    CHECK(there(juleyomu_warmup_blend(0.5, rate_of(3), rate_of(4)), 4));
    CHECK(there(juleyomu_warmup_blend(NAN, rate_of(3), rate_of(4)), 3));
    CHECK(missing(juleyomu_warmup_blend(0.99, NONE, rate_of(4))));
    CHECK(there(juleyomu_warmup_blend(1.0, NONE, rate_of(4)), 4));
    const uint64_t candidate = 1000000, fits = 3198800, too_much = 3198801;
    uint64_t inflow[JULEYOMU_BUCKETS] = {0};
    inflow[JULEYOMU_BUCKETS - 1] = 1;
    CHECK(found(juleyomu_min_rate_for_capacity(&candidate, 1, &fits, 1, inflow, JULEYOMU_BUCKETS, 1),
                1000000));
    CHECK(nothing(
        juleyomu_min_rate_for_capacity(&candidate, 1, &too_much, 1, inflow, JULEYOMU_BUCKETS, 1)));
}

static void refusals_of_the_desk(void) {
    const uint64_t two[2] = {1, 2};
    CHECK(refused(juleyomu_min_rate_for_capacity(two, 2, two, 1, two, 2, 1), JULEYOMU_REFUSAL_LENGTHS));
    CHECK(refused(juleyomu_lower_median(two, 0), JULEYOMU_REFUSAL_EMPTY));
    uint64_t sorted[2] = {2, 1};
    CHECK(refused(juleyomu_log_quantile(sorted, 0, NAN), JULEYOMU_REFUSAL_EMPTY));
    CHECK(refused(juleyomu_log_quantile(sorted, 2, NAN), JULEYOMU_REFUSAL_CONFIDENCE));
    CHECK(refused(juleyomu_log_quantile(sorted, 2, 1.5), JULEYOMU_REFUSAL_CONFIDENCE));
    CHECK(sorted[0] == 2 && sorted[1] == 1);
    CHECK(found(juleyomu_log_quantile(sorted, 2, 1.0), 2));
    CHECK(sorted[0] == 1 && sorted[1] == 2);

    const uint32_t depths[2] = {2, 1};
    const uint8_t marks[2] = {1, 1}, bad_marks[2] = {1, 2};
    uint64_t out[2] = {7, 7};
    uint8_t out_marks[2] = {7, 7};
    CHECK(juleyomu_published_depth_rates(depths, 2, two, 2, marks, 2, two, 2, marks, 2, two, 2, marks, 2, NONE,
                                         1.0, out, 2, out_marks, 1) == JULEYOMU_REFUSAL_LENGTHS);
    CHECK(juleyomu_published_depth_rates(depths, 2, two, 2, marks, 2, two, 2, bad_marks, 2, two, 2, marks, 2,
                                         NONE, 1.0, out, 2, out_marks, 2) == JULEYOMU_REFUSAL_MARK);
    CHECK(juleyomu_published_depth_rates(depths, 2, two, 2, marks, 2, two, 2, marks, 2, two, 2, marks, 2, NONE,
                                         1.0, out, 2, out_marks, 2) == JULEYOMU_REFUSAL_DEPTHS);
    CHECK(out[0] == 7 && out[1] == 7 && out_marks[0] == 7 && out_marks[1] == 7);
    CHECK(refused(juleyomu_fee_at_target_sat_kvb(depths, 2, two, 2, marks, 2, 3), JULEYOMU_REFUSAL_DEPTHS));
    CHECK(refused(juleyomu_fee_at_target_sat_kvb(depths, 2, two, 2, bad_marks, 2, 3), JULEYOMU_REFUSAL_MARK));
    CHECK(nothing(juleyomu_fee_at_target_sat_kvb(depths, 1, two, 2, bad_marks, 2, 3)));
}

/* One depth with each argument of its own: a struct of two words in registers and on the stack. */
static void one_depth(void) {
    CHECK(there(juleyomu_published_depth_rate(1, 1.0, rate_of(9), rate_of(8), rate_of(7), rate_of(5)), 9));
    CHECK(there(juleyomu_published_depth_rate(1, 1.0, rate_of(9), rate_of(8), rate_of(7), rate_of(11)), 11));
    CHECK(there(juleyomu_published_depth_rate(1, 0.0, rate_of(9), rate_of(8), rate_of(7), rate_of(11)), 8));
    CHECK(there(juleyomu_published_depth_rate(4250, 1.0, rate_of(9), rate_of(8), rate_of(7), NONE), 7));
    CHECK(missing(juleyomu_published_depth_rate(1, 0.0, rate_of(9), rate_of(8), NONE, rate_of(11))));
    CHECK(missing(juleyomu_flow_for_depth(rate_of(9), NONE, 6)));
    CHECK(there(juleyomu_flow_for_depth(rate_of(9), NONE, 5), 9));
}

/* Nothing admitted: empty. Then more than the full weight: held at 1, and no clock runs backwards. */
static void meter(void) {
    const uint64_t second = 1000000000;
    JuleyomuFeeFlowMeter m = juleyomu_fee_flow_meter(5 * second);
    CHECK(juleyomu_fullness(&m, 6 * second) == 0.0);
    CHECK(m.last == 6 * second && m.last_admit == 5 * second);
    juleyomu_note_admit(&m, 4000000, 1000001, 7 * second);
    CHECK(m.last_admit == 7 * second && m.admitted_wu == 4000000.0);
    CHECK(juleyomu_fullness(&m, 7 * second) == 1.0);
    JuleyomuAdmitRates rates = juleyomu_admit_rates_wu_s(&m, 7 * second);
    CHECK(rates.wu_s[401] > 0 && rates.wu_s[400] == 0 && rates.wu_s[0] == 0);
    juleyomu_note_admit(&m, 0, 0, 3 * second);
    CHECK(m.last == 7 * second && m.last_admit == 3 * second);
}

enum { CAPACITY = 4, TARGETS = 2 };

static const uint32_t targets[TARGETS + 15] = {1, 6};

/* The lists of one history. */
typedef struct {
    uint32_t heights[CAPACITY];
    uint8_t marks[CAPACITY];
    uint64_t rates[CAPACITY], sizes[CAPACITY];
    uint32_t hash_heights[JULEYOMU_RECENT_HASHES];
    uint8_t hash_bytes[JULEYOMU_RECENT_HASHES * JULEYOMU_HASH_BYTES];
    uint64_t hurdles[CAPACITY];
    double befores[TARGETS * CAPACITY];
    uint64_t aheads[TARGETS * CAPACITY];
} Memory;

#define ROWS(m) (m)->heights, CAPACITY, (m)->marks, CAPACITY, (m)->rates, CAPACITY, (m)->sizes, CAPACITY
#define HASHES(m) (m)->hash_heights, JULEYOMU_RECENT_HASHES, (m)->hash_bytes, sizeof(m)->hash_bytes
#define WINDOWS(m) (m)->hurdles, CAPACITY, (m)->befores, TARGETS * CAPACITY, (m)->aheads, TARGETS * CAPACITY

static JuleyomuHistoryFields connect(JuleyomuFeeHistory s, Memory *m, uint32_t height, uint64_t rate) {
    JuleyomuMarkedBlock block = {1, rate, 100};
    JuleyomuBlockHash hash = {true, {(uint8_t)height}};
    return juleyomu_history_insert(s, height, block, hash, ROWS(m), HASHES(m), WINDOWS(m));
}

static void openings(Memory *m) {
    JuleyomuHistoryFields h =
        juleyomu_history_new(1000, targets, 17, CAPACITY, ROWS(m), HASHES(m), WINDOWS(m));
    CHECK(h.refusal == JULEYOMU_REFUSAL_TARGETS && h.state.analog.capacity == 0);
    h = juleyomu_history_new(1000, targets, TARGETS, CAPACITY + 1, ROWS(m), HASHES(m), WINDOWS(m));
    CHECK(h.refusal == JULEYOMU_REFUSAL_MEMORY);
    h = juleyomu_history_new(1000, targets, TARGETS, JULEYOMU_MAX_CAPACITY + 1, ROWS(m), HASHES(m),
                             WINDOWS(m));
    CHECK(h.refusal == JULEYOMU_REFUSAL_MEMORY);
}

/* Four blocks fill the history; a fifth is refused; a cut and a connect replace the newest. */
static void history(void) {
    static Memory lent;
    Memory *m = &lent;
    openings(m);
    JuleyomuHistoryFields h =
        juleyomu_history_new(1000, targets, TARGETS, CAPACITY, ROWS(m), HASHES(m), WINDOWS(m));
    CHECK(h.refusal == JULEYOMU_DONE && h.state.count == 0 && h.state.budget == 1000);
    for (uint32_t height = 10; height < 14; height++) {
        h = connect(h.state, m, height, 1000 + height);
        CHECK(h.refusal == JULEYOMU_DONE);
    }
    h = connect(h.state, m, 14, 1014);
    CHECK(h.refusal == JULEYOMU_REFUSAL_FULL);
    CHECK(h.state.count == 4 && h.state.txstat_bytes == 400 && h.state.hashes == 4);

    h = juleyomu_history_truncate_above(h.state, 11, ROWS(m), HASHES(m));
    CHECK(h.refusal == JULEYOMU_DONE && h.state.count == 2 && h.state.txstat_bytes == 200);
    JuleyomuBlockFields b = juleyomu_history_get(h.state, 11, ROWS(m));
    CHECK(b.refusal == JULEYOMU_DONE && b.held && b.block.mark == 1 && b.block.rate == 1011);
    b = juleyomu_history_get(h.state, 12, ROWS(m));
    CHECK(b.refusal == JULEYOMU_DONE && !b.held && b.block.rate == 0 && b.block.bytes == 0);

    uint32_t heights[2];
    uint8_t marks[2], bytes[64];
    uint64_t rates[2], sizes[2];
    JuleyomuCountFields n =
        juleyomu_history_entries(h.state, ROWS(m), heights, 2, marks, 2, rates, 2, sizes, 2);
    CHECK(n.refusal == JULEYOMU_DONE && n.count == 2);
    CHECK(heights[0] == 10 && heights[1] == 11 && rates[0] == 1010 && sizes[1] == 100);
    n = juleyomu_history_entries(h.state, ROWS(m), heights, 2, marks, 1, rates, 2, sizes, 2);
    CHECK(n.refusal == JULEYOMU_REFUSAL_LENGTHS && n.count == 0);
    n = juleyomu_history_recent_hashes(h.state, HASHES(m), heights, 2, bytes, 64);
    CHECK(n.refusal == JULEYOMU_DONE && n.count == 2 && heights[1] == 11 && bytes[32] == 11);
    n = juleyomu_history_recent_hashes(h.state, HASHES(m), heights, 2, bytes, 63);
    CHECK(n.refusal == JULEYOMU_REFUSAL_MEMORY);
}

/* Four blocks are too few for a rate; output lists and scratch are asked for. */
static void rates_of_a_short_history(void) {
    static Memory lent;
    Memory *m = &lent;
    JuleyomuHistoryFields h =
        juleyomu_history_new(1000, targets, TARGETS, CAPACITY, ROWS(m), HASHES(m), WINDOWS(m));
    for (uint32_t height = 10; height < 14; height++) {
        h = connect(h.state, m, height, 1000);
    }
    uint64_t scratch[CAPACITY], numbers[TARGETS] = {7, 7};
    uint8_t marks[TARGETS] = {7, 7};
    h = juleyomu_history_rates(h.state, ROWS(m), WINDOWS(m), scratch, CAPACITY, numbers, TARGETS, marks, 1);
    CHECK(h.refusal == JULEYOMU_REFUSAL_LENGTHS);
    h = juleyomu_history_rates(h.state, ROWS(m), WINDOWS(m), scratch, CAPACITY, numbers, 1, marks, 1);
    CHECK(h.refusal == JULEYOMU_REFUSAL_MEMORY);
    h = juleyomu_history_rates(h.state, ROWS(m), WINDOWS(m), scratch, CAPACITY - 1, numbers, TARGETS, marks,
                               TARGETS);
    CHECK(h.refusal == JULEYOMU_REFUSAL_MEMORY && !h.state.kept);
    CHECK(numbers[0] == 7 && numbers[1] == 7 && marks[0] == 7 && marks[1] == 7);
    h = juleyomu_history_rates(h.state, ROWS(m), WINDOWS(m), scratch, CAPACITY, numbers, TARGETS, marks,
                               TARGETS);
    CHECK(h.refusal == JULEYOMU_DONE && h.state.kept && h.state.count == 4);
    CHECK(numbers[0] == 0 && numbers[1] == 0 && marks[0] == 0 && marks[1] == 0);
}

int main(void) {
    cases_a_to_d();
    cases_e_and_f();
    cases_g_to_k();
    refusals_of_the_desk();
    one_depth();
    meter();
    history();
    rates_of_a_short_history();
    if (failures == 0) {
        puts("all checks passed");
    }
    return failures == 0 ? 0 : 1;
}
