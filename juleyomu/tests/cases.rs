//! The starred cases, and facts that arithmetic alone decides.

use juleyomu::capacity::{
    BUCKETS, bucket_edges, bucket_index, effective_capacity_wu, first_bucket_above,
    min_rate_for_capacity,
};
use juleyomu::statistics::{log_quantile, lookback, lower_median, percentile};
use juleyomu::{
    Board, DepthInputs, Meter, fee_at_target, hold_defined_then_monotone, lerp,
    published_depth_rates, warmup_blend,
};

const SECOND: u64 = 1_000_000_000;

#[test]
fn a_bucket() {
    let rates = [0, 99, 101, 102, 1_000_000, 1_000_001];
    assert_eq!(rates.map(bucket_index), [0, 0, 0, 1, 400, 401]);
}

#[test]
fn b_first_above() {
    let rates = [0, 100, 1_000_000, 1_000_001];
    assert_eq!(rates.map(first_bucket_above), [0, 1, 401, 402]);
}

#[test]
fn c_effective() {
    let capacities = [0, 2, u32::MAX].map(effective_capacity_wu);
    assert_eq!(capacities, [3_200_000, 7_600_000, 16_320_875_721_000_000]);
}

#[test]
fn d_line() {
    assert_eq!(lerp(3, 10, 6, 5, 4), 8);
    assert_eq!(lerp(3, 10, 6, 5, 5), 7);
    assert_eq!(lerp(1, 4, 3, 1, 2), 3);
}

#[test]
fn e_hold() {
    let mut rates = [None, Some(9), None, Some(12), Some(7), None, Some(8)];
    hold_defined_then_monotone(&mut rates);
    let held = [9, 9, 9, 7, 7, 7].map(Some);
    assert_eq!(rates[0], None);
    assert_eq!(rates[1..], held);
}

#[test]
fn f_targets() {
    let rates = [None, Some(600), Some(300)];
    let quote = |target| fee_at_target(&[2, 6, 12], &rates, target);
    assert_eq!([1, 2, 4].map(quote), [Ok(None); 3]);
    assert_eq!(quote(9), Ok(Some(450)));
    assert_eq!(quote(1000), Ok(Some(300)));
}

#[test]
fn g_percentile() {
    assert_eq!(percentile(&[1, 2, 3, 4], 50), Some(2));
    assert_eq!(percentile(&[1, 2, 3, 4], 255), Some(4));
    assert_eq!(percentile(&[], 50), None);
}

#[test]
fn h_lower_median() {
    assert_eq!(lower_median(&[5, 1, 4, 2]), Ok(2));
}

#[test]
fn i_lookback() {
    assert_eq!([0, 12, 16, 576].map(lookback), [3, 3, 4, 144]);
}

#[test]
fn j_warm_up() {
    assert_eq!(warmup_blend(0.5, Some(3), Some(4)), Some(4));
    assert_eq!(warmup_blend(f64::NAN, Some(3), Some(4)), Some(3));
    assert_eq!(warmup_blend(0.99, None, Some(4)), None);
    assert_eq!(warmup_blend(1.0, None, Some(4)), Some(4));
}

#[test]
fn k_fit_at_the_open_bucket() {
    let mut inflow = [0; BUCKETS];
    inflow[401] = 1;
    let search = |stock| min_rate_for_capacity(&[1_000_000], &[stock], &inflow, 1);
    assert_eq!(search(3_198_800), Ok(Some(1_000_000)));
    assert_eq!(search(3_198_801), Ok(None));
}

#[test]
fn the_least_of_all_fitting_candidates_is_found() {
    let found = min_rate_for_capacity(&[700, 300, 500], &[0, 9_000_000, 0], &[], 1);
    assert_eq!(found, Ok(Some(500)));
}

#[test]
fn edges_ascend_and_begin_their_buckets() {
    let edges = bucket_edges();
    assert_eq!((edges[0], edges[400]), (100, 1_000_000));
    assert!(edges.is_sorted_by(|a, b| a < b));
    for (place, edge) in edges.into_iter().enumerate() {
        assert_eq!(bucket_index(edge), place);
        assert_eq!(first_bucket_above(edge), place + 1);
    }
}

#[test]
fn a_quantile_sorts_its_list() {
    let mut rates = [40, 10, 30, 20];
    assert_eq!(log_quantile(&mut rates, 0.5), Ok(20));
    assert_eq!(rates, [10, 20, 30, 40]);
    assert_eq!(log_quantile(&mut rates, 1.0), Ok(40));
}

#[test]
fn a_cold_board_is_history_raised_by_the_frontier() {
    let board = Board::publish(&DepthInputs {
        depths: &[1, 6, 144],
        projected: &[Some(1), Some(1), Some(1)],
        frontier: &[Some(900), Some(900), None],
        history: &[None, Some(700), Some(950)],
        confirm: Some(5_000),
        share: 0.0,
    })
    .unwrap();
    assert_eq!(board.depths(), [1, 6, 144]);
    assert_eq!(board.rates(), [None, Some(900), Some(900)]);
    assert_eq!([1, 5, 6].map(|n| board.quote(n)), [None, None, Some(900)]);
}

#[test]
fn a_warm_board_has_the_confirm_floor_at_one_block() {
    let rates = published_depth_rates(&DepthInputs {
        depths: &[0, 1, 1, 6],
        projected: &[Some(800); 4],
        frontier: &[Some(900); 4],
        history: &[None; 4],
        confirm: Some(5_000),
        share: 1.0,
    });
    let expected = [5_000, 5_000, 5_000, 900].map(Some);
    assert_eq!(rates, Ok(expected.to_vec()));
}

#[test]
fn no_depths_no_quotes() {
    let board = Board::publish(&DepthInputs {
        depths: &[],
        projected: &[],
        frontier: &[],
        history: &[],
        confirm: Some(5),
        share: 1.0,
    })
    .unwrap();
    assert_eq!(
        [0, 1, u32::MAX].map(|target| board.quote(target)),
        [None; 3]
    );
}

#[test]
fn the_meter_halves_in_its_half_life() {
    assert_eq!(Meter::half_life_secs(), 150.0);
    let mut meter = Meter::new(7 * SECOND);
    assert_eq!(meter.fullness(8 * SECOND), 0.0);
    meter.note_admit(300_000, 1_000_001, 157 * SECOND);
    let rates = meter.admit_rates_wu_s(157 * SECOND);
    assert_eq!(rates[401], 1_000, "300,000 WU in 150 s, half of it kept");
    assert_eq!(rates[..401], [0; 401]);
    assert_eq!(meter.admit_rates_wu_s(307 * SECOND)[401], 500);
    meter.note_admit(Meter::full_wu() as u64 + 1, 5_000, 307 * SECOND);
    assert_eq!(meter.fullness(307 * SECOND), 1.0);
    let read = meter.clone();
    assert_eq!(
        meter.fullness(3 * SECOND),
        1.0,
        "a clock that went back is no gap"
    );
    assert_eq!(meter, read);
}
