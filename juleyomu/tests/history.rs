//! The held blocks: what is kept, what is dropped, and when a target answers.

use juleyomu::{Block, History, LentBytes, RECENT_HASHES};

fn rated(rate: u64) -> Block {
    Block {
        rate: Some(rate),
        bytes: 100,
    }
}

fn heights(history: &History) -> Vec<u32> {
    let entries = history.entries();
    entries.into_iter().map(|(height, _)| height).collect()
}

#[test]
fn a_block_without_a_rate_is_held() {
    let mut history = History::open(1_000, &[1], 8).unwrap();
    let empty = Block {
        rate: None,
        bytes: 7,
    };
    history.connect(5, empty, None).unwrap();
    history.connect(6, rated(0), None).unwrap();
    assert_eq!(history.get(5), Some(empty));
    assert_eq!(history.get(6), Some(rated(0)), "a rate of 0 is a rate");
    assert_eq!(history.get(7), None);
    assert_eq!(history.entries(), [(5, empty), (6, rated(0))]);
    assert_eq!(history.byte_total(), 107);
}

#[test]
fn a_connect_replaces_what_is_above() {
    let mut history = History::open(1_000, &[1], 8).unwrap();
    for height in [3, 5, 9] {
        history
            .connect(height, rated(u64::from(height)), Some([1; 32]))
            .unwrap();
    }
    history.connect(5, rated(50), Some([2; 32])).unwrap();
    assert_eq!(history.entries(), [(3, rated(3)), (5, rated(50))]);
    assert_eq!(history.recent_hashes(), [(3, [1; 32]), (5, [2; 32])]);
    history.preload(1, rated(10), None).unwrap();
    assert_eq!(heights(&history), [1, 3, 5]);
}

#[test]
fn a_cut_at_the_largest_height_drops_that_height() {
    let mut history = History::open(1_000, &[1], 8).unwrap();
    history.connect(u32::MAX - 1, rated(1), None).unwrap();
    history.connect(u32::MAX, rated(2), None).unwrap();
    history.truncate_above(u32::MAX - 1);
    assert_eq!(heights(&history), [u32::MAX - 1]);
    history.connect(u32::MAX, rated(2), None).unwrap();
    history.truncate_above(u32::MAX);
    assert_eq!(heights(&history), [u32::MAX - 1]);
}

#[test]
fn the_oldest_go_when_the_budget_is_exceeded() {
    let mut history = History::open(250, &[1], 8).unwrap();
    for height in 0..6 {
        history.connect(height, rated(1), Some([0; 32])).unwrap();
    }
    assert_eq!(heights(&history), [4, 5]);
    assert_eq!((history.byte_total(), history.budget()), (200, 250));
    assert_eq!(history.recent_hashes().len(), 2);
}

#[test]
fn the_newest_hashes_are_kept() {
    let mut history = History::open(u64::MAX, &[], 200).unwrap();
    for height in 0..200 {
        history
            .connect(height, rated(1), Some([height as u8; 32]))
            .unwrap();
    }
    let hashes = history.recent_hashes();
    assert_eq!(hashes.len(), RECENT_HASHES);
    assert_eq!(hashes[0], (56, [56; 32]));
    assert_eq!(hashes[143], (199, [199; 32]));
}

/// Calls drawn by a fixed generator: after each the kept total is the sum over the held blocks, and heights ascend.
#[test]
fn the_byte_total_is_the_sum() {
    let mut history = History::open(1_500, &[1, 6], 24).unwrap();
    let mut drawn = 1_u64;
    let mut refused = 0;
    for _ in 0..5_000 {
        drawn = drawn
            .wrapping_mul(6_364_136_223_846_793_005)
            .wrapping_add(1_442_695_040_888_963_407);
        let (height, word) = ((drawn >> 58) as u32, drawn >> 32);
        let block = Block {
            rate: (!word.is_multiple_of(5)).then_some(word % 1_000),
            bytes: word % 150,
        };
        let hash = word.is_multiple_of(3).then_some([height as u8; 32]);
        let before = history.entries();
        let done = match word % 16 {
            0 => {
                history.truncate_above(height);
                Ok(())
            }
            1..4 => history.connect(height, block, hash),
            _ => history.preload(height, block, hash),
        };
        let entries = history.entries();
        if done.is_err() {
            refused += 1;
            assert_eq!(entries, before);
        }
        let sum: u64 = entries.iter().map(|(_, block)| block.bytes).sum();
        assert_eq!(history.byte_total(), sum);
        assert!(sum <= history.budget());
        assert!(entries.is_sorted_by(|(a, _), (b, _)| a < b));
    }
    assert!(refused > 0, "some calls found no room");
}

/// Target n has k - lookback - n + 1 pairs of k rated blocks, and answers from 2,000 on.
#[test]
fn a_target_answers_from_its_2000th_pair_on() {
    let mut history = History::open(u64::MAX, &[1, 6, 0], 2_200).unwrap();
    for height in 0..2_002 {
        history.connect(height, rated(1_000), None).unwrap();
    }
    assert_eq!(history.rates(), [None, None, None]);
    history.connect(2_002, rated(1_000), None).unwrap();
    let answer = [Some(1_000), None, Some(1_000)];
    assert_eq!(history.rates(), answer);
    assert_eq!(history.rates(), answer, "kept");
    for height in 2_003..2_008 {
        history.connect(height, rated(1_000), None).unwrap();
    }
    assert_eq!(history.rates(), [Some(1_000); 3]);
    history.truncate_above(2_000);
    assert_eq!(history.rates(), [None; 3]);
}

/// The same blocks in any order give the same rates; those between held heights too.
#[test]
fn the_order_of_preloads_does_not_matter() {
    let rate = |height: u32| 1_000 + u64::from(height * 7_919 % 5_000);
    let targets = [1, 2, 3, 6];
    let mut connected = History::open(u64::MAX, &targets, 2_400).unwrap();
    let mut preloaded = connected.clone();
    for height in 0..2_400 {
        connected
            .connect(height, rated(rate(height)), None)
            .unwrap();
    }
    for height in (0..2_400).step_by(2).chain((1..2_400).step_by(2).rev()) {
        preloaded
            .preload(height, rated(rate(height)), None)
            .unwrap();
    }
    assert_eq!(connected.entries(), preloaded.entries());
    let rates = connected.rates();
    assert!(rates.iter().all(Option::is_some));
    assert_eq!(rates, preloaded.rates());
}

/// The box: 31,000 blocks, 11 targets, capacity 32,768.
#[test]
fn the_memory_of_the_box() {
    let targets = [1, 2, 3, 4, 5, 6, 12, 24, 144, 504, 1008];
    let history = History::open(1 << 30, &targets, 32_768).unwrap();
    let lent = history.lent_bytes();
    let expected = LentBytes {
        rows: 32_768 * (4 + 1 + 8 + 8),
        hashes: 144 * (4 + 32),
        hurdles: 32_768 * 8,
        pairs: 11 * 32_768 * (8 + 8),
        scratch: 32_768 * 8,
        state: 296,
    };
    assert_eq!(lent, expected);
    assert_eq!(lent.total(), 6_985_064);
    assert_eq!(
        (history.targets(), history.capacity()),
        (&targets[..], 32_768)
    );
}
