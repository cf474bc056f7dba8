//! Every refusal that a caller of the wrapper can meet, and what it leaves.

use juleyomu::capacity::min_rate_for_capacity;
use juleyomu::statistics::{log_quantile, lower_median};
use juleyomu::{
    Block, Board, DepthInputs, History, MAX_CAPACITY, MAX_TARGETS, Refusal, fee_at_target,
    published_depth_rates,
};

fn block(rate: u64) -> Block {
    Block {
        rate: Some(rate),
        bytes: 100,
    }
}

#[test]
fn numbers_are_one_to_eight() {
    let numbered: Vec<u8> = (0..=u8::MAX)
        .filter(|&number| Refusal::from_number(number).is_some())
        .collect();
    assert_eq!(numbered, [1, 2, 3, 4, 5, 6, 7, 8]);
    for number in numbered {
        assert_eq!(Refusal::from_number(number).unwrap().number(), number);
    }
    let text = Refusal::Full.to_string();
    assert_eq!(text, "refusal 4: no room for another block");
}

#[test]
fn lists_of_unequal_length() {
    let found = min_rate_for_capacity(&[1, 2], &[0], &[], 1);
    assert_eq!(found, Err(Refusal::Lengths));
    let inputs = DepthInputs {
        depths: &[2, 1],
        projected: &[None, None],
        frontier: &[None],
        history: &[None, None],
        confirm: None,
        share: 0.0,
    };
    assert_eq!(published_depth_rates(&inputs), Err(Refusal::Lengths));
    assert_eq!(Board::publish(&inputs), Err(Refusal::Lengths));
}

#[test]
fn depths_that_fall() {
    let inputs = DepthInputs {
        depths: &[2, 1],
        projected: &[None; 2],
        frontier: &[None; 2],
        history: &[Some(5); 2],
        confirm: None,
        share: 0.0,
    };
    assert_eq!(published_depth_rates(&inputs), Err(Refusal::Depths));
    let rates = [Some(5); 2];
    assert_eq!(fee_at_target(&[2, 1], &rates, 3), Err(Refusal::Depths));
    assert_eq!(
        fee_at_target(&[2], &rates, 3),
        Ok(None),
        "lengths are asked first"
    );
}

#[test]
fn empty_lists_and_confidences() {
    assert_eq!(lower_median(&[]), Err(Refusal::Empty));
    assert_eq!(log_quantile(&mut [], f64::NAN), Err(Refusal::Empty));
    let mut rates = [9, 4];
    for confidence in [f64::NAN, -0.1, 1.1, f64::INFINITY] {
        let found = log_quantile(&mut rates, confidence);
        assert_eq!(found, Err(Refusal::Confidence));
    }
    assert_eq!(rates, [9, 4]);
    assert_eq!(log_quantile(&mut rates, -0.0), Ok(4));
}

#[test]
fn openings() {
    let opened = |targets: &[u32], capacity| History::open(1, targets, capacity).map(|_| ());
    let many = [1; MAX_TARGETS + 1];
    assert_eq!(opened(&many, usize::MAX), Err(Refusal::Targets));
    assert_eq!(
        opened(&many[..MAX_TARGETS], usize::MAX),
        Err(Refusal::Memory)
    );
    assert_eq!(opened(&[1], MAX_CAPACITY + 1), Err(Refusal::Memory));
    assert_eq!(opened(&many[..MAX_TARGETS], 8), Ok(()));
    assert_eq!(opened(&[], MAX_CAPACITY), Ok(()));
}

#[test]
fn a_full_history() {
    let mut history = History::open(1_000, &[1], 3).unwrap();
    for height in 10..13 {
        history
            .connect(height, block(1_000), Some([height as u8; 32]))
            .unwrap();
    }
    let (entries, hashes) = (history.entries(), history.recent_hashes());
    assert_eq!(history.connect(13, block(7), None), Err(Refusal::Full));
    assert_eq!(history.preload(9, block(7), None), Err(Refusal::Full));
    assert_eq!(history.preload(11, block(7), None), Ok(()), "held already");
    assert_eq!(history.entries(), entries);
    assert_eq!(history.recent_hashes(), hashes);
    assert_eq!(history.byte_total(), 300);
    assert_eq!(
        history.connect(12, block(7), None),
        Ok(()),
        "it replaces the newest"
    );
    assert_eq!(history.get(12), Some(block(7)));
    assert_eq!(history.recent_hashes().len(), 2);
}

#[test]
fn a_history_without_room() {
    let mut history = History::open(1_000, &[1], 0).unwrap();
    assert_eq!(history.connect(5, block(1), None), Err(Refusal::Full));
    assert_eq!(history.preload(5, block(1), None), Err(Refusal::Full));
    assert_eq!(history.rates(), [None]);
    assert!(history.is_empty());
}
