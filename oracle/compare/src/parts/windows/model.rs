//! What the definitions say of pair windows in memory of any contents: Windows.antt and Scan.antt of
//! crates/rbitcoin_mempool/specs, for states that no call made. The logarithm, the median and the scan are
//! the patched Rust's.

use super::rattle::State;
use super::sides::Patched;
use patched_mempool::fee_analog::{ANALOG_READY_PAIRS, analog_lookback, ln_rate, lower_median};

/// A state with the lists that are lent to it.
pub struct Windows<'a> {
    pub state: &'a mut State,
    pub hurdles: &'a mut [u64],
    pub befores: &'a mut [f64],
    pub aheads: &'a mut [u64],
}

/// 3, then 5.
pub fn state_refusal(state: &State) -> u8 {
    let end = state.start.saturating_add(state.count);
    if state.tracked > 16 {
        3
    } else if state.capacity > 65_536 || end > state.capacity {
        5
    } else {
        0
    }
}

/// How many hurdles a window has.
fn ahead_of(target: u32) -> usize {
    target.max(1) as usize
}

/// One hurdle fewer at an end; nothing if none is held.
pub fn pop(state: &mut State, newest: bool) -> u8 {
    let refusal = state_refusal(state);
    if refusal == 0 && state.count > 0 {
        state.count -= 1;
        state.start += usize::from(!newest);
    }
    refusal
}

/// How many pairs a target has, 0 of one that is not tracked.
pub fn pairs(state: &State, n: u32) -> usize {
    match find(state, n) {
        Some(_) => (state.count + 1).saturating_sub(analog_lookback(n) + ahead_of(n)),
        None => 0,
    }
}

/// The first target with windows as long as those of `n`.
fn find(state: &State, n: u32) -> Option<usize> {
    let mut tracked = state.targets[..state.tracked].iter();
    tracked.position(|target| ahead_of(*target) == ahead_of(n))
}

impl Windows<'_> {
    /// The state's refusal, then 5 for a list that is too short.
    pub fn refusal(&self) -> u8 {
        let State {
            tracked, capacity, ..
        } = *self.state;
        match state_refusal(self.state) {
            0 if self.hurdles.len() < capacity
                || self.befores.len() < tracked * capacity
                || self.aheads.len() < tracked * capacity =>
            {
                5
            }
            refusal => refusal,
        }
    }

    fn moved_to(&mut self, to: usize) {
        let State {
            tracked,
            capacity,
            start,
            count,
            ..
        } = *self.state;
        let held = start..start + count;
        self.hurdles.copy_within(held.clone(), to);
        for target in 0..tracked {
            let region = target * capacity..(target + 1) * capacity;
            self.befores[region.clone()].copy_within(held.clone(), to);
            self.aheads[region].copy_within(held.clone(), to);
        }
        self.state.start = to;
    }

    /// Behind the newest or in front of the oldest hurdle. Where that end of the memory has no room, all
    /// that is held moves first. A refused push changes nothing.
    pub fn push(&mut self, hurdle: u64, newest: bool) -> u8 {
        let State {
            capacity,
            start,
            count,
            ..
        } = *self.state;
        match self.refusal() {
            0 if count == capacity => return 4,
            0 => {}
            refusal => return refusal,
        }
        let free = capacity - count;
        match newest {
            true if start + count == capacity => self.moved_to(free / 4),
            false if start == 0 => self.moved_to(free - free / 4),
            _ => {}
        }
        if newest {
            self.hurdles[self.state.start + count] = hurdle;
        } else {
            self.state.start -= 1;
            self.hurdles[self.state.start] = hurdle;
        }
        self.state.count += 1;
        self.put_pairs(newest);
        0
    }

    /// The pair of the new hurdle's window, of each target.
    fn put_pairs(&mut self, newest: bool) {
        let State {
            targets,
            tracked,
            capacity,
            start,
            count,
        } = *self.state;
        let held = &self.hurdles[start..start + count];
        for (number, target) in targets[..tracked].iter().enumerate() {
            let (lookback, ahead) = (analog_lookback(*target), ahead_of(*target));
            if lookback + ahead > count {
                continue;
            }
            let window = if newest { count - ahead } else { lookback };
            let place = number * capacity + start + window;
            let before = held[window - lookback..window].iter();
            self.befores[place] = ln_rate(lower_median(before.copied()));
            let ahead = held[window..window + ahead].iter();
            self.aheads[place] = *ahead.min().expect("a window has a hurdle");
        }
    }

    /// Everything dropped, and each hurdle pushed behind.
    pub fn rebuild(&mut self, from: &[u64]) -> u8 {
        match self.refusal() {
            0 if from.len() > self.state.capacity => return 4,
            0 => {}
            refusal => return refusal,
        }
        (self.state.start, self.state.count) = (0, 0);
        for hurdle in from {
            self.push(*hurdle, true);
        }
        0
    }

    /// The Rust's rate of the held hurdles and the stored pairs, whoever wrote them.
    pub fn rate(&self, n: u32, confidence: f64) -> Option<u64> {
        let number = find(self.state, n)?;
        let count = pairs(self.state, n);
        if count < ANALOG_READY_PAIRS {
            return None;
        }
        let start = self.state.start;
        let first = number * self.state.capacity + start + analog_lookback(n);
        let stored = first..first + count;
        let mut history = Patched::new(&[n]);
        history.hurdles = self.hurdles[start..start + self.state.count]
            .to_vec()
            .into();
        history.depths[0].pairs = stored
            .map(|place| (self.befores[place], self.aheads[place]))
            .collect();
        history.rate_sat_kvb(n, confidence)
    }
}
