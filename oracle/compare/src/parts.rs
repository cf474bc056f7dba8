//! The parts of the comparison, one a file.

mod capacity;
mod depths;
mod history;
mod meter;
mod num;
mod windows;

use crate::bench::Bench;
use crate::check::{Job, Plan};
use crate::replay::Replay;

/// One part of the port: its functions on both sides, and the inputs to compare and time them on.
pub trait Part {
    /// The name that `--part` takes; also the name of the part's file.
    fn name(&self) -> &'static str;

    /// What is compared. Fixed inputs are the same in every run; random jobs take
    /// [`Plan::scaled`] inputs.
    fn jobs(&self, plan: &Plan) -> Vec<Job>;

    /// What the jobs have seen besides, once they have run: a line each.
    fn remarks(&self) -> Vec<String> {
        Vec::new()
    }

    /// Questions for the program that replays them, boundaries among them.
    fn replay(&self, replay: &mut Replay);

    /// A row for each entry point.
    fn bench(&self, bench: &mut Bench);
}

pub const PARTS: &[&dyn Part] = &[
    &num::Num,
    &capacity::Capacity,
    &meter::FeeFlow,
    &windows::PairWindows,
    &depths::Depths,
    &history::HeldBlocks,
];
