//! The fixed list of questions and the oracle's answers that a Rattle program replays.
//!
//! A question is a line: the function's name and its arguments, each 16 hexadecimal digits in lower
//! case, one space apart; a list is its length and then its elements. The answer is a line: the
//! results in the same form, a NaN as `nan`, a bool as 0 or 1 in 16 digits.

use crate::check::Function;
use crate::rng::Rng;
use crate::words::{Input, Word, Words};
use std::collections::HashSet;
use std::io;
use std::path::Path;

pub struct Replay {
    rng: Rng,
    asked: HashSet<String>,
    questions: String,
    answers: String,
}

impl Replay {
    /// The list does not depend on `--seed`.
    pub fn new(part: &str) -> Replay {
        Replay {
            rng: Rng::new(0, &format!("replay {part}")),
            asked: HashSet::new(),
            questions: String::new(),
            answers: String::new(),
        }
    }

    /// Asks each input of the function's domain that was not asked before.
    pub fn ask<I: Input, A: Words>(
        &mut self,
        function: &Function<I, A>,
        inputs: impl IntoIterator<Item = I>,
    ) {
        for input in inputs {
            if !(function.domain)(&input) {
                continue;
            }
            let mut question = function.name.to_string();
            for word in input.words() {
                question += &format!(" {:016x}", word.bits());
            }
            question.push('\n');
            if self.asked.insert(question.clone()) {
                self.questions += &question;
                self.answers += &answer_line(&(function.patched)(&input).words());
            }
        }
    }

    /// Asks `count` random inputs.
    pub fn ask_random<I: Input, A: Words>(
        &mut self,
        function: &Function<I, A>,
        count: usize,
        draw: fn(&mut Rng) -> I,
    ) {
        let inputs: Vec<I> = (0..count).map(|_| draw(&mut self.rng)).collect();
        self.ask(function, inputs);
    }

    /// Writes `stdin` and `stdout`; answers how many lines each has.
    pub fn write(&self, folder: &Path) -> io::Result<usize> {
        std::fs::create_dir_all(folder)?;
        std::fs::write(folder.join("stdin"), &self.questions)?;
        std::fs::write(folder.join("stdout"), &self.answers)?;
        Ok(self.asked.len())
    }
}

fn answer_line(answer: &[Word]) -> String {
    let results: Vec<String> = answer
        .iter()
        .map(|word| match word {
            Word::Float(x) if x.is_nan() => "nan".to_string(),
            word => format!("{:016x}", word.bits()),
        })
        .collect();
    results.join(" ") + "\n"
}
