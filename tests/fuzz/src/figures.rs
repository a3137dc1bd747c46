//! What a run has done, as a table in Markdown.
use std::time::Duration;

use crate::oracle::Outcome;

#[derive(Default)]
pub struct Figures {
    pub executions: u64,
    /// How often each operation gave each number, 0 for a result.
    refusals: [[u64; 14]; 3],
    verdicts: [u64; 3],
    judged: u64,
}

/// What the run stands on.
pub struct State {
    pub time: Duration,
    pub corpus: usize,
    pub features: usize,
    pub block_sets: usize,
    pub reached: usize,
    pub blocks: usize,
}

/// With a comma before each three digits.
fn digits(value: u64) -> String {
    let digits = value.to_string();
    let mut text = String::new();
    for (place, digit) in digits.chars().enumerate() {
        if place != 0 && (digits.len() - place) % 3 == 0 {
            text.push(',');
        }
        text.push(digit);
    }
    text
}

impl Figures {
    pub fn add(&mut self, outcome: &Outcome) {
        self.executions += 1;
        for (operation, &number) in outcome.refusals.iter().enumerate() {
            self.refusals[operation][number as usize] += 1;
        }
        if outcome.refusals[2] == 0 {
            self.verdicts[outcome.verdict as usize] += 1;
        }
        let even = outcome.made.as_ref().and_then(|made| made.even.as_ref());
        self.judged += u64::from(even.map_or(false, |even| even.judged));
    }

    fn rate(&self, state: &State) -> u64 {
        (self.executions as f64 / state.time.as_secs_f64()) as u64
    }

    pub fn line(&self, state: &State) -> String {
        let made = |operation: usize| digits(self.refusals[operation][0]);
        format!(
            "{} s: {} executions, {} a second; {} nearest, {} even ({} judged), {} checks made; {} records kept, {} features, {} block sets, {} of {} blocks",
            state.time.as_secs(), digits(self.executions), digits(self.rate(state)), made(0), made(1), digits(self.judged), made(2),
            state.corpus, state.features, state.block_sets, state.reached, state.blocks,
        )
    }

    pub fn markdown(&self, state: &State, seed: u64) -> String {
        let [not_measured, pass, fail] = self.verdicts.map(digits);
        let rows = [
            ("executions, each of three calls", digits(self.executions)),
            ("seconds", digits(state.time.as_secs())),
            ("executions a second", digits(self.rate(state))),
            ("seed", seed.to_string()),
            ("nearest tables made", digits(self.refusals[0][0])),
            ("even tables made", digits(self.refusals[1][0])),
            ("of these compared with the reference's table", digits(self.judged)),
            ("checks not measured, passed, failed", format!("{not_measured}, {pass}, {fail}")),
            ("records kept", digits(state.corpus as u64)),
            ("features of answers", digits(state.features as u64)),
            ("blocks of the library's code reached", format!("{} of {}", state.reached, state.blocks)),
            ("sets of blocks met by one execution", digits(state.block_sets as u64)),
        ];
        let mut text = String::from("| Figure | Value |\n|---|---|\n");
        rows.iter().for_each(|(name, value)| text += &format!("| {name} | {value} |\n"));
        text += "\n| Refusal | Nearest table | Even table | Check |\n|---|---|---|---|\n";
        for number in 1..14 {
            let [nearest, even, check] = self.refusals.map(|counts| digits(counts[number]));
            text += &format!("| {number} | {nearest} | {even} | {check} |\n");
        }
        text
    }
}
