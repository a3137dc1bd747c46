//! One record through the three operations, library against reference.
use compare::yepidlaw::{Check, Even, Nearest};
use reference::contrast::Contrast;
use reference::engine::{Engine, Sound};
use reference::even::{is_allowed, worst_step};
use reference::nearest;

use crate::lent::{Lengths, Lent};
use crate::library::Library;
use crate::signals::Guarded;

const ENTRIES: usize = 256;
const WORDS: usize = 8_192;
const PLACES: usize = 17;
/// The longest sound record has 6,250 bytes.
pub const LONGEST_RECORD: usize = 8_192;

/// What became of a sound job.
pub struct Made {
    pub job: Sound,
    /// Where enough was lent for it.
    pub nearest: Option<nearest::Table>,
    pub even: Option<EvenMade>,
    pub contrast: Option<Contrast>,
}

pub struct EvenMade {
    pub worst_step: u64,
    pub entries: Vec<u64>,
    /// How many the reference takes to make it.
    pub steps: u64,
    /// Whether it made the table too.
    pub judged: bool,
}

/// What an execution gave, and the reference too.
pub struct Outcome {
    /// Of the nearest table, the even table and the check; 0 for none.
    pub refusals: [u32; 3],
    pub verdict: u32,
    pub made: Option<Made>,
}

impl Outcome {
    /// A measure of the work that such a record makes, the same in every run.
    pub fn work(&self) -> u64 {
        let of_even = |made: &Made| made.even.as_ref().map_or(0, |even| even.steps);
        self.made.as_ref().map_or(0, |made| 256 * made.job.curve.len() as u64 + of_even(made))
    }
}

pub struct Oracle {
    pub reference: Engine,
    pub library: Library,
    pub lent: Lent,
    record: Guarded,
}

fn narrow(value: u64) -> u32 {
    u32::try_from(value).expect("a result has 32 bits")
}

/// A job where enough is lent for it.
fn with(enough: bool, job: &Result<Sound, u32>) -> Result<&Sound, u32> {
    if enough {
        job.as_ref().map_err(|&number| number)
    } else {
        Err(1)
    }
}

fn equal<T: PartialEq + std::fmt::Debug>(name: &str, got: T, expected: T) -> Result<(), String> {
    if got == expected {
        Ok(())
    } else {
        Err(format!("{name}: got {got:?}, expected {expected:?}"))
    }
}

fn nothing(name: &str, difference: Option<String>) -> Result<(), String> {
    difference.map_or(Ok(()), |difference| Err(format!("{name}: {difference}")))
}

/// How many levels are allowed at each P-value.
fn allowed_levels(job: &Sound) -> Vec<u64> {
    let tolerance = job.record.tolerance();
    let count = |&target: &u64| job.curve.iter().filter(|&&luminance| is_allowed(luminance, target, tolerance)).count() as u64;
    job.targets.iter().map(count).collect()
}

/// What is wrong with a table and its worst step by themselves; whether another table is better is left to the reference.
fn fault(job: &Sound, entries: &[u64], worst: u64) -> Option<String> {
    let allowed = |p: usize, entries: &[u64]| {
        job.curve.get(entries[p] as usize).map_or(false, |&luminance| is_allowed(luminance, job.targets[p], job.record.tolerance()))
    };
    if let Some(p) = (0..ENTRIES).find(|&p| !allowed(p, entries)) {
        return Some(format!("entry {p} is not allowed: {}", entries[p]));
    }
    if let Some(p) = (1..ENTRIES).find(|&p| entries[p] < entries[p - 1]) {
        return Some(format!("the table falls at {p}"));
    }
    let of_entries = worst_step(&job.curve, &job.targets, entries);
    (worst != of_entries).then(|| format!("worst step {worst}, and {of_entries} by its entries"))
}

impl Oracle {
    pub fn new(library: Library, lent: Lent) -> Oracle {
        Oracle { reference: Engine::from_data_file(), library, lent, record: Guarded::new(LONGEST_RECORD) }
    }

    /// What all sides agree on, or the first difference. `judges` says whether the reference makes an even table that takes so many steps.
    pub fn run(&mut self, bytes: &[u8], lengths: Lengths, judges: impl FnOnce(u64) -> bool) -> Result<Outcome, String> {
        let job = self.reference.sound(bytes);
        let (nearest_refusal, nearest) = self.nearest(bytes, lengths, &job)?;
        let (even_refusal, even) = self.even(bytes, lengths, &job, judges)?;
        let (check, contrast) = self.check(bytes, lengths, &job)?;
        let made = job.ok().map(|job| Made { job, nearest, even, contrast });
        Ok(Outcome { refusals: [nearest_refusal, even_refusal, check.refusal], verdict: check.verdict, made })
    }

    fn nearest(&mut self, bytes: &[u8], lengths: Lengths, job: &Result<Sound, u32>) -> Result<(u32, Option<nearest::Table>), String> {
        let record = self.record.place(bytes);
        let got = self.library.nearest(record, self.lent.table.slice(lengths.entries));
        equal("nearest, record", &*record, bytes)?;
        let (expected, table) = match with(ENTRIES <= lengths.entries, job) {
            Err(refusal) => (Nearest { refusal, jlo: 0, jhi: 0, range: 0, room_high: 0, error: 0 }, None),
            Ok(job) => {
                let table = job.nearest();
                let [jlo, jhi, range, error] = [job.range.jlo, job.range.jhi, job.range.width(), table.largest_error].map(narrow);
                (Nearest { refusal: 0, jlo, jhi, range, room_high: u32::from(job.room_high), error }, Some(table))
            }
        };
        equal("nearest", got, expected)?;
        let entries: Vec<u16> = table.iter().flat_map(|table| &table.entries).map(|&level| level as u16).collect();
        nothing("nearest", self.lent.table.settle(&entries))?;
        Ok((expected.refusal, table))
    }

    fn even(
        &mut self,
        bytes: &[u8],
        lengths: Lengths,
        job: &Result<Sound, u32>,
        judges: impl FnOnce(u64) -> bool,
    ) -> Result<(u32, Option<EvenMade>), String> {
        let record = self.record.place(bytes);
        let got = self.library.even(record, self.lent.table.slice(lengths.entries), self.lent.words.slice(lengths.words));
        equal("even, record", &*record, bytes)?;
        let (expected, table) = match with(ENTRIES <= lengths.entries && WORDS <= lengths.words, job) {
            Err(refusal) => (Even { refusal, worst_step: 0 }, None),
            Ok(job) => {
                let allowed = allowed_levels(job);
                if allowed.contains(&0) {
                    (Even { refusal: 11, worst_step: 0 }, None)
                } else {
                    let steps = allowed.iter().sum::<u64>() * job.curve.len() as u64;
                    let table = self.even_table(job, got, steps, judges(steps))?;
                    (Even { refusal: 0, worst_step: table.worst_step }, Some(table))
                }
            }
        };
        equal("even", got, expected)?;
        let entries: Vec<u16> = table.iter().flat_map(|table| &table.entries).map(|&level| level as u16).collect();
        nothing("even", self.lent.table.settle(&entries))?;
        nothing("even, words", self.lent.words.settle_free(if table.is_some() { WORDS } else { 0 }))?;
        Ok((expected.refusal, table))
    }

    /// The reference's table; or the library's, once it keeps to what can be told without another.
    fn even_table(&mut self, job: &Sound, got: Even, steps: u64, judged: bool) -> Result<EvenMade, String> {
        if judged {
            let table = job.even().expect("each P-value has an allowed level");
            return Ok(EvenMade { worst_step: table.worst_step, entries: table.entries, steps, judged });
        }
        equal("even, refusal", got.refusal, 0)?;
        let entries: Vec<u64> = self.lent.table.slice(ENTRIES).iter().map(|&level| u64::from(level)).collect();
        nothing("even", fault(job, &entries, got.worst_step))?;
        Ok(EvenMade { worst_step: got.worst_step, entries, steps, judged })
    }

    fn check(&mut self, bytes: &[u8], lengths: Lengths, job: &Result<Sound, u32>) -> Result<(Check, Option<Contrast>), String> {
        let record = self.record.place(bytes);
        let got = self.library.check(record, self.lent.deviations.slice(lengths.places));
        equal("check, record", &*record, bytes)?;
        let answer = with(PLACES <= lengths.places, job).and_then(|job| job.check(&self.reference.gsdf));
        let (expected, contrast) = match answer {
            Err(refusal) => (Check { refusal, verdict: 0 }, None),
            Ok(None) => (Check { refusal: 0, verdict: 0 }, None),
            Ok(Some(contrast)) => (Check { refusal: 0, verdict: if contrast.passes { 1 } else { 2 } }, Some(contrast)),
        };
        equal("check", got, expected)?;
        let wide = |&deviation: &i128| i32::try_from(deviation).expect("a deviation has 32 bits");
        let deviations: Vec<i32> = contrast.iter().flat_map(|contrast| &contrast.deviations).map(wide).collect();
        nothing("check", self.lent.deviations.settle(&deviations))?;
        Ok((expected, contrast))
    }
}
