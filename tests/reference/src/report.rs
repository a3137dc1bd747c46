//! The program's whole output.
use crate::contrast::PAIRS;
use crate::engine::Engine;

/// What the program reads of its input at most: one byte more than the longest record has.
pub const BUFFER: usize = 6_251;
/// What it lends to the operations.
const ENTRIES: usize = 256;
const WORDS: usize = 8_192;

/// The output for an input of any bytes.
pub fn report(engine: &Engine, input: &[u8]) -> Vec<u8> {
    let record = &input[..input.len().min(BUFFER)];
    match result(engine, record) {
        Ok(lines) => lines,
        Err(number) => format!("refused {number}\n"),
    }
    .into_bytes()
}

/// The lines of a job that no operation refuses, or the first refusal.
fn result(engine: &Engine, record: &[u8]) -> Result<String, u32> {
    let (job, nearest) = engine.nearest(record, ENTRIES)?;
    let (_, even) = engine.even(record, ENTRIES, WORDS)?;
    let (_, check) = engine.check(record, PAIRS)?;
    let verdict = check.map_or("none", |contrast| if contrast.passes { "pass" } else { "fail" });
    let mut lines = vec![
        format!("range {} {} {}", job.range.jlo, job.range.jhi, job.range.width()),
        format!("room {}", if job.room_high { "high" } else { "low" }),
        format!("even {}", even.worst_step),
        format!("check {verdict}"),
    ];
    let entries = nearest.entries.iter().zip(&even.entries);
    lines.extend(entries.enumerate().map(|(p, (nearest, even))| format!("{p} {nearest} {even}")));
    Ok(lines.into_iter().map(|line| line + "\n").collect())
}
