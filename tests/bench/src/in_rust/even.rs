//! The even table.
use compare::even::{EvenValues, Lent};
use compare::yepidlaw::Even;

use super::job::{Frame, VALUES};
use super::record;

const WORDS_OF_ROW: usize = 32;
/// No step of luminance is larger.
const LARGEST_STEP: u64 = 1 << 26;

/// A display and what is asked of its table.
struct Problem<'a> {
    curve: &'a [u32],
    targets: &'a [u32],
    tolerance: u16,
}

/// The levels allowed at each target, from its start to below its end.
struct Runs<'a> {
    starts: &'a [u16],
    ends: &'a [u16],
}

impl Runs<'_> {
    fn at(&self, p: usize) -> (usize, usize) {
        (usize::from(self.starts[p]), usize::from(self.ends[p]))
    }
}

/// The steps whose deviation is at most some number.
#[derive(Clone, Copy)]
struct Span {
    least: u32,
    most: u32,
}

impl Span {
    fn of(k: u64, g: u32) -> Span {
        let (wanted, apart) = (1_000 * u64::from(g), k * u64::from(g));
        let least = if apart < wanted { (wanted - apart + 999) / 1_000 } else { 0 };
        Span { least: least as u32, most: ((wanted + apart) / 1_000).min(LARGEST_STEP) as u32 }
    }
}

fn is_lit(row: &[u32], d: usize) -> bool {
    row[d / 32] >> (d % 32) & 1 == 1
}

fn step_deviation(f: u32, g: u32) -> u64 {
    let wanted = u64::from(g);
    (1_000 * u64::from(f.abs_diff(g)) + wanted - 1) / wanted
}

/// The first level from `d` on that is not darker.
fn rise_to(curve: &[u32], luminance: u32, mut d: usize) -> usize {
    while d < curve.len() && curve[d] < luminance {
        d += 1;
    }
    d
}

/// Finds the runs; the worst step of the lowest of their levels, or nothing where a target has none.
fn find_runs(problem: &Problem, starts: &mut [u16], ends: &mut [u16]) -> Option<u64> {
    let Problem { curve, targets, tolerance } = *problem;
    let (mut from, mut to, mut worst) = (0, 0, 0);
    for (p, &target) in targets.iter().enumerate() {
        let error = (u64::from(tolerance) * u64::from(target) / 1_000) as u32;
        let before = from;
        from = rise_to(curve, target - error, from);
        to = rise_to(curve, target + error + 1, to);
        if to <= from {
            return None;
        }
        if 0 < p {
            worst = worst.max(step_deviation(curve[from] - curve[before], target - targets[p - 1]));
        }
        starts[p] = from as u16;
        ends[p] = to as u16;
    }
    Some(worst)
}

/// Lights the levels of a run that have a step of the span to a lit level of the next row, word by word; whether there is one.
fn fill_row(curve: &[u32], row: &mut [u32], run: (usize, usize), next: &[u32], next_run: (usize, usize), span: Span) -> bool {
    let ((mut d, to), (mut q, next_to)) = (run, next_run);
    let mut some = false;
    while d < to {
        let word = d / 32;
        let end = to.min(32 * word + 32);
        let mut bits = 0;
        while d < end {
            let least = curve[d] + span.least;
            q = q.max(d);
            while q < next_to && (curve[q] < least || !is_lit(next, q)) {
                q += 1;
            }
            if q < next_to && curve[q] - curve[d] <= span.most {
                bits |= 1 << (d % 32);
            }
            d += 1;
        }
        row[word] = bits;
        some |= bits != 0;
    }
    some
}

/// Fills the rows before the last one; whether some table has no step deviation above k.
fn fill_rows(problem: &Problem, runs: &Runs, k: u64, work: &mut [u32]) -> bool {
    let targets = problem.targets;
    (0..targets.len() - 1).rev().all(|p| {
        let (row, next) = work[WORDS_OF_ROW * p..WORDS_OF_ROW * (p + 2)].split_at_mut(WORDS_OF_ROW);
        fill_row(problem.curve, row, runs.at(p), next, runs.at(p + 1), Span::of(k, targets[p + 1] - targets[p]))
    })
}

/// The lowest lit level at each target whose step from the one before fits.
fn write_table(problem: &Problem, runs: &Runs, k: u64, work: &[u32], table: &mut [u16]) {
    let Problem { curve, targets, .. } = *problem;
    let (mut d, mut least) = (0, 0);
    for (p, row) in work.chunks_exact(WORDS_OF_ROW).take(targets.len()).enumerate() {
        if 0 < p {
            least = curve[d] + Span::of(k, targets[p] - targets[p - 1]).least;
        }
        d = d.max(runs.at(p).0);
        while curve[d] < least || !is_lit(row, d) {
            d += 1;
        }
        table[p] = d as u16;
    }
}

/// The least worst step, by halving what is left between 0 and a bound; the rows are filled for it.
fn least_worst(problem: &Problem, runs: &Runs, bound: u64, work: &mut [u32]) -> u64 {
    let (mut low, mut high, mut ready) = (0, bound, false);
    while low < high {
        let middle = low + (high - low) / 2;
        ready = fill_rows(problem, runs, middle, work);
        if ready {
            high = middle;
        } else {
            low = middle + 1;
        }
    }
    if !ready {
        fill_rows(problem, runs, low, work);
    }
    low
}

fn worst_step(problem: &Problem, lent: Lent) -> Option<u64> {
    let Lent { starts, ends, table, work } = lent;
    let bound = find_runs(problem, starts, ends)?;
    let runs = Runs { starts, ends };
    let last = problem.targets.len() - 1;
    let (from, to) = runs.at(last);
    for d in from..to {
        work[WORDS_OF_ROW * last + d / 32] |= 1 << (d % 32);
    }
    let worst = least_worst(problem, &runs, bound, work);
    write_table(problem, &runs, worst, work, table);
    Some(worst)
}

#[inline(never)]
pub fn even_fill(curve: &[u32], targets: &[u32], tolerance: u16, lent: Lent) -> EvenValues {
    let worst = worst_step(&Problem { curve, targets, tolerance }, lent);
    EvenValues { made: u32::from(worst.is_some()), worst_step: worst.unwrap_or(0) }
}

fn made(bytes: &[u8], table: &mut [u16], work: &mut [u32]) -> Result<u64, u32> {
    if table.len() < VALUES || work.len() < VALUES * WORDS_OF_ROW {
        return Err(1);
    }
    let values = record::read(bytes);
    let frame = Frame::of(&values)?;
    let (curve, targets) = (frame.curve(&values), frame.targets());
    let problem = Problem { curve: &curve[..1 << values.depth], targets: &targets, tolerance: values.tolerance };
    let lent = Lent { starts: &mut [0; VALUES], ends: &mut [0; VALUES], table, work };
    worst_step(&problem, lent).ok_or(11)
}

#[inline(never)]
pub fn even(bytes: &[u8], table: &mut [u16], work: &mut [u32]) -> Even {
    match made(bytes, table, work) {
        Ok(worst_step) => Even { refusal: 0, worst_step },
        Err(refusal) => Even { refusal, worst_step: 0 },
    }
}
