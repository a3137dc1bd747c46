//! The even table, by the least worst step of the rest of a table from each level on, over pairs of levels.

#[derive(Clone, Debug, PartialEq)]
pub struct Table {
    /// The level of each target.
    pub entries: Vec<u64>,
    pub worst_step: u64,
    /// Whether another allowed table has this worst step too.
    pub tie: bool,
}

/// The worst step where no table goes on.
const NO_TABLE: u64 = u64::MAX;

/// |F(d) − t| × 1000 ≤ w × t.
pub fn is_allowed(luminance: u64, target: u64, tolerance: u64) -> bool {
    luminance.abs_diff(target) * 1_000 <= tolerance * target
}

/// 1000 × |f − g| / g, rounded up.
pub fn step_deviation(f: i64, g: i64) -> u64 {
    let (parts, g) = (1_000 * f.abs_diff(g), g as u64);
    parts / g + u64::from(parts % g != 0)
}

/// The largest step deviation of any list of levels; 0 where there is no step.
pub fn worst_step(curve: &[u64], targets: &[u64], entries: &[u64]) -> u64 {
    let step = |values: [u64; 2]| values[1] as i64 - values[0] as i64;
    let deviation = |p: usize| {
        let f = step([entries[p], entries[p + 1]].map(|level| curve[level as usize]));
        step_deviation(f, step([targets[p], targets[p + 1]]))
    };
    (0..targets.len() - 1).map(deviation).max().unwrap_or(0)
}

/// What tables are made from: a curve that never falls, targets that rise, w.
struct Problem<'a> {
    curve: &'a [u64],
    targets: &'a [u64],
    tolerance: u64,
}

impl Problem<'_> {
    /// Whether a level is allowed, for each level.
    fn allowed(&self, p: usize) -> Vec<bool> {
        self.curve.iter().map(|&luminance| is_allowed(luminance, self.targets[p], self.tolerance)).collect()
    }

    fn step_deviation(&self, p: usize, d: usize, e: usize) -> u64 {
        step_deviation((self.curve[e] - self.curve[d]) as i64, (self.targets[p + 1] - self.targets[p]) as i64)
    }

    /// The least worst step of the rest of a table from level d at p on, where those of the next P-value are known.
    fn least_rest(&self, p: usize, d: usize, next: &[u64]) -> u64 {
        let wanted = self.targets[p + 1] - self.targets[p];
        let mut least = NO_TABLE;
        for e in d..self.curve.len() {
            let deviation = self.step_deviation(p, d, e);
            // From here on a higher level's step is no less off, since the curve never falls.
            if wanted <= self.curve[e] - self.curve[d] && least <= deviation {
                break;
            }
            least = least.min(next[e].max(deviation));
        }
        least
    }

    /// The same for each P-value and level, from the last P-value back.
    fn least_rests(&self) -> Vec<Vec<u64>> {
        let last = self.targets.len() - 1;
        let mut rests = vec![self.allowed(last).into_iter().map(|allowed| if allowed { 0 } else { NO_TABLE }).collect()];
        for p in (0..last).rev() {
            let next: &Vec<u64> = &rests[rests.len() - 1];
            let rest = |(d, allowed)| if allowed { self.least_rest(p, d, next) } else { NO_TABLE };
            rests.push(self.allowed(p).into_iter().enumerate().map(rest).collect());
        }
        rests.reverse();
        rests
    }

    /// The table with this worst step or a lesser one that has the lowest level, or the highest, at each P-value from the first on. What can follow a level depends on no level before it.
    fn entries(&self, rests: &[Vec<u64>], worst: u64, highest: bool) -> Vec<u64> {
        let mut entries: Vec<u64> = vec![];
        for (p, rests) in rests.iter().enumerate() {
            let fits = |level: usize| match entries.last() {
                None => true,
                Some(&before) => before as usize <= level && self.step_deviation(p - 1, before as usize, level) <= worst,
            };
            let mut levels = (0..self.curve.len()).filter(|&level| rests[level] <= worst && fits(level));
            let level = if highest { levels.last() } else { levels.next() };
            entries.push(level.expect("a table goes on") as u64);
        }
        entries
    }
}

/// The even table, or nothing where some target has no allowed level.
pub fn table(curve: &[u64], targets: &[u64], tolerance: u64) -> Option<Table> {
    let problem = Problem { curve, targets, tolerance };
    if (0..targets.len()).any(|p| !problem.allowed(p).contains(&true)) {
        return None;
    }
    let rests = problem.least_rests();
    let worst = *rests[0].iter().min().expect("a curve has levels");
    assert_ne!(worst, NO_TABLE, "the lowest allowed levels never fall");
    let entries = problem.entries(&rests, worst, false);
    let tie = problem.entries(&rests, worst, true) != entries;
    Some(Table { entries, worst_step: worst, tie })
}
