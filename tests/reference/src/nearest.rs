//! The nearest table, by looking at every level for every target.

#[derive(Clone, Debug, PartialEq)]
pub struct Table {
    /// The level of each target.
    pub entries: Vec<u64>,
    /// The error of each entry, and the largest of them.
    pub errors: Vec<u64>,
    pub largest_error: u64,
    /// For how many targets a darker and a brighter level are equally near.
    pub ties: u64,
    /// For how many targets the nearest luminance belongs to several levels.
    pub plateaus: u64,
}

/// The table of a curve that never falls: levels equally near to a target stand side by side.
pub fn table(curve: &[u64], targets: &[u64]) -> Table {
    let mut table = Table { entries: vec![], errors: vec![], largest_error: 0, ties: 0, plateaus: 0 };
    for &target in targets {
        let distance = |luminance: u64| luminance.abs_diff(target);
        let least = curve.iter().map(|&luminance| distance(luminance)).min().expect("a curve has levels");
        let lowest = curve.iter().position(|&luminance| distance(luminance) == least).expect("a level has it");
        let highest = curve.iter().rposition(|&luminance| distance(luminance) == least).expect("a level has it");
        let tie = curve[lowest] != curve[highest];
        table.entries.push(lowest as u64);
        table.errors.push(least);
        table.largest_error = table.largest_error.max(least);
        table.ties += u64::from(tie);
        table.plateaus += u64::from(lowest + usize::from(tie) < highest);
    }
    table
}
