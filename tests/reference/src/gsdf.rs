//! The Grayscale Standard Display Function, from the data file.

pub const FIRST_INDEX: u64 = 100;
pub const LAST_INDEX: u64 = 102_300;

/// Table B-1 and the luminance of every index.
pub struct Gsdf {
    /// T(j) at j, in units of 0.0001 cd/m²; place 0 is not used.
    table: Vec<u64>,
    /// G(k) at k; places below 100 are not used.
    luminances: Vec<u64>,
}

impl Gsdf {
    pub fn from_data_file() -> Gsdf {
        let mut table = vec![0];
        for line in include_str!("../../../data/table-b1.tsv").lines() {
            if line.starts_with('#') {
                continue;
            }
            let (jnd, printed) = line.split_once('\t').expect("an entry has two fields");
            assert_eq!(jnd.parse(), Ok(table.len()), "the entries stand in order");
            let (whole, part) = printed.split_once('.').expect("a luminance has a decimal point");
            assert_eq!(part.len(), 4, "a luminance has four decimals");
            table.push(10_000 * whole.parse::<u64>().unwrap() + part.parse::<u64>().unwrap());
        }
        assert_eq!(table.len(), 1024);
        let mut luminances = vec![0; FIRST_INDEX as usize];
        for j in 1..1023 {
            for r in 0..100 {
                luminances.push(table[j] + (table[j + 1] - table[j]) * r / 100);
            }
        }
        luminances.push(table[1023]);
        assert_eq!(luminances.len() as u64, LAST_INDEX + 1);
        Gsdf { table, luminances }
    }

    /// T(1) to T(1023).
    pub fn entries(&self) -> &[u64] {
        &self.table[1..]
    }

    /// T(1).
    pub fn darkest(&self) -> u64 {
        self.table[1]
    }

    /// T(1023).
    pub fn brightest(&self) -> u64 {
        self.table[1023]
    }

    /// G(k).
    pub fn luminance(&self, k: u64) -> u64 {
        assert!(k >= FIRST_INDEX);
        self.luminances[k as usize]
    }

    /// J(l), by halving all indices: G never falls.
    pub fn index(&self, l: u64) -> u64 {
        assert!(self.darkest() <= l && l <= self.brightest());
        let luminances = &self.luminances[FIRST_INDEX as usize..];
        FIRST_INDEX - 1 + luminances.partition_point(|&luminance| luminance <= l) as u64
    }

    /// J(l), by looking at every index from the last down.
    pub fn scanned_index(&self, l: u64) -> u64 {
        assert!(self.darkest() <= l && l <= self.brightest());
        (FIRST_INDEX..=LAST_INDEX).rev().find(|&k| self.luminance(k) <= l).expect("G(100) is at most l")
    }
}
