//! Counts what is compared.
use std::fmt::Debug;

/// Counts comparisons by name; the first difference of each is printed.
pub struct Comparison {
    name: &'static str,
    seen: u64,
    wrong: u64,
}

impl Comparison {
    pub fn new(name: &'static str) -> Comparison {
        Comparison { name, seen: 0, wrong: 0 }
    }

    pub fn equal(&mut self, input: u64, got: u32, expected: u64) {
        let differs = u64::from(got) != expected;
        self.count(differs.then(|| format!("at {input} got {got}, expected {expected}")));
    }

    /// One comparison, with what differs where something does.
    pub fn count(&mut self, difference: Option<String>) {
        self.seen += 1;
        if let Some(difference) = difference {
            if self.wrong == 0 {
                println!("{}: {difference}", self.name);
            }
            self.wrong += 1;
        }
    }

    /// A comparison that has to find a difference.
    pub fn seen_difference(&mut self, difference: Option<String>) {
        self.count(difference.map_or(Some("a difference is not seen".to_string()), |_| None));
    }

    /// Each change makes an answer another one; the answer itself is as expected.
    pub fn seen_changes<A: Clone>(&mut self, answer: &A, changes: &[fn(&mut A)], difference: impl Fn(&A) -> Option<String>) {
        for change in changes {
            let mut changed = answer.clone();
            change(&mut changed);
            self.seen_difference(difference(&changed));
        }
        self.count(difference(answer));
    }

    /// Each fact of engine and reference.
    pub fn facts<A, F: Debug>(&mut self, name: &str, answers: &mut [A; 2], facts: &[F], holds: fn(&F, &mut A) -> bool) {
        for fact in facts {
            for (side, answer) in ["engine", "reference"].into_iter().zip(&mut *answers) {
                self.count((!holds(fact, answer)).then(|| format!("{name}, {side}: not {fact:?}")));
            }
        }
    }

    /// How many there were so far.
    pub fn seen(&self) -> u64 {
        self.seen
    }

    /// Whether all were equal, and as many as there should be.
    pub fn ended(self, expected: u64) -> bool {
        println!("{}: {} compared, {} differ", self.name, self.seen, self.wrong);
        if self.seen != expected {
            println!("{}: there should be {expected}", self.name);
        }
        self.wrong == 0 && self.seen == expected
    }
}

/// The first place where two lists differ.
pub fn field<T: Copy + Into<i128>, U: Copy + Into<i128>>(name: &str, got: &[T], expected: &[U]) -> Option<String> {
    let got_at = |place| got.get(place).map(|&value: &T| value.into());
    let expected_at = |place| expected.get(place).map(|&value: &U| value.into());
    let place = (0..got.len().max(expected.len())).find(|&place| got_at(place) != expected_at(place))?;
    Some(format!("{name}, place {place}: got {:?}, expected {:?}", got_at(place), expected_at(place)))
}

/// As many bytes as can be looked at.
pub fn start(bytes: &[u8]) -> &[u8] {
    &bytes[..bytes.len().min(64)]
}
