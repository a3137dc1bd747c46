//! Counts what a run has met, so that it cannot pass by meeting too little.

/// How often each of some things was seen.
pub struct Tally {
    about: &'static str,
    names: Vec<String>,
    seen: Vec<u64>,
}

impl Tally {
    pub fn new<T: ToString>(about: &'static str, names: impl IntoIterator<Item = T>) -> Tally {
        let names: Vec<String> = names.into_iter().map(|name| name.to_string()).collect();
        Tally { about, seen: vec![0; names.len()], names }
    }

    pub fn add(&mut self, place: usize) {
        self.seen[place] += 1;
    }

    /// Adds each property that holds; the names are theirs.
    pub fn add_each<T>(&mut self, properties: &[(&str, T)], holds: impl Fn(&T) -> bool) {
        for (place, (_, property)) in properties.iter().enumerate() {
            if holds(property) {
                self.add(place);
            }
        }
    }

    /// Whether each was seen so often.
    pub fn ended(self, least: u64) -> bool {
        let each: Vec<String> = self.names.iter().zip(&self.seen).map(|(name, seen)| format!("{name}: {seen}")).collect();
        println!("{}: {}", self.about, each.join(", "));
        for (name, seen) in self.names.iter().zip(&self.seen) {
            if *seen < least {
                println!("{}: {name} should be seen {least} times", self.about);
            }
        }
        self.seen.iter().all(|&seen| least <= seen)
    }
}
