//! The records that are kept, and by what.
use std::collections::HashSet;

use compare::random::Random;

/// The most records kept, sound or refused; each further one takes the place of another.
const MOST: usize = 10_000;

struct Kept {
    bytes: Vec<u8>,
    work: u64,
}

#[derive(Default)]
pub struct Corpus {
    sound: Vec<Kept>,
    refused: Vec<Kept>,
    features: HashSet<u64>,
    /// Blocks met by one execution, all together.
    block_sets: HashSet<u64>,
}

impl Corpus {
    pub fn len(&self) -> usize {
        self.sound.len() + self.refused.len()
    }

    pub fn features(&self) -> usize {
        self.features.len()
    }

    pub fn block_sets(&self) -> usize {
        self.block_sets.len()
    }

    pub fn has_new_features(&mut self, features: Vec<u64>) -> bool {
        let before = self.features.len();
        self.features.extend(features);
        before < self.features.len()
    }

    pub fn has_new_block_set(&mut self, met: u64) -> bool {
        self.block_sets.insert(met)
    }

    pub fn keep(&mut self, random: &mut Random, bytes: Vec<u8>, is_sound: bool, work: u64) {
        let kept = if is_sound { &mut self.sound } else { &mut self.refused };
        if kept.len() < MOST {
            kept.push(Kept { bytes, work });
        } else {
            kept[random.place(MOST)] = Kept { bytes, work };
        }
    }

    /// Mostly a sound one, that of three with the least work.
    pub fn choose(&self, random: &mut Random) -> &[u8] {
        let kept = if random.below(8) == 0 { &self.refused } else { &self.sound };
        let drawn = (0..3).map(|_| &kept[random.place(kept.len())]);
        &drawn.min_by_key(|kept| kept.work).expect("some are drawn").bytes
    }
}
