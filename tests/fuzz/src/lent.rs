//! What is lent to the operations, with entries around it that nobody may touch.
use compare::random::Random;

const AROUND: usize = 40;

/// How much is lent in an execution.
#[derive(Clone, Copy, Debug)]
pub struct Lengths {
    pub entries: usize,
    pub words: usize,
    pub places: usize,
}

const ENTRIES: [usize; 7] = [256, 257, 300, 1_000, 255, 0, 1];
const WORDS: [usize; 6] = [8_192, 8_193, 8_300, 8_191, 0, 1];
const PLACES: [usize; 7] = [17, 18, 19, 40, 16, 0, 1];
/// The most of each.
const MOST: Lengths = Lengths { entries: 1_000, words: 8_300, places: 40 };

impl Lengths {
    /// Mostly enough; now and then too little of one or more.
    pub fn draw(random: &mut Random) -> Lengths {
        let mut one_of = |lengths: &[usize], enough: usize| {
            let most = if random.below(20) == 0 { lengths.len() } else { enough };
            lengths[random.place(most)]
        };
        Lengths { entries: one_of(&ENTRIES, 4), words: one_of(&WORDS, 3), places: one_of(&PLACES, 4) }
    }
}

/// Memory with noise, and what it held before a call.
pub struct Memory<T> {
    now: Vec<T>,
    before: Vec<T>,
    first: usize,
}

impl<T: Copy + PartialEq + std::fmt::Debug> Memory<T> {
    fn new(random: &mut Random, most: usize, noise: impl Fn(u64) -> T) -> Memory<T> {
        let first = AROUND + random.place(8);
        let before: Vec<T> = (0..first + most + AROUND).map(|_| noise(random.below(1 << 32))).collect();
        Memory { now: before.clone(), before, first }
    }

    pub fn slice(&mut self, length: usize) -> &mut [T] {
        &mut self.now[self.first..self.first + length]
    }

    /// The first place where this is not `front` and what was there before; then all is as before.
    pub fn settle(&mut self, front: &[T]) -> Option<String> {
        let rest = self.first + front.len();
        let as_before = self.now[..self.first] == self.before[..self.first] && self.now[rest..] == self.before[rest..];
        if !as_before || self.now[self.first..rest] != *front {
            return Some(self.difference(front));
        }
        self.now[self.first..rest].copy_from_slice(&self.before[self.first..rest]);
        None
    }

    /// The same where the first `free` entries may hold anything; they are kept as they are.
    pub fn settle_free(&mut self, free: usize) -> Option<String> {
        let freed = self.first..self.first + free;
        self.before[freed.clone()].copy_from_slice(&self.now[freed]);
        self.settle(&[])
    }

    fn difference(&self, front: &[T]) -> String {
        let expected = |place: usize| match place.checked_sub(self.first).and_then(|entry| front.get(entry)) {
            Some(&entry) => entry,
            None => self.before[place],
        };
        let place = (0..self.now.len()).find(|&place| self.now[place] != expected(place)).expect("there is a difference");
        format!("entry {} is {:?}, expected {:?}", place as isize - self.first as isize, self.now[place], expected(place))
    }
}

/// A table, working words and deviations.
pub struct Lent {
    pub table: Memory<u16>,
    pub words: Memory<u32>,
    pub deviations: Memory<i32>,
}

impl Lent {
    pub fn new(random: &mut Random) -> Lent {
        Lent {
            table: Memory::new(random, MOST.entries, |noise| noise as u16),
            words: Memory::new(random, MOST.words, |noise| noise as u32),
            deviations: Memory::new(random, MOST.places, |noise| noise as i32),
        }
    }
}
