//! What is lent to an operation, and comparisons of its answers.
use crate::comparison::{field, start, Comparison};
use crate::random::Random;
use crate::record_tests::job_difference;

/// Entries before and after a lent slice, which nobody may touch.
const AROUND: usize = 40;

/// An element of a lent slice.
pub trait Entry: Copy + PartialEq + Into<i128> {
    fn any(random: &mut Random) -> Self;
}

impl Entry for u16 {
    fn any(random: &mut Random) -> u16 {
        random.below(1 << 16) as u16
    }
}

impl Entry for u32 {
    fn any(random: &mut Random) -> u32 {
        random.below(1 << 32) as u32
    }
}

impl Entry for i32 {
    fn any(random: &mut Random) -> i32 {
        random.below(1 << 32) as i32
    }
}

/// A slice to lend, filled with noise, and entries around it.
#[derive(Clone)]
pub struct Memory<T> {
    pub all: Vec<T>,
    /// The place of the first entry lent, so that its address is any multiple of an entry's size; where it is odd, no multiple of two entries' size.
    pub first: usize,
}

impl<T: Entry> Memory<T> {
    pub fn new(random: &mut Random, entries: usize) -> Memory<T> {
        let first = AROUND + random.place(8);
        Memory { all: (0..first + entries + AROUND).map(|_| T::any(random)).collect(), first }
    }

    pub fn entries(&self) -> usize {
        self.all.len() - self.first - AROUND
    }

    /// An allocation begins at a multiple of two entries' size, which is tested here.
    pub fn slice(&mut self) -> &mut [T] {
        let size = std::mem::size_of::<T>();
        let end = self.all.len() - AROUND;
        let slice = &mut self.all[self.first..end];
        assert_eq!(slice.as_ptr() as usize % (2 * size), size * (self.first % 2));
        slice
    }

    /// The first place where this is not as expected; the first `free` entries lent may be anything.
    pub fn difference(&self, name: &str, expected: &Memory<T>, free: usize) -> Option<String> {
        let (before, kept) = (self.first, self.first + free);
        memory(&format!("before the {name}"), &self.all[..before], &expected.all[..before])
            .or_else(|| memory(&format!("{name} from {free} on"), &self.all[kept..], &expected.all[kept..]))
    }
}

/// A record and a slice to lend. The record ends where its memory ends.
#[derive(Clone)]
pub struct Lent<T> {
    /// One byte, so that the record stands at an odd address, and the record.
    pub bytes: Vec<u8>,
    pub memory: Memory<T>,
}

impl<T: Entry> Lent<T> {
    pub fn new(random: &mut Random, record: &[u8], entries: usize) -> Lent<T> {
        Lent { bytes: [&[255][..], record].concat(), memory: Memory::new(random, entries) }
    }

    pub fn record(&self) -> &[u8] {
        &self.bytes[1..]
    }

    pub fn entries(&self) -> usize {
        self.memory.entries()
    }

    pub fn slice(&mut self) -> &mut [T] {
        self.memory.slice()
    }

    /// The record and the slice, for a call.
    pub fn parts(&mut self) -> (&mut [u8], &mut [T]) {
        assert_eq!(self.bytes.capacity(), self.bytes.len());
        assert_eq!(self.bytes[1..].as_ptr() as usize % 2, 1);
        (&mut self.bytes[1..], self.memory.slice())
    }

    /// The first place where this is not as expected, or where its record is not read as tools/job reads it.
    pub fn difference(&self, expected: &Lent<T>) -> Option<String> {
        let bytes = || memory("record, its first byte at place 1", &self.bytes, &expected.bytes);
        self.memory.difference("entries", &expected.memory, 0).or_else(bytes).or_else(|| job_difference(self.record()))
    }
}

/// The first place where two memories differ; many entries are compared, so at once.
fn memory<T: Copy + PartialEq + Into<i128>>(name: &str, got: &[T], expected: &[T]) -> Option<String> {
    if got == expected {
        return None;
    }
    field(name, got, expected)
}

/// Comparisons of answers; each input counts as one, with its whole answer.
pub struct Answers(Comparison);

impl Answers {
    pub fn new(name: &'static str) -> Answers {
        Answers(Comparison::new(name))
    }

    pub fn count<T: Entry>(&mut self, lent: &Lent<T>, difference: Option<String>) {
        let input = self.0.seen();
        let bytes = lent.record();
        let about = |difference| {
            format!("input {input} ({} bytes, {} entries lent, {:?}): {difference}", bytes.len(), lent.entries(), start(bytes))
        };
        self.0.count(difference.map(about));
    }

    pub fn ended(self, expected: u64) -> bool {
        self.0.ended(expected)
    }
}
