//! What document 01 says of single jobs outright, or by its table and a few sums.
use reference::engine::Engine;
use reference::record::Record;

use super::{Answer, Lent, ENTRIES};
use crate::comparison::Comparison;
use crate::random::Random;
use crate::record_tests::order::example_records;

/// Something that an answer should have.
#[derive(Clone, Copy, Debug)]
enum Fact {
    Number(u32),
    Jlo(u32),
    Jhi(u32),
    RoomHigh(u32),
    /// The entry at a P-value.
    Entry(usize, u16),
}

use Fact::{Entry, Jhi, Jlo, Number, RoomHigh};

impl Fact {
    fn holds(&self, answer: &mut Answer) -> bool {
        match *self {
            Number(number) => answer.result.refusal == number,
            Jlo(index) => answer.result.jlo == index,
            Jhi(index) => answer.result.jhi == index,
            RoomHigh(mark) => answer.result.room_high == mark,
            Entry(p, ddl) => answer.lent.slice()[p] == ddl,
        }
    }
}

/// A job, how many entries are lent, and the facts.
type Example = (String, Vec<u8>, usize, Vec<Fact>);

fn example(name: &str, record: Record, facts: &[Fact]) -> Example {
    (name.to_string(), record.bytes(), ENTRIES, facts.to_vec())
}

/// The examples of the refusal table; those from 11 on are sound for this operation. With the lamp of 11, F(0) is 12,400.
fn refusal_table() -> Vec<Example> {
    let mut examples = vec![];
    for (name, bytes) in example_records() {
        let number = name.parse().unwrap_or(0);
        let facts = match number {
            0..=10 => vec![Number(number)],
            11 => vec![Number(0), Jlo(8_072), RoomHigh(0)],
            _ => vec![Number(0)],
        };
        if name == "sound" {
            examples.push(("1".to_string(), bytes.clone(), 255, vec![Number(1)]));
        }
        examples.push((name.to_string(), bytes, ENTRIES, facts));
    }
    examples
}

/// A job of depth 8.
fn job(meter: u64, reflectance: u64, lamps: &[u64], sweep: &[(u64, u64)]) -> Record {
    Record {
        settings: vec![8, meter, 1, reflectance, 0],
        lamps: lamps.to_vec(),
        ddls: sweep.iter().map(|reading| reading.0).collect(),
        luminances: sweep.iter().map(|reading| reading.1).collect(),
        check: vec![],
    }
}

/// No lamps; the curve goes from 500 to T(124), so that Jlo is 102, N is 12,298 and t(1) is G(150) = 523.
fn job_with_523(levels: [u64; 4]) -> Record {
    job(0, 60, &[], &[(0, 500), (1, levels[0]), (2, levels[1]), (3, levels[2]), (4, levels[3]), (255, 28_436)])
}

/// The marked examples that a record can show. Those of F and of the nearest level stand around the target 523.
fn marked_examples() -> Vec<Example> {
    let dark = |first| job(0, 60, &[], &[(0, first), (255, 2_560_000)]);
    let between = job(0, 60, &[], &[(0, 500), (1, 518), (4, 528), (255, 28_436)]);
    vec![
        example("J(500)", dark(500), &[Number(0), Jlo(102)]),
        example("J(501)", dark(501), &[Number(0), Jlo(104)]),
        example("J(546)", dark(546), &[Number(0), Jlo(199)]),
        example("J(547)", dark(547), &[Number(0), Jlo(202)]),
        example("J(12,400)", dark(12_400), &[Number(0), Jlo(8_072)]),
        example("40 lux, Rd 60", job(0, 60, &[40], &[(0, 10_000), (255, 2_560_000)]), &[Number(0), Jlo(8_072)]),
        example("G(150)", job_with_523([522, 523, 524, 525]), &[Number(0), Jlo(102), Jhi(12_400), Entry(1, 2)]),
        example("F(1) and F(2)", between, &[Number(0), Jlo(102), Jhi(12_400), Entry(1, 3)]),
        example("target 15", job_with_523([518, 528, 528, 538]), &[Number(0), Entry(1, 1)]),
        example("target 16", job_with_523([517, 527, 527, 537]), &[Number(0), Entry(1, 2)]),
        example("target 25", job_with_523([508, 518, 518, 528]), &[Number(0), Entry(1, 2)]),
    ]
}

/// T(1) and T(1023) for every meter, with room light and without; P = 255 reaches T(1023).
fn ends_of_table() -> Vec<Example> {
    let mut examples = vec![];
    // A contact meter's reading lacks the room light: 10 × 40.
    for (meter, lamps, added) in [(0, &[][..], 0), (0, &[40][..], 400), (1, &[][..], 0), (1, &[40][..], 0), (0, &[3, 20, 17][..], 400)] {
        for (first, fact) in [(499, Number(8)), (500, Jlo(102)), (501, Jlo(104))] {
            let record = job(meter, 10, lamps, &[(0, first - added), (255, 2_560_000)]);
            examples.push(example("F(0) at T(1)", record, &[fact]));
        }
        for (last, fact) in [(39_934_039, Number(0)), (39_934_040, Jhi(102_300)), (39_934_041, Number(9))] {
            let record = job(meter, 10, lamps, &[(0, 10_000), (255, last - added)]);
            examples.push(example("F(M) at T(1023)", record, &[fact]));
        }
        let record = job(meter, 10, lamps, &[(0, 10_000), (254, 39_934_038 - added), (255, 39_934_040 - added)]);
        examples.push(example("t(255)", record, &[Number(0), Jhi(102_300), Entry(0, 0), Entry(255, 255)]));
    }
    examples
}

/// Sums that 32 bits do not hold.
fn large_sums() -> Vec<Example> {
    let bright = |first, last| job(0, 1_000, &[2_000; 8], &[(0, first), (255, last)]);
    vec![
        example("largest readings", job(0, 60, &[], &[(0, 4_294_967_295), (255, 4_294_967_295)]), &[Number(9)]),
        example("largest readings, bright", bright(4_294_967_295, 4_294_967_295), &[Number(9)]),
        example("largest last reading, bright", bright(0, 4_294_967_295), &[Number(9)]),
        // 2^32 − 16,000,000 + 500, and + 2,560,000
        example("500 in 32 bits", bright(4_278_967_796, 4_281_527_296), &[Number(9)]),
        example("brightest room", bright(0, 23_934_040), &[Number(0), Jhi(102_300), RoomHigh(1)]),
    ]
}

/// From J(500) = 102 to 10,102, whose luminance is 18,868 + floor(365 × 2 / 100), and to the index below.
fn least_range() -> Vec<Example> {
    let narrow = |last| job(0, 60, &[], &[(0, 500), (255, last)]);
    vec![
        example("N = 10,000", narrow(18_875), &[Number(0), Jlo(102), Jhi(10_102)]),
        example("N = 9,999", narrow(18_874), &[Number(10)]),
        example("N = 0", narrow(500), &[Number(10)]),
    ]
}

/// Four times 2,400 is 9,600, whatever the meter.
fn room_marks() -> Vec<Example> {
    let mut examples = vec![];
    for meter in [0, 1] {
        for (first, mark) in [(9_599, 1), (9_600, 0), (9_601, 0), (7_200, 1), (12_000, 0)] {
            let record = job(meter, 60, &[40], &[(0, first), (255, 2_560_000)]);
            examples.push(example("room mark", record, &[Number(0), RoomHigh(mark)]));
        }
        let dark = job(meter, 60, &[0; 8], &[(0, 500), (255, 2_560_000)]);
        examples.push(example("no light", dark, &[Number(0), RoomHigh(0), Jlo(102)]));
    }
    examples.push(example("no reading", job(0, 1, &[500], &[(0, 0), (255, 2_560_000)]), &[Number(0), RoomHigh(1), Jlo(102)]));
    examples
}

/// 4 × A0 around 2^16, around 2^24 and as large as a first reading can be: N is 10,000 or more up to F(0) = 20,852,060.
fn large_room_marks() -> Vec<Example> {
    let mut examples = vec![];
    let rooms: [(u64, u64, &[u64], u64); 6] = [
        (0, 512, &[32], 16_384),
        (1, 512, &[32], 16_384),
        (1, 512, &[1_024; 8], 4_194_304),
        // The largest A0 with a contact meter, then the largest odd one and the largest with a telescopic one.
        (0, 477, &[2_000, 743, 2_000, 2_000, 2_000], 4_170_411),
        (1, 383, &[1_999, 1_999, 1_999, 1_617, 1_999, 1_999, 1_999], 5_213_013),
        (1, 394, &[2_000, 2_000, 2_000, 2_000, 2_000, 2_000, 1_231], 5_213_014),
    ];
    for (meter, reflectance, lamps, room) in rooms {
        let last = if meter == 0 { 39_934_040 - room } else { 39_934_040 };
        for (first, mark) in [(4 * room - 1, 1), (4 * room, 0), (4 * room + 1, 0)] {
            let record = job(meter, reflectance, lamps, &[(0, first), (255, last)]);
            examples.push(example(&format!("4 × {room}"), record, &[Number(0), RoomHigh(mark), Jhi(102_300)]));
        }
    }
    let bright = |first| job(1, 1_000, &[2_000; 8], &[(0, first), (255, 39_934_040)]);
    examples.push(example("brightest room", bright(20_852_060), &[Number(0), RoomHigh(1), Jlo(92_300)]));
    examples.push(example("brightest room, N = 9,999", bright(20_852_061), &[Number(10)]));
    examples
}

/// A sound job without a check and with one, and each with many zero bytes after it.
fn bytes_after() -> Vec<Example> {
    let mut examples = vec![];
    for check in [vec![], vec![10_000; 18]] {
        let record = Record { check, ..job(0, 60, &[40], &[(0, 10_000), (255, 2_560_000)]) };
        for bytes in [20_000, 65_536, 1_048_576] {
            examples.push((format!("{bytes} bytes more"), [record.bytes(), vec![0; bytes]].concat(), ENTRIES, vec![Number(4)]));
        }
        examples.push(example("no byte more", record, &[Number(0), Jlo(8_072)]));
    }
    examples
}

/// Each fact of engine and reference, and the engine's whole answer against the reference's.
fn compare(reference: &Engine, name: &'static str, examples: Vec<Example>, expected: u64) -> bool {
    let mut random = Random::new(3);
    let mut all = Comparison::new(name);
    for (name, bytes, entries, facts) in examples {
        let lent = Lent::new(&mut random, &bytes, entries);
        let mut answers = [Answer::of_engine(&lent), Answer::of_reference(reference, &lent)];
        all.facts(&name, &mut answers, &facts, Fact::holds);
        all.count(answers[0].difference(&answers[1]).map(|difference| format!("{name}, {difference}")));
    }
    all.ended(expected)
}

/// The records of all examples.
pub fn records() -> Vec<Vec<u8>> {
    let panels = [marked_examples(), ends_of_table(), large_sums(), least_range(), room_marks(), large_room_marks()];
    let groups = [refusal_table(), bytes_after()].into_iter().chain(panels);
    groups.flatten().map(|(_, bytes, _, _)| bytes).collect()
}

pub fn results(reference: &Engine) -> Vec<bool> {
    vec![
        compare(reference, "nearest: refusal table", refusal_table(), 2 * 16 + 14),
        compare(reference, "nearest: bytes after the record", bytes_after(), 2 * 10 + 8),
        compare(reference, "nearest: marked examples", marked_examples(), 2 * 26 + 11),
        compare(reference, "nearest: ends of the table", ends_of_table(), 2 * 50 + 35),
        compare(reference, "nearest: large sums", large_sums(), 2 * 7 + 5),
        compare(reference, "nearest: least range", least_range(), 2 * 5 + 3),
        compare(reference, "nearest: room marks", room_marks(), 2 * 29 + 13),
        compare(reference, "nearest: room marks, large", large_room_marks(), 2 * 58 + 20),
    ]
}
