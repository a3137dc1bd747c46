//! s / p of a pair whose contrast is given, and whole numbers p and s that have this quotient or nearly.
//!
//! With u = h − c, e × X − m × Y is s × (e × (h + c) − m × u) − p × (e × (h + c) + m × u). So X / Y is m / e where s / p is the quotient of the two factors.
use crate::random::Random;

/// The least and the most.
pub type Interval = (u64, u64);

pub fn both(one: Interval, other: Interval) -> Interval {
    (one.0.max(other.0), one.1.min(other.1))
}

pub fn any(random: &mut Random, (least, most): Interval) -> Option<u64> {
    (least <= most).then(|| random.between(least, most))
}

fn divided_up(number: u64, by: u64) -> u64 {
    (number + by - 1) / by
}

/// The common divisor of two numbers, and what the first is multiplied by to be it modulo the second.
fn euclid(number: u64, modulus: u64) -> (u64, u64) {
    let (mut rest, mut next_rest) = (modulus as i64, (number % modulus) as i64);
    let (mut times, mut next_times) = (0, 1);
    while next_rest != 0 {
        let quotient = rest / next_rest;
        (rest, next_rest) = (next_rest, rest % next_rest);
        (times, next_times) = (next_times, times - quotient * next_times);
    }
    (rest as u64, times.rem_euclid(modulus as i64) as u64)
}

/// A quotient s / p; there is none where it is divided by 0.
#[derive(Clone, Copy, Debug)]
pub struct Factor {
    times: u64,
    by: u64,
}

impl Factor {
    /// Where c to h is expected, and X / Y is m / e.
    pub fn new(c: u64, h: u64, m: i64, e: i64) -> Factor {
        let sum = e * (h + c) as i64;
        let rise = m * (h - c) as i64;
        assert!(0 < sum + rise);
        Factor { times: (sum + rise) as u64, by: (sum - rise).max(0) as u64 }
    }

    /// The same quotient of the least numbers.
    pub fn reduced(self) -> Factor {
        let (divisor, _) = euclid(self.by, self.times);
        Factor { times: self.times / divisor, by: self.by / divisor }
    }

    pub fn exists(&self) -> bool {
        self.by != 0
    }

    /// The most s of this p, and the most p of this s.
    pub fn most_after(&self, p: u64) -> u64 {
        (self.times * p).checked_div(self.by).unwrap_or(u64::MAX)
    }

    pub fn most_before(&self, s: u64) -> u64 {
        self.by * s / self.times
    }

    /// The least of both.
    pub fn least_after(&self, p: u64) -> u64 {
        divided_up(self.times * p, self.by)
    }

    pub fn least_before(&self, s: u64) -> u64 {
        divided_up(self.by * s, self.times)
    }

    /// All p and s in these intervals for which by × s − times × p is this rest: −1, 0 or 1.
    pub fn solutions(&self, rest: i64, before: Interval, after: Interval) -> Option<Solutions> {
        if !self.exists() {
            return None;
        }
        let (divisor, inverse) = euclid(self.by, self.times);
        if rest != 0 && divisor != 1 {
            return None;
        }
        // Modulo 1 the inverse is 0, and 1 is one too.
        let s = inverse.max(1);
        let p = ((u128::from(self.by) * u128::from(s) - 1) / u128::from(self.times)) as u64;
        let first = match rest {
            0 => (0, 0),
            1 => (p, s),
            _ => (self.by - p, self.times - s),
        };
        let apart = (self.by / divisor, self.times / divisor);
        let places = both(places(first.0, apart.0, before)?, places(first.1, apart.1, after)?);
        (places.0 <= places.1).then_some(Solutions { first, apart, places })
    }
}

/// Which of the numbers from `first` on, so far apart, are in the interval.
fn places(first: u64, apart: u64, (least, most): Interval) -> Option<Interval> {
    Some((divided_up(least.saturating_sub(first), apart), most.checked_sub(first)? / apart))
}

/// p and s at even distances.
pub struct Solutions {
    first: (u64, u64),
    apart: (u64, u64),
    places: Interval,
}

impl Solutions {
    fn at(&self, place: u64) -> (u64, u64) {
        (self.first.0 + place * self.apart.0, self.first.1 + place * self.apart.1)
    }

    pub fn any(&self, random: &mut Random) -> (u64, u64) {
        self.at(random.between(self.places.0, self.places.1))
    }

    pub fn last(&self) -> (u64, u64) {
        self.at(self.places.1)
    }
}
