//! The quantities of a job: how each is written and which values it can have.

/// How a value is written in a text.
pub enum Form {
    /// As a whole number.
    Whole,
    /// With up to four decimals; the unit is 0.0001.
    Decimal,
    /// As a word for each number.
    Word(&'static [(&'static str, u32)]),
}

const DECIMALS: usize = 4;

pub struct Quantity {
    /// With its article.
    pub name: &'static str,
    pub unit: &'static str,
    pub form: Form,
    pub least: u32,
    pub most: u32,
    /// The largest number that its field of the record holds.
    pub field: u32,
}

const WORD: u32 = u16::MAX as u32;

/// The five settings in the order of the record, each with the word that its line begins with.
pub const SETTINGS: [(&str, Quantity); 5] = [
    ("depth", Quantity { name: "a depth", unit: "bits", form: Form::Whole, least: 8, most: 10, field: WORD }),
    ("meter", named("a meter", &[("contact", 0), ("telescopic", 1)])),
    ("class", named("a class", &[("primary", 1), ("secondary", 2)])),
    ("reflectance", Quantity { name: "a reflectance", unit: "per steradian", form: Form::Decimal, least: 0, most: 1_000, field: WORD }),
    (
        "allowed-error",
        Quantity { name: "an allowed error", unit: "parts per thousand", form: Form::Whole, least: 0, most: 1_000, field: WORD },
    ),
];
pub const LAMP: Quantity = Quantity { name: "a lamp", unit: "lux", form: Form::Whole, least: 0, most: 2_000, field: WORD };
/// No depth has a level above 1023; which is the last of a depth is judged with the sweep.
pub const LEVEL: Quantity = Quantity { name: "a level", unit: "", form: Form::Whole, least: 0, most: 1_023, field: WORD };
pub const LUMINANCE: Quantity =
    Quantity { name: "a luminance", unit: "cd/m²", form: Form::Decimal, least: 0, most: u32::MAX, field: u32::MAX };
/// The P-value of a patch, which has no field: the patches of a record stand in order.
pub const P_VALUE: Quantity = Quantity { name: "a P-value", unit: "", form: Form::Whole, least: 0, most: 255, field: u32::MAX };

/// A quantity of two words.
const fn named(name: &'static str, words: &'static [(&'static str, u32); 2]) -> Quantity {
    Quantity { name, unit: "", form: Form::Word(words), least: words[0].1, most: words[1].1, field: WORD }
}

impl Quantity {
    pub fn permits(&self, value: u32) -> bool {
        (self.least..=self.most).contains(&value)
    }

    /// A value as a text has it.
    pub fn shown(&self, value: u32) -> String {
        match &self.form {
            Form::Whole => value.to_string(),
            Form::Decimal => format!("{}.{:04}", value / 10_000, value % 10_000),
            Form::Word(words) => words.iter().find(|word| word.1 == value).map_or(value.to_string(), |word| word.0.to_string()),
        }
    }

    /// The values that it can have, and that this is none of them.
    fn ruled(&self, written: &str) -> String {
        match self.form {
            Form::Word(words) => format!("{} is {} or {}, not '{written}'", self.name, words[0].0, words[1].0),
            _ => {
                let range = format!("{} has {} to {} {}", self.name, self.shown(self.least), self.shown(self.most), self.unit);
                format!("{}, not {written}", range.trim_end())
            }
        }
    }

    /// What is wrong with a value that is not permitted.
    pub fn fault(&self, value: u32) -> String {
        self.ruled(&self.shown(value))
    }

    /// The value of a word: a permitted one, or any that fits its field.
    pub fn read(&self, word: &str, any: bool) -> Result<u32, String> {
        let decimals = match &self.form {
            Form::Whole => 0,
            Form::Decimal => DECIMALS,
            Form::Word(words) => match words.iter().find(|named| named.0 == word) {
                Some(named) => return Ok(named.1),
                None if any => 0,
                None => return Err(self.ruled(word)),
            },
        };
        let value = self.number(word, decimals)?;
        match u32::try_from(value) {
            Ok(value) if if any { value <= self.field } else { self.permits(value) } => Ok(value),
            _ if any => Err(format!("{word} does not fit its field, which holds at most {}", self.shown(self.field))),
            _ => Err(self.ruled(word)),
        }
    }

    /// The number of a word with up to so many decimals, in units of its last one. The largest number stands for all above it.
    fn number(&self, word: &str, decimals: usize) -> Result<u64, String> {
        let (whole, part) = match word.split_once('.') {
            Some((whole, part)) => (whole, Some(part)),
            None => (word, None),
        };
        let is_number = |digits: &str| !digits.is_empty() && digits.bytes().all(|digit| digit.is_ascii_digit());
        if !is_number(whole) || !part.map_or(true, is_number) {
            return Err(self.not_a_number(word, decimals));
        }
        let part = part.unwrap_or("");
        if decimals == 0 && word.contains('.') {
            return Err(format!("{} is a whole number, not {word}", self.name));
        }
        if decimals < part.len() {
            return Err(format!("{word} has {} decimals, and {} has at most {decimals}", part.len(), self.name));
        }
        Ok(format!("{whole}{part:0<decimals$}").parse().unwrap_or(u64::MAX))
    }

    /// What is wrong with a word that is no number, by what is common.
    fn not_a_number(&self, word: &str, decimals: usize) -> String {
        let digits = |part: &str| part.bytes().any(|byte| byte.is_ascii_digit());
        if !digits(word) {
            format!("'{word}' is not a number")
        } else if word.starts_with('-') {
            format!("{} is never negative, as {word} is", self.name)
        } else if word.contains(',') && decimals == 0 {
            format!("'{word}' has a comma: {} is written in digits alone", self.name)
        } else if word.contains(',') {
            format!("'{word}' has a comma: write the decimal point, as in 0.5012")
        } else if word.starts_with(|first: char| first.is_ascii_digit())
            && word.contains(|other: char| !other.is_ascii_digit() && other != '.')
        {
            format!("'{word}' is not a number: write digits alone, without a unit")
        } else if word.starts_with('.') || word.ends_with('.') {
            format!("'{word}' has no digit on one side of its point")
        } else {
            format!("'{word}' is not a number")
        }
    }
}
