//! The text of a job: a line for each thing, its name first. `#` begins a comment, and lines without words are skipped.
use std::fmt;

use crate::job::{Item, Job, Reading};
use crate::quantity::{Quantity, LAMP, LEVEL, LUMINANCE, P_VALUE, SETTINGS};
use crate::record::Section;

/// What lines look like, by their first word.
const EXAMPLES: [(&str, &str); 8] = [
    ("depth", "depth 10"),
    ("meter", "meter contact"),
    ("class", "class primary"),
    ("reflectance", "reflectance 0.0060"),
    ("allowed-error", "allowed-error 50"),
    ("lamp", "lamp 25"),
    ("level", "level 0 0.5012"),
    ("patch", "patch 15 1.2400"),
];

/// The P-values of two neighbouring patches differ by so much.
const PATCH_STEP: usize = 15;
const LAST_PATCH: usize = 255;

/// What is wrong with a line, or with the text as a whole.
#[derive(Clone, Debug, PartialEq)]
pub struct Fault {
    pub line: Option<usize>,
    pub what: String,
}

impl fmt::Display for Fault {
    fn fmt(&self, f: &mut fmt::Formatter) -> fmt::Result {
        match self.line {
            Some(line) => write!(f, "line {line}: {}", self.what),
            None => write!(f, "{}", self.what),
        }
    }
}

/// The lines that were read, with their numbers.
#[derive(Default)]
struct Lines {
    settings: [Option<(usize, u16)>; 5],
    lamps: Vec<(usize, u16)>,
    sweep: Vec<(usize, Reading)>,
    /// With the P-value.
    check: Vec<(usize, usize, u32)>,
}

fn example(word: &str) -> &'static str {
    EXAMPLES.iter().find(|example| example.0 == word).expect("each word has one").1
}

/// What stands after the first word, as many words as there should be.
fn values<'a, const N: usize>(words: &[&'a str]) -> Result<[&'a str; N], String> {
    let values = &words[1..];
    match values.get(N) {
        Some(extra) => {
            let extra = values.iter().find(|word| ["=", ":"].contains(*word)).unwrap_or(extra);
            Err(format!("'{extra}' is too much: write the line as in '{}'", example(words[0])))
        }
        None => values.try_into().map_err(|_| format!("a value is missing: write the line as in '{}'", example(words[0]))),
    }
}

/// A value whose field has 16 bits.
fn short(quantity: &Quantity, word: &str, any: bool) -> Result<u16, String> {
    Ok(quantity.read(word, any)?.try_into().expect("it fits its field"))
}

/// What is wrong with a first word that no line has.
fn unknown(word: &str) -> String {
    let plain = word.trim_end_matches(|end| end == ':' || end == '=').to_lowercase().replace('_', "-");
    match EXAMPLES.iter().find(|example| example.0 == plain) {
        Some(example) => format!("'{word}' is not known: write the line as in '{}'", example.1),
        None => {
            let names: Vec<&str> = EXAMPLES.iter().map(|example| example.0).collect();
            format!("'{word}' is not known: a line begins with {} or {}", names[..7].join(", "), names[7])
        }
    }
}

impl Lines {
    fn take(&mut self, line: usize, words: &[&str], any: bool) -> Result<(), String> {
        match words[0] {
            "lamp" => {
                let [lux] = values(words)?;
                self.lamps.push((line, short(&LAMP, lux, any)?));
            }
            "level" => {
                let [level, luminance] = values(words)?;
                self.sweep.push((line, Reading { level: short(&LEVEL, level, any)?, luminance: LUMINANCE.read(luminance, any)? }));
            }
            "patch" => {
                let [p_value, luminance] = values(words)?;
                self.check.push((line, P_VALUE.read(p_value, any)? as usize, LUMINANCE.read(luminance, any)?));
            }
            word => {
                let place = SETTINGS.iter().position(|setting| setting.0 == word).ok_or_else(|| unknown(word))?;
                self.take_setting(line, place, words, any)?;
            }
        }
        Ok(())
    }

    fn take_setting(&mut self, line: usize, place: usize, words: &[&str], any: bool) -> Result<(), String> {
        if let Some((before, _)) = self.settings[place] {
            return Err(format!("{} stands in line {before} already", words[0]));
        }
        let [value] = values(words)?;
        self.settings[place] = Some((line, short(&SETTINGS[place].1, value, any)?));
        Ok(())
    }

    fn job(&self) -> Job {
        Job {
            settings: self.settings.map(|setting| setting.map_or(0, |(_, value)| value)),
            lamps: self.lamps.iter().map(|lamp| lamp.1).collect(),
            sweep: self.sweep.iter().map(|reading| reading.1).collect(),
            check: self.check.iter().map(|patch| patch.2).collect(),
        }
    }

    fn line_of(&self, item: Item) -> Option<usize> {
        match item {
            Item::Setting(place) => self.settings[place].map(|setting| setting.0),
            Item::Lamp(place) => Some(self.lamps[place].0),
            Item::Reading(place) => Some(self.sweep[place].0),
        }
    }

    /// Settings that no line has.
    fn missing(&self) -> impl Iterator<Item = Fault> + '_ {
        let missing = self.settings.iter().zip(&SETTINGS).filter(|(setting, _)| setting.is_none());
        missing.map(|(_, (word, _))| Fault { line: None, what: format!("a line is missing: {word}, as '{}'", example(word)) })
    }

    /// Sections with a number of items that they cannot have, or that no count can say.
    fn counts(&self, any: bool) -> impl Iterator<Item = Fault> {
        let counts = [
            (Section::Lamps, self.lamps.len(), "lamp"),
            (Section::Sweep, self.sweep.len(), "level"),
            (Section::Check, self.check.len(), "patch"),
        ];
        let permitted = move |section: Section, count| if any { count <= usize::from(u16::MAX) } else { section.permits(count) };
        counts.into_iter().filter(move |&(section, count, _)| !permitted(section, count)).map(|(section, count, word)| {
            let lines = if count == 1 { "line begins" } else { "lines begin" };
            Fault { line: None, what: format!("{count} {lines} with '{word}': {}", section.rule()) }
        })
    }

    /// Patches in another order than that of their P-values, or with one left out. Of those that are too many their number is said, or with `any` nothing.
    fn patches(&self, any: bool) -> impl Iterator<Item = Fault> + '_ {
        let last = if any { usize::MAX } else { LAST_PATCH };
        let expected = (0..=last).step_by(PATCH_STEP);
        self.check.iter().zip(expected).filter(|(patch, expected)| patch.1 != *expected).take(1).map(|(patch, expected)| {
            let what = format!("patch {} stands where patch {expected} belongs: the patches are 0, 15, 30 and so on to 255", patch.1);
            Fault { line: Some(patch.0), what }
        })
    }

    /// What is wrong with the lines together, where each is right by itself.
    fn faults(&self, any: bool) -> Vec<Fault> {
        let mut faults: Vec<Fault> = self.missing().chain(self.counts(any)).chain(self.patches(any)).collect();
        if !any && self.settings[0].is_some() && !self.sweep.is_empty() {
            faults.extend(self.job().sweep_faults().map(|fault| Fault { line: self.line_of(fault.item), what: fault.what }));
        }
        faults.sort_by_key(|fault| fault.line);
        faults
    }
}

/// The text of bytes that are not another form of it or a record.
fn decoded(bytes: &[u8]) -> Result<String, Fault> {
    let fault = |what: &str| Err(Fault { line: None, what: what.to_string() });
    if bytes.starts_with(&[0xff, 0xfe]) || bytes.starts_with(&[0xfe, 0xff]) {
        return fault("the text is in UTF-16: save it as UTF-8");
    }
    if bytes.contains(&0) {
        return fault("this is not a text; 'job text' makes the text of a record");
    }
    Ok(String::from_utf8_lossy(bytes).trim_start_matches('\u{feff}').to_string())
}

/// The job of a text, or all that is wrong with it; with `any`, a job that the engine may refuse, as long as its numbers fit their fields.
pub fn read(bytes: &[u8], any: bool) -> Result<Job, Vec<Fault>> {
    let text = decoded(bytes).map_err(|fault| vec![fault])?;
    let mut lines = Lines::default();
    let mut faults = vec![];
    for (line, content) in (1..).zip(text.split('\n')) {
        let words: Vec<&str> = content.split('#').next().unwrap_or("").split_whitespace().collect();
        if !words.is_empty() {
            faults.extend(lines.take(line, &words, any).err().map(|what| Fault { line: Some(line), what }));
        }
    }
    if faults.is_empty() {
        faults = lines.faults(any);
    }
    if faults.is_empty() {
        Ok(lines.job())
    } else {
        Err(faults)
    }
}

/// The text of a job.
pub fn written(job: &Job) -> String {
    let mut lines = vec!["# settings: bits, meter, class, per steradian, parts per thousand".to_string()];
    let settings = job.settings.iter().zip(&SETTINGS);
    lines.extend(settings.map(|(&value, (word, quantity))| format!("{word} {}", quantity.shown(value.into()))));
    lines.extend(["", "# lamps: lux"].map(String::from));
    lines.extend(job.lamps.iter().map(|lux| format!("lamp {lux}")));
    lines.extend(["", "# sweep: drive level, cd/m²"].map(String::from));
    lines.extend(job.sweep.iter().map(|reading| format!("level {} {}", reading.level, LUMINANCE.shown(reading.luminance))));
    lines.extend(["", "# check: P-value, cd/m²"].map(String::from));
    let patches = (0..).step_by(PATCH_STEP).zip(&job.check);
    lines.extend(patches.map(|(p_value, &luminance): (usize, _)| format!("patch {p_value} {}", LUMINANCE.shown(luminance))));
    lines.join("\n") + "\n"
}
