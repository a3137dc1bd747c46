//! An input that is stored with the program's output.
use reference::record::Record;

/// What document 01 says of an output beforehand.
enum Stated {
    /// All of it.
    Refusal(u32),
    /// Some of its lines.
    Lines(Vec<String>),
}

pub struct Vector {
    pub name: String,
    /// What it is, for the list.
    pub about: String,
    pub bytes: Vec<u8>,
    stated: Stated,
}

impl Vector {
    /// A job with a report that has these lines.
    pub fn sound(name: &str, about: &str, record: &Record, lines: &[&str]) -> Vector {
        let stated = Stated::Lines(lines.iter().map(|line| line.to_string()).collect());
        Vector { name: format!("sound-{name}"), about: about.to_string(), bytes: record.bytes(), stated }
    }

    /// Bytes that are refused under this number.
    pub fn refused(number: u32, name: &str, about: &str, bytes: Vec<u8>) -> Vector {
        Vector { name: format!("refused-{number:02}-{name}"), about: about.to_string(), bytes, stated: Stated::Refusal(number) }
    }

    /// What is wrong with a report that should be this one's.
    pub fn fault(&self, report: &[u8]) -> Option<String> {
        let report = String::from_utf8_lossy(report);
        match &self.stated {
            Stated::Refusal(number) => (report != format!("refused {number}\n")).then(|| format!("it should be refused under {number}")),
            Stated::Lines(lines) => {
                let missing = lines.iter().find(|line| !report.split('\n').any(|other| other == *line));
                missing.map(|line| format!("the report should have the line '{line}'"))
            }
        }
    }
}
