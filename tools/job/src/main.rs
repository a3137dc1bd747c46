//! Makes the record of a job's text, or the text of a record.
use std::io::{Read, Write};
use std::process::exit;

use job::{record, text};

const USAGE: &str = "usage: job record [--any] [TEXT [RECORD]]    the record of a text
       job text [--any] [RECORD [TEXT]]      the text of a record

Without a file, standard input or output is used. A text that is wrong and a record that the
engine refuses under 2 to 7 give what is wrong on standard error, and no output.
--any takes every text whose numbers fit their fields, and every record that can be read.
Exit status: 0 made, 1 something is wrong with the text or the record, 2 bad usage or files.";

/// How many faults of a text are shown.
const SHOWN: usize = 20;

/// The record of a text, or what is wrong.
fn record_of(bytes: &[u8], any: bool) -> Result<Vec<u8>, String> {
    text::read(bytes, any).map(|job| record::written(&job)).map_err(|faults| {
        let mut lines: Vec<String> = faults.iter().take(SHOWN).map(ToString::to_string).collect();
        if SHOWN < faults.len() {
            lines.push(format!("and {} more", faults.len() - SHOWN));
        }
        lines.join("\n")
    })
}

/// What is wrong with a record, which may be a text.
fn refusal(refused: &record::Refused, bytes: &[u8]) -> String {
    let is_text = bytes.contains(&b'\n') && !bytes.contains(&0);
    let remark = if is_text { "\nIt looks like a text; 'job record' makes the record of a text." } else { "" };
    format!("{refused}{remark}")
}

/// The text of a record, or what is wrong; with `any`, what the engine refuses stands in its first line.
fn text_of(bytes: &[u8], any: bool) -> Result<Vec<u8>, String> {
    let refused = record::read(bytes).err();
    let job = match &refused {
        Some(refused) if !any => return Err(refusal(refused, bytes)),
        _ => record::read_any(bytes).map_err(|refused| refusal(&refused, bytes))?,
    };
    let remark = refused.map_or(String::new(), |refused| format!("# {refused}\n\n"));
    Ok((remark + &text::written(&job)).into_bytes())
}

/// A failure of files, with the name of the one.
fn failed(name: Option<&String>, error: std::io::Error) -> ! {
    eprintln!("{}: {error}", name.map_or("job", |name| name));
    exit(2)
}

fn input(name: Option<&String>) -> Vec<u8> {
    let mut bytes = vec![];
    let read = match name {
        Some(name) => std::fs::read(name).map(|all| bytes = all),
        None => std::io::stdin().read_to_end(&mut bytes).map(drop),
    };
    read.unwrap_or_else(|error| failed(name, error));
    bytes
}

fn output(name: Option<&String>, bytes: &[u8]) {
    let written = match name {
        Some(name) => std::fs::write(name, bytes),
        None => std::io::stdout().write_all(bytes).and_then(|()| std::io::stdout().flush()),
    };
    written.unwrap_or_else(|error| failed(name, error));
}

fn main() {
    let mut words: Vec<String> = std::env::args().skip(1).collect();
    let any = words.iter().any(|word| word == "--any");
    words.retain(|word| word != "--any");
    let make = match words.first().map(String::as_str) {
        Some("record") => record_of,
        Some("text") => text_of,
        Some("--help") => return println!("{USAGE}"),
        _ => usage(),
    };
    if 3 < words.len() || words.iter().any(|word| word.starts_with('-')) {
        usage();
    }
    match make(&input(words.get(1)), any) {
        Ok(bytes) => output(words.get(2), &bytes),
        Err(what) => {
            eprintln!("{what}");
            exit(1);
        }
    }
}

fn usage() -> ! {
    eprintln!("{USAGE}");
    exit(2)
}
