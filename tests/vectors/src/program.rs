//! Runs the program on an input that arrives in one way or another.
use std::fs::File;
use std::io::{Read, Write};
use std::process::{exit, Child, Command, Stdio};
use std::thread;
use std::time::{Duration, Instant};

/// A run that takes longer has not ended.
const LIMIT: Duration = Duration::from_secs(30);

/// How standard input arrives.
pub enum Input {
    /// From where the file stands.
    File(File),
    /// Through a pipe, piece by piece, with a pause before each. It is closed after the last, or left open until the program ends.
    Pipe {
        pieces: Vec<Vec<u8>>,
        pause: Duration,
        left_open: bool,
    },
    Null,
    /// There is none.
    Closed,
}

impl Input {
    pub fn piped(bytes: &[u8]) -> Input {
        Input::Pipe { pieces: vec![bytes.to_vec()], pause: Duration::ZERO, left_open: false }
    }
}

/// What a run gave; the status of one that did not end by itself is none.
pub struct Run {
    status: Option<i32>,
    stdout: Vec<u8>,
    stderr: Vec<u8>,
}

/// A program, with the words before its own that start it.
pub struct Program {
    words: Vec<String>,
}

impl Program {
    pub fn new(words: &[&str]) -> Program {
        Program { words: words.iter().map(|word| word.to_string()).collect() }
    }

    fn command(&self, input: &Input) -> Command {
        let mut words = self.words.clone();
        if let Input::Closed = input {
            words.splice(0..0, ["sh", "-c", "exec \"$0\" \"$@\" <&-"].map(String::from));
        }
        let mut command = Command::new(&words[0]);
        command.args(&words[1..]).stdout(Stdio::piped()).stderr(Stdio::piped());
        command
    }

    pub fn run(&self, input: Input) -> Run {
        let mut command = self.command(&input);
        match &input {
            Input::File(file) => command.stdin(file.try_clone().expect("a file can be handed on")),
            Input::Pipe { .. } => command.stdin(Stdio::piped()),
            Input::Null | Input::Closed => command.stdin(Stdio::null()),
        };
        let mut child = command.spawn().unwrap_or_else(|error| {
            eprintln!("{}: {error}", self.words.join(" "));
            exit(2)
        });
        if let Input::Pipe { pieces, pause, left_open } = input {
            feed(&mut child, pieces, pause, left_open);
        }
        let stdout = collect(child.stdout.take().expect("it is piped"));
        let stderr = collect(child.stderr.take().expect("it is piped"));
        let status = ended(&mut child);
        let collected = |reader: thread::JoinHandle<Vec<u8>>| reader.join().expect("output can be read");
        Run { status, stdout: collected(stdout), stderr: collected(stderr) }
    }
}

/// Writes the pieces while the program runs. It may end without reading all of them.
fn feed(child: &mut Child, pieces: Vec<Vec<u8>>, pause: Duration, left_open: bool) {
    let mut stdin = child.stdin.take().expect("it is piped");
    thread::spawn(move || {
        for piece in pieces {
            thread::sleep(pause);
            if stdin.write_all(&piece).is_err() {
                return;
            }
        }
        if left_open {
            thread::sleep(2 * LIMIT);
        }
    });
}

fn collect(mut stream: impl Read + Send + 'static) -> thread::JoinHandle<Vec<u8>> {
    thread::spawn(move || {
        let mut bytes = vec![];
        stream.read_to_end(&mut bytes).expect("output can be read");
        bytes
    })
}

/// The exit status of a program that ends in time.
fn ended(child: &mut Child) -> Option<i32> {
    let start = Instant::now();
    while start.elapsed() < LIMIT {
        if let Some(status) = child.try_wait().expect("a program can be waited for") {
            return status.code();
        }
        thread::sleep(Duration::from_micros(200));
    }
    child.kill().and_then(|()| child.wait()).expect("a program can be ended");
    None
}

impl Run {
    /// What is wrong where this is the whole output expected.
    pub fn fault(&self, expected: &[u8]) -> Option<String> {
        if self.status != Some(0) {
            return Some(
                self.status.map_or(format!("it did not end within {LIMIT:?}, or by itself"), |status| format!("exit status {status}")),
            );
        }
        if !self.stderr.is_empty() {
            return Some(format!("standard error has {:?}", String::from_utf8_lossy(&self.stderr)));
        }
        line_difference(&self.stdout, expected)
    }
}

/// The first line in which two outputs differ, with its end.
fn line_difference(got: &[u8], expected: &[u8]) -> Option<String> {
    if got == expected {
        return None;
    }
    let lines = |bytes: &[u8]| -> Vec<String> {
        bytes.split_inclusive(|&byte| byte == b'\n').map(|line| line.escape_ascii().to_string()).collect()
    };
    let (got, expected) = (lines(got), lines(expected));
    let line = (0..).find(|&line| got.get(line) != expected.get(line)).expect("they differ somewhere");
    let shown = |lines: &[String]| lines.get(line).map_or("nothing".to_string(), |line| format!("\"{line}\""));
    Some(format!("line {} is {}, and should be {}", line + 1, shown(&got), shown(&expected)))
}
