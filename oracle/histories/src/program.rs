//! Runs the history program, one process to a history: it starts with empty stores.

use std::{
    io::{self, Read, Write},
    path::PathBuf,
    process::{Command, Stdio},
    thread,
};

#[derive(Clone)]
pub struct Program {
    path: PathBuf,
}

/// What a run printed, and what was wrong with its end.
pub struct Printed {
    pub lines: Vec<String>,
    pub fault: Option<String>,
}

impl Program {
    /// A path without a folder is one here, not a command.
    pub fn new(path: &str) -> io::Result<Self> {
        Ok(Self { path: PathBuf::from(path).canonicalize()? })
    }

    /// Its lines, and one more where it did not end well.
    pub fn lines(&self, input: &[u8]) -> Vec<String> {
        let printed = self.print(input);
        printed.lines.into_iter().chain(printed.fault).collect()
    }

    pub fn print(&self, input: &[u8]) -> Printed {
        let (text, fault) = match self.run(input) {
            Ok(ended) => ended,
            Err(error) => (String::new(), Some(error.to_string())),
        };
        let mut lines: Vec<String> = text.split('\n').map(String::from).collect();
        let rest = lines.pop().unwrap_or_default();
        let unended = (!rest.is_empty()).then(|| format!("{rest} (no end of line)"));
        Printed { lines, fault: unended.or(fault) }
    }

    fn run(&self, input: &[u8]) -> io::Result<(String, Option<String>)> {
        let mut child =
            Command::new(&self.path).stdin(Stdio::piped()).stdout(Stdio::piped()).spawn()?;
        let mut stdin = child.stdin.take().expect("piped");
        let mut stdout = child.stdout.take().expect("piped");
        let mut bytes = Vec::new();
        thread::scope(|scope| {
            // A program that stops early leaves the rest unread.
            scope.spawn(move || stdin.write_all(input).unwrap_or_default());
            stdout.read_to_end(&mut bytes)
        })?;
        let status = child.wait()?;
        let end = (!status.success()).then(|| format!("ended with {status}"));
        Ok((String::from_utf8_lossy(&bytes).into_owned(), end))
    }
}
