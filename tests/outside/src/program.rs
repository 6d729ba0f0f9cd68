//! The program that is held to the rules: the built desk, run on a text.

use std::io::{ErrorKind, Write};
use std::process::{Child, Command, Stdio};

/// A program that reads a text on standard input and prints its answer.
#[derive(Clone, Debug)]
pub struct Program {
    /// Its file.
    pub file: String,
    /// The words behind it.
    pub words: Vec<String>,
}

impl Program {
    /// Starts it, with pipes to and from it.
    pub fn start(&self) -> Result<Child, String> {
        Command::new(&self.file)
            .args(&self.words)
            .stdin(Stdio::piped())
            .stdout(Stdio::piped())
            .stderr(Stdio::piped())
            .spawn()
            .map_err(|error| format!("{}: {error}", self.file))
    }

    /// What it prints for the text. Err says what else it did: an exit status other than 0, or a word on standard error.
    pub fn output(&self, text: &[u8]) -> Result<Vec<u8>, String> {
        let told = |error: std::io::Error| format!("{}: {}", self.file, error);
        let mut child = self.start()?;
        if let Some(mut input) = child.stdin.take() {
            // The program need not read more than its limit of a long text.
            match input.write_all(text) {
                Err(error) if error.kind() != ErrorKind::BrokenPipe => return Err(told(error)),
                _ => (),
            }
        }
        let done = child.wait_with_output().map_err(told)?;
        if !done.status.success() || !done.stderr.is_empty() {
            let said = String::from_utf8_lossy(&done.stderr);
            return Err(format!("{}, standard error: {said:?}", done.status));
        }
        Ok(done.stdout)
    }
}
