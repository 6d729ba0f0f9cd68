//! The program that makes the calls (tests/client/bridge.c): what goes to it and what comes back.

use super::call::{Call, Outcome};
use crate::program::Program;
use std::io::{self, Read, Write};
use std::process::{Child, ChildStdin, ChildStdout, Output};

const WORD_BYTES: usize = 4;

/// It has room for so many words in each buffer.
pub const MOST_WORDS: usize = 131_072;

/// The program while it runs.
pub struct Bridge {
    child: Child,
    input: ChildStdin,
    output: ChildStdout,
}

impl Bridge {
    /// Starts the program; Err says why it can't be.
    pub fn start(program: &Program) -> Result<Bridge, String> {
        let mut child = program.start()?;
        match (child.stdin.take(), child.stdout.take()) {
            (Some(input), Some(output)) => Ok(Bridge { child, input, output }),
            _ => Err(format!("{}: no way to talk to it", program.file)),
        }
    }

    /// Makes one call and gives back what came of it. After an error the program is good for nothing but `ended`.
    pub fn call(&mut self, call: &Call) -> io::Result<Outcome> {
        let request: Vec<u8> = call.request().into_iter().flat_map(u32::to_ne_bytes).collect();
        self.input.write_all(&request)?;
        let mut reply = vec![0; WORD_BYTES * (1 + call.table.len() + call.answers.len())];
        self.output.read_exact(&mut reply)?;
        let mut words =
            reply.chunks_exact(WORD_BYTES).map(|word| u32::from_ne_bytes([word[0], word[1], word[2], word[3]]));
        let code = words.next().unwrap_or(u32::MAX);
        let table = words.by_ref().take(call.table.len()).collect();
        Ok(Outcome { code, table, answers: words.collect() })
    }

    /// Ends the program behind its last call. Err says what else it had to say, or that it did not end with status 0.
    pub fn finish(mut self) -> Result<(), String> {
        drop(self.input);
        let mut left = Vec::new();
        let read = self.output.read_to_end(&mut left);
        let done = self.child.wait_with_output();
        if let (Ok(_), Ok(done)) = (&read, &done) {
            if left.is_empty() && done.status.success() && done.stderr.is_empty() {
                return Ok(());
            }
        }
        Err(format!("behind the last call: {} bytes too many; {}", left.len(), how_it_ended(done)))
    }

    /// What became of a program with which a call failed.
    pub fn ended(mut self, error: &io::Error) -> String {
        // One that has ended already keeps its own status.
        let _ = self.child.kill();
        format!("the bridge makes no reply ({error}); {}", how_it_ended(self.child.wait_with_output()))
    }

    /// Stops a program of which nothing more is wanted.
    pub fn stop(mut self) {
        let _ = self.child.kill();
        let _ = self.child.wait();
    }
}

fn how_it_ended(done: io::Result<Output>) -> String {
    match done {
        Ok(done) => format!("{}, standard error: {:?}", done.status, String::from_utf8_lossy(&done.stderr)),
        Err(error) => error.to_string(),
    }
}
