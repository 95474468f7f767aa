//! What a program writes, and how it ends.

use std::fmt::Display;
use std::io::{self, Read, Write};
use std::path::Path;
use std::process::{Command, Stdio};

#[derive(PartialEq, Eq, Debug)]
pub struct Reply {
    pub output: Vec<u8>,
    /// On standard error.
    pub messages: Vec<u8>,
    /// Nothing if a signal ended the program.
    pub status: Option<i32>,
}

impl Reply {
    /// What was asked for.
    pub fn with(output: Vec<u8>) -> Reply {
        Reply {
            output,
            messages: Vec::new(),
            status: Some(0),
        }
    }

    /// Only what is wrong with the input.
    pub fn without(flaws: &impl Display) -> Reply {
        Reply {
            output: Vec::new(),
            messages: flaws.to_string().into_bytes(),
            status: Some(1),
        }
    }
}

/// Runs a program with this input. Of its output no more than `most` bytes are
/// read.
pub fn ask(program: &Path, input: &[u8], most: u64) -> io::Result<Reply> {
    let mut child = Command::new(program)
        .stdin(Stdio::piped())
        .stdout(Stdio::piped())
        .stderr(Stdio::piped())
        .spawn()?;
    let mut its_input = child.stdin.take().expect("standard input is piped");
    let its_output = child.stdout.take().expect("standard output is piped");
    let its_messages = child.stderr.take().expect("standard error is piped");
    let (mut output, mut messages) = (Vec::new(), Vec::new());
    // Each pipe has a thread of its own, so that neither program waits for the
    // other with a full one. A program need not read all: where its pipe
    // breaks, its reply is judged like any other.
    std::thread::scope(|scope| {
        scope.spawn(move || its_input.write_all(input).ok());
        scope.spawn(|| its_messages.take(most).read_to_end(&mut messages).ok());
        // Takes the pipe, and so closes it: a program that writes on is stopped.
        its_output.take(most).read_to_end(&mut output)
    })?;
    Ok(Reply {
        output,
        messages,
        status: child.wait()?.code(),
    })
}
