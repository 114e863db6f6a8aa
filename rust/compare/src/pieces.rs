//! Programs whose standard input comes in pieces.

use crate::programs::{ended, start};
use std::io::{ErrorKind, Write};
use std::path::Path;
use std::process::{ChildStdin, Command, Stdio};
use std::thread;

/// How many bytes are written to a program at once, where that does not matter.
pub const WHOLE: usize = usize::MAX;

/// A text in pieces of so many bytes.
pub fn pieces(text: &[u8], piece: usize) -> Vec<&[u8]> {
    text.chunks(piece).collect()
}

/// What a program prints when these pieces come on its standard input; it may print nothing as errors.
pub fn printed(program: &Path, pieces: &[&[u8]]) -> Vec<u8> {
    let mut child = start(&mut Command::new(program), Stdio::piped(), Stdio::piped());
    let input = child.stdin.take().unwrap();
    let output = thread::scope(|scope| {
        // The program may print before it has read all, so neither may wait for the other.
        scope.spawn(|| write(input, pieces));
        ended(child)
    });
    assert_eq!(output.stderr.escape_ascii().to_string(), "");
    output.stdout
}

/// Writes the pieces, until all are written or the program reads no more.
fn write(mut input: ChildStdin, pieces: &[&[u8]]) {
    for piece in pieces {
        match input.write_all(piece) {
            Err(error) if error.kind() == ErrorKind::BrokenPipe => return,
            result => result.unwrap(),
        }
    }
}
