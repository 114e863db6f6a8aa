//! The programs of the repository as processes, on standard streams of many kinds.

use std::env;
use std::ffi::c_int;
use std::io::{pipe, ErrorKind, PipeReader, Write};
use std::os::fd::{AsFd, AsRawFd};
use std::path::{Path, PathBuf};
use std::process::{Child, Command, Output, Stdio};

/// The functions and numbers of the C library that the standard library does not have.
mod raw {
    use std::ffi::c_int;

    pub const F_GETFL: c_int = 3;
    pub const F_SETFL: c_int = 4;
    pub const O_NONBLOCK: c_int = 0o4000;

    extern "C" {
        pub fn fcntl(descriptor: c_int, command: c_int, ...) -> c_int;
        pub fn kill(process: c_int, signal: c_int) -> c_int;
    }
}

/// A signal that every program lets happen.
#[derive(Clone, Copy)]
pub enum Signal {
    /// Goes on after a stop.
    Continue = 18,
    /// Stops.
    Stop = 19,
}

/// Where a program is: in target/bin of the repository, or in the folder that PLACEMENT_PROGRAMS names.
pub fn program(name: &str) -> PathBuf {
    let built = Path::new(env!("CARGO_MANIFEST_DIR")).join("../../target/bin");
    let folder = env::var_os("PLACEMENT_PROGRAMS").map_or(built, PathBuf::from);
    let program = folder.join(name);
    assert!(program.is_file(), "{} is missing: run `rt check {name}` first", program.display());
    program
}

/// A command that runs a program with one of its streams changed, as `<&-` closes its input.
pub fn redirected(program: &Path, redirection: &str) -> Command {
    let mut command = Command::new("sh");
    command.arg("-c").arg(format!("exec \"$0\" {redirection}")).arg(program);
    command
}

/// Starts a command on these streams; what it writes as errors is kept for its end.
pub fn start(command: &mut Command, input: impl Into<Stdio>, output: impl Into<Stdio>) -> Child {
    command.stdin(input).stdout(output).stderr(Stdio::piped()).spawn().unwrap()
}

/// What a program wrote, once it has ended; no signal may have ended it.
pub fn ended(child: Child) -> Output {
    let output = child.wait_with_output().unwrap();
    assert!(output.status.code().is_some(), "the program ended with {}", output.status);
    output
}

/// An input that holds a whole text, which has to fit into a pipe.
pub fn whole(text: &[u8]) -> PipeReader {
    let (reader, mut writer) = pipe().unwrap();
    writer.write_all(text).unwrap();
    reader
}

/// Lets reads and writes of a stream fail where they would wait, in every process that has it.
pub fn set_nonblocking(stream: impl AsFd) {
    let descriptor = stream.as_fd().as_raw_fd();
    // SAFETY: both calls read and write numbers only, and the descriptor is open while it is borrowed.
    let done = unsafe {
        let flags = raw::fcntl(descriptor, raw::F_GETFL);
        raw::fcntl(descriptor, raw::F_SETFL, flags | raw::O_NONBLOCK)
    };
    assert_eq!(done, 0);
}

/// Writes to a stream that does not wait until it takes no more; returns how many bytes it took.
pub fn fill(mut stream: impl Write) -> usize {
    let mut filled = 0;
    loop {
        match stream.write(&[b'.'; 4096]) {
            Err(error) if error.kind() == ErrorKind::WouldBlock => return filled,
            written => filled += written.unwrap(),
        }
    }
}

/// Sends a signal to a program.
pub fn send(signal: Signal, child: &Child) {
    // SAFETY: the call takes two numbers, and a child that was not waited for keeps its own.
    let done = unsafe { raw::kill(child.id() as c_int, signal as c_int) };
    assert_eq!(done, 0);
}
