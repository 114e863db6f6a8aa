//! A program answers for what it read, however slowly it came, and tells of a stream that fails.

use compare::buffers::assert_bytes;
use compare::programs::{
    ended, fill, program, redirected, send, set_nonblocking, start, whole, Signal,
};
use compare::sessions::adding;
use second::generate::{deep, text_of_lines};
use second::to_try;
use second::{place, session};
use std::fs::File;
use std::io::{pipe, Read, Write};
use std::os::fd::OwnedFd;
use std::os::unix::net::UnixStream;
use std::path::{Path, PathBuf};
use std::process::{Child, Command, Output, Stdio};
use std::thread;
use std::time::Duration;

/// How long a test waits, so that the program has to wait too.
const WAIT: Duration = Duration::from_millis(30);

/// A limit on the time of a read or a write that no test reaches.
const LIMIT: Duration = Duration::from_secs(60);

/// Program A of document 01.
fn program_a() -> Vec<u8> {
    to_try::all().into_iter().find(|program| program.about == "A").unwrap().text
}

/// The program of 256 rows whose report is the longest.
fn greatest() -> Vec<u8> {
    let greatest = deep::all().into_iter().map(|(_, lines)| text_of_lines(&lines));
    greatest.max_by_key(|text| place(text).len()).unwrap()
}

/// A program, with an input and what it prints for that.
struct Case {
    name: &'static str,
    input: Vec<u8>,
    printed: Vec<u8>,
}

impl Case {
    /// Both programs on a table; a session adds its lines and infers.
    fn both(table: &[u8]) -> [Case; 2] {
        [Case::place(table.to_vec()), Case::session(adding(table))]
    }

    /// The program `place` on a table.
    fn place(input: Vec<u8>) -> Case {
        Case { name: "place", printed: place(&input), input }
    }

    /// The program `session` on a script.
    fn session(input: Vec<u8>) -> Case {
        Case { name: "session", printed: session(&input), input }
    }

    /// Where the program is.
    fn program(&self) -> PathBuf {
        program(self.name)
    }

    /// Asserts that the program printed what is due and told of no failure.
    fn assert_printed(&self, output: &Output) {
        assert_eq!(output.stderr.escape_ascii().to_string(), "", "for {}", self.name);
        assert_bytes(&output.stdout, &self.printed, self.name);
    }

    /// Asserts that the program printed these bytes, and told in one line that this stream failed.
    fn assert_failed(&self, output: &Output, stream: &str, printed: &[u8]) {
        assert_bytes(&output.stdout, printed, self.name);
        let errors = String::from_utf8(output.stderr.clone()).unwrap();
        assert!(errors.starts_with(&format!("{}: {stream}: ", self.name)), "{errors}");
        assert_eq!(errors.find('\n'), Some(errors.len() - 1), "{errors}");
    }
}

/// Writes a text line by line, and waits before each.
fn write_slowly(mut stream: impl Write, text: &[u8]) {
    for line in text.split_inclusive(|&byte| byte == b'\n') {
        thread::sleep(WAIT);
        stream.write_all(line).unwrap();
    }
}

/// Reads a stream to its end in pieces, and waits before each.
fn read_slowly(mut stream: impl Read) -> Vec<u8> {
    let (mut all, mut piece) = (vec![], [0; 10_000]);
    loop {
        thread::sleep(WAIT);
        match stream.read(&mut piece).unwrap() {
            0 => return all,
            length => all.extend(&piece[..length]),
        }
    }
}

/// Stops a program where it waits, and lets it go on.
fn interrupt(child: &Child) {
    thread::sleep(WAIT);
    send(Signal::Stop, child);
    thread::sleep(WAIT);
    send(Signal::Continue, child);
}

/// What a program prints when a text comes line by line through a pipe that does not wait.
fn printed_from_pipe(program: &Path, text: &[u8]) -> Output {
    let (input, lines) = pipe().unwrap();
    set_nonblocking(&input);
    let child = start(&mut Command::new(program), input, Stdio::piped());
    write_slowly(lines, text);
    ended(child)
}

/// What a program prints when it is interrupted before each half of a text.
fn printed_from_interrupted(program: &Path, text: &[u8]) -> Output {
    let (input, mut lines) = UnixStream::pair().unwrap();
    // Only with a time limit does a read end with EINTR when the program is stopped and goes on.
    input.set_read_timeout(Some(LIMIT)).unwrap();
    let child = start(&mut Command::new(program), OwnedFd::from(input), Stdio::piped());
    for half in text.chunks(text.len().div_ceil(2)) {
        interrupt(&child);
        lines.write_all(half).unwrap();
    }
    drop(lines);
    ended(child)
}

/// What a program prints for a text through a full pipe that does not wait.
fn printed_to_pipe(program: &Path, text: &[u8]) -> Output {
    let (reader, output) = pipe().unwrap();
    set_nonblocking(&output);
    let filled = fill(&output);
    let child = start(&mut Command::new(program), whole(text), output);
    let stdout = read_slowly(reader).split_off(filled);
    Output { stdout, ..ended(child) }
}

/// What a program prints for a text when it is interrupted before its output takes anything.
fn printed_to_interrupted(program: &Path, text: &[u8]) -> Output {
    let (reader, output) = UnixStream::pair().unwrap();
    output.set_nonblocking(true).unwrap();
    let filled = fill(&output);
    output.set_nonblocking(false).unwrap();
    output.set_write_timeout(Some(LIMIT)).unwrap();
    let child = start(&mut Command::new(program), whole(text), OwnedFd::from(output));
    interrupt(&child);
    let stdout = read_slowly(reader).split_off(filled);
    Output { stdout, ..ended(child) }
}

/// What a program prints when its input breaks off after these bytes, once it has printed so many.
fn printed_from_broken(program: &Path, text: &[u8], printed: usize) -> Output {
    let (input, mut lines) = UnixStream::pair().unwrap();
    let mut back = input.try_clone().unwrap();
    let mut child = start(&mut Command::new(program), OwnedFd::from(input), Stdio::piped());
    lines.write_all(text).unwrap();
    let mut front = vec![0; printed];
    child.stdout.as_mut().unwrap().read_exact(&mut front).unwrap();
    // Who leaves bytes unread resets the connection.
    back.write_all(b"unread").unwrap();
    drop(lines);
    let output = ended(child);
    Output { stdout: [front, output.stdout].concat(), ..output }
}

#[test]
fn a_folder_as_input_is_a_failure() {
    for case in Case::both(&program_a()) {
        let folder = File::open("/").unwrap();
        let child = start(&mut Command::new(case.program()), folder, Stdio::piped());
        case.assert_failed(&ended(child), "standard input", b"");
    }
}

#[test]
fn a_closed_input_is_a_failure() {
    for case in Case::both(&program_a()) {
        let mut closed = redirected(&case.program(), "<&-");
        let child = start(&mut closed, Stdio::null(), Stdio::piped());
        case.assert_failed(&ended(child), "standard input", b"");
    }
}

#[test]
fn an_input_that_breaks_off_is_a_failure() {
    let [table, _] = Case::both(&program_a());
    let output = printed_from_broken(&table.program(), &table.input, 0);
    table.assert_failed(&output, "standard input", b"");
    // A session has answered the lines before, and not the part of a line.
    let script = Case::session(b"add E,0,NUM,1\ninfer\n".to_vec());
    let broken = [&script.input[..], b"infer"].concat();
    let output = printed_from_broken(&script.program(), &broken, script.printed.len());
    script.assert_failed(&output, "standard input", &script.printed);
}

#[test]
fn a_full_output_is_a_failure() {
    for case in Case::both(&program_a()) {
        let full = File::options().write(true).open("/dev/full").unwrap();
        let child = start(&mut Command::new(case.program()), whole(&case.input), full);
        case.assert_failed(&ended(child), "standard output", b"");
    }
}

#[test]
fn a_closed_output_is_a_failure() {
    for case in Case::both(&program_a()) {
        let mut closed = redirected(&case.program(), ">&-");
        let child = start(&mut closed, whole(&case.input), Stdio::piped());
        case.assert_failed(&ended(child), "standard output", b"");
    }
}

#[test]
fn an_input_that_comes_slowly_is_read_whole() {
    for case in Case::both(&program_a()) {
        case.assert_printed(&printed_from_pipe(&case.program(), &case.input));
    }
}

#[test]
fn an_input_that_ends_early_is_answered_as_far_as_it_came() {
    let half = |mut input: Vec<u8>| {
        input.truncate(input.len() / 2);
        input
    };
    let [table, script] = Case::both(&program_a());
    for case in [Case::place(half(table.input)), Case::session(half(script.input))] {
        case.assert_printed(&printed_from_pipe(&case.program(), &case.input));
    }
}

#[test]
fn an_interrupted_read_is_tried_again() {
    for case in Case::both(&program_a()) {
        case.assert_printed(&printed_from_interrupted(&case.program(), &case.input));
    }
}

#[test]
fn an_output_that_is_taken_slowly_is_written_whole() {
    for case in Case::both(&greatest()) {
        case.assert_printed(&printed_to_pipe(&case.program(), &case.input));
    }
}

#[test]
fn an_interrupted_write_is_tried_again() {
    for case in Case::both(&greatest()) {
        case.assert_printed(&printed_to_interrupted(&case.program(), &case.input));
    }
}
