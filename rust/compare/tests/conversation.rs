//! The program `session` answers scripts as the reference does, and each line as soon as it has come.

use compare::answers::{number, word};
use compare::buffers::{assert_bytes, shown};
use compare::pieces::{pieces, printed, WHOLE};
use compare::programs::{ended, program, start};
use compare::sessions::{random_script, random_script_with_files, schemes_command, LONGEST_FILE};
use second::counts::Counts;
use second::generate::Random;
use second::session::{answer, session};
use second::text::lines;
use second::Table;
use std::io::{Read, Write};
use std::process::{Child, ChildStdin, ChildStdout, Command, Stdio};
use std::sync::mpsc::{channel, Receiver, Sender};
use std::thread;
use std::time::{Duration, Instant};

/// How many generated scripts are compared.
const SCRIPTS: usize = 400;

/// How long an answer may take; only a program that waits for more lines takes so long.
const LIMIT: Duration = Duration::from_secs(20);

/// How long nothing may come where nothing is due.
const SILENCE: Duration = Duration::from_millis(50);

/// All five commands, and other lines, with the table in every state.
const COMMANDS: [&str; 44] = [
    "infer",
    "take-back",
    "redeclare 0 0",
    "add T,0,any",
    "add P,0,G0,0,ah",
    "add P,0,g0,0,ah",
    "add P,1,g0,1",
    "add E,0,VAR,0",
    "add E,1,Var,0",
    "add E,2,op,aDD,0,1",
    "infer",
    "add E,3,LAM,0,2",
    "infer",
    "redeclare 0 6",
    "infer",
    "redeclare 0 71",
    "",
    "redeclare 0 5",
    "infer",
    "take-back",
    "infer",
    "add",
    "add E,3,LAM,0,2",
    "infer",
    "redeclare 0 1",
    "infer",
    "redeclare 0 7",
    "infer",
    "schemes",
    "schemes ",
    "schemes S,LOW,10000  S,HIGH,00000",
    "schemes S,A,10000 S,B,01000",
    "schemes S,Z,00000 S,A,10001 S,B,01001",
    "infer",
    "schemes S,LOW,10000 S,HIGH,00000",
    "infer",
    "take-back",
    "add T,0,INT",
    "add P,0,ah,0",
    "add P,0,high,0,LOW",
    "redeclare 0 67",
    "schemes s,A,00000",
    "redeclare 0 66",
    "take-back ",
];

/// Asserts that the program prints the reference's answers for a script in these pieces.
fn assert_answers(about: &str, script: &[u8], pieces: &[&[u8]]) {
    let printed = printed(&program("session"), pieces);
    assert_bytes(&printed, &session(script), about);
}

/// The script with these lines.
fn script(lines: &[&str]) -> Vec<u8> {
    lines.iter().flat_map(|line| format!("{line}\n").into_bytes()).collect()
}

/// A script in pieces of random lengths, many of them short.
fn random_pieces<'a>(random: &mut Random, mut script: &'a [u8]) -> Vec<&'a [u8]> {
    let mut pieces = vec![];
    while !script.is_empty() {
        let longest = if random.one_in(3) { 300 } else { 12 };
        let (piece, rest) = script.split_at(random.between(1, longest).min(script.len()));
        pieces.push(piece);
        script = rest;
    }
    pieces
}

/// A program with which a conversation is held.
struct Conversation {
    child: Child,
    input: ChildStdin,
    output: Receiver<Vec<u8>>,
}

impl Conversation {
    /// Starts the program.
    fn start() -> Conversation {
        let mut command = Command::new(program("session"));
        let mut child = start(&mut command, Stdio::piped(), Stdio::piped());
        let (input, stdout) = (child.stdin.take().unwrap(), child.stdout.take().unwrap());
        let (sender, output) = channel();
        // Reads wait without limit, so they have a thread of their own.
        thread::spawn(move || pass_on(stdout, sender));
        Conversation { child, input, output }
    }

    /// Writes bytes to the program.
    fn write(&mut self, bytes: &[u8]) {
        self.input.write_all(bytes).unwrap();
    }

    /// Asserts that just these bytes come, and in time.
    fn assert_comes(&self, expected: &[u8]) {
        let (mut found, deadline) = (vec![], Instant::now() + LIMIT);
        while found.len() < expected.len() {
            let left = deadline.saturating_duration_since(Instant::now());
            match self.output.recv_timeout(left) {
                Ok(bytes) => found.extend(bytes),
                Err(_) => break,
            }
        }
        assert_bytes(&found, expected, "an answer");
    }

    /// Asserts that nothing comes for a while.
    fn assert_silent(&self) {
        let found = self.output.recv_timeout(SILENCE).unwrap_or_default();
        assert_bytes(&found, b"", "a part of a line");
    }

    /// Ends the input, and asserts that just these bytes come until the program ends.
    fn assert_ends(self, expected: &[u8]) {
        let Conversation { child, input, output } = self;
        drop(input);
        let errors = ended(child).stderr;
        let found: Vec<u8> = output.iter().flatten().collect();
        assert_bytes(&found, expected, "the end of the input");
        assert_bytes(&errors, b"", "the end of the input");
    }
}

/// Passes on what a program prints, as it comes.
fn pass_on(mut stdout: ChildStdout, sender: Sender<Vec<u8>>) {
    let mut bytes = [0; 65_536];
    loop {
        let length = stdout.read(&mut bytes).unwrap();
        if length == 0 || sender.send(bytes[..length].to_vec()).is_err() {
            return;
        }
    }
}

/// Holds a conversation: each line of a script is written when the one before it is answered.
fn converse(script: &[u8]) {
    let (mut conversation, mut table) = (Conversation::start(), Table::fresh());
    for line in lines(script) {
        conversation.write(line);
        conversation.write(b"\n");
        conversation.assert_comes(&answer(&mut table, line));
    }
    conversation.assert_ends(b"");
}

#[test]
fn an_empty_script_has_no_answer() {
    assert_answers("an empty script", b"", &[]);
    Conversation::start().assert_ends(b"");
}

#[test]
fn scripts_may_come_in_any_pieces() {
    let mut random = Random::seeded(1);
    let whole = script(&COMMANDS);
    for script in [&whole[..], whole.strip_suffix(b"\n").unwrap()] {
        for piece in [1, 2, 3, 5, 7, 64, WHOLE] {
            let about = format!("pieces of {piece} bytes");
            assert_answers(&about, script, &pieces(script, piece));
        }
        for _ in 0..50 {
            assert_answers("random pieces", script, &random_pieces(&mut random, script));
        }
    }
}

/// Asserts that the program prints the reference's answers for a script, which comes whole, in single bytes or in random pieces.
fn assert_generated(random: &mut Random, about: &str, script: &[u8]) {
    let about = format!("{about}, {}", shown(script));
    match random.below(4) {
        0 => assert_answers(&about, script, &random_pieces(random, script)),
        1 => assert_answers(&about, script, &pieces(script, 1)),
        _ => assert_answers(&about, script, &pieces(script, WHOLE)),
    }
}

#[test]
fn generated_scripts_are_answered_alike() {
    let mut random = Random::seeded(2);
    for _ in 0..SCRIPTS {
        let (kind, script) = random_script(&mut random);
        assert_generated(&mut random, &format!("{kind:?}"), &script);
    }
}

#[test]
fn generated_scripts_with_files_are_answered_alike() {
    let mut random = Random::seeded(5);
    let mut numbers = Counts::default();
    for _ in 0..SCRIPTS {
        let (kinds, script) = random_script_with_files(&mut random);
        assert_generated(&mut random, &format!("{kinds:?}"), &script);
        let mut table = Table::fresh();
        for line in lines(&script) {
            let answer = answer(&mut table, line);
            if word(line) == "schemes" {
                numbers.add(number(&answer));
            }
        }
    }
    println!("{:?}", numbers.0);
    numbers.assert_each([0, 25, 26], SCRIPTS);
    numbers.assert_each([27], SCRIPTS / 4);
}

#[test]
fn each_line_is_answered_before_the_next_comes() {
    converse(&script(&COMMANDS));
}

#[test]
fn generated_conversations_are_answered_line_by_line() {
    let mut random = Random::seeded(3);
    for _ in 0..SCRIPTS / 4 {
        let (_, script) = random_script(&mut random);
        converse(&script);
        let (_, script) = random_script_with_files(&mut random);
        converse(&script);
    }
}

#[test]
fn nothing_is_answered_before_a_line_ends() {
    let mut conversation = Conversation::start();
    for (part, expected) in [
        ("inf", ""),
        ("er", ""),
        ("\n", "NO,10,0\n"),
        ("add E,0,NU", ""),
        ("M,1\ninf", "0\n"),
        ("er\n\n", "OK,0,1\nE,0,RAND,INT\n?\n"),
        ("schemes S,A,000", ""),
        ("00 ", ""),
        ("\nadd E,0,NUM,1\ninfer", "0\n0\n"),
        ("\nschemes", "OK,0,1\nE,0,A,INT\n"),
        (" \n", "25\n"),
    ] {
        conversation.write(part.as_bytes());
        conversation.assert_comes(expected.as_bytes());
        conversation.assert_silent();
    }
    conversation.assert_ends(b"");
}

#[test]
fn a_last_line_without_a_line_feed_is_answered_at_the_end() {
    for (last, expected) in [
        ("", ""),
        ("infer", "OK,0,1\nE,0,RAND,INT\n"),
        ("add ", "1\n"),
        ("take-back", "0\n"),
        ("redeclare 0 0", "5\n"),
        ("infe", "?\n"),
        ("schemes", "?\n"),
        ("schemes ", "25\n"),
        ("schemes S,A,00000", "0\n"),
        ("schemes S,A,10000 S,B,01000", "26\n"),
    ] {
        let mut conversation = Conversation::start();
        conversation.write(b"add E,0,NUM,1\n");
        conversation.assert_comes(b"0\n");
        conversation.write(last.as_bytes());
        conversation.assert_silent();
        conversation.assert_ends(expected.as_bytes());
    }
}

#[test]
fn lines_of_each_length_are_answered() {
    let mut random = Random::seeded(4);
    let longest = String::from_utf8(schemes_command(LONGEST_FILE.as_bytes())).unwrap();
    let fronts = ["add E,0,NUM,1", "redeclare 0 7", "take-back", "infer", "", "schemes "];
    let ones = fronts.iter().flat_map(|front| (0..200).map(move |more| (*front, "1", more)));
    let scheme = |(front, byte)| (0..20).map(move |more| (front, byte, more));
    let files = [(&longest[..], " "), (&longest, "1"), (longest.trim_end(), " "), ("schemes", " ")];
    let lines: Vec<String> = ones
        .chain(files.into_iter().flat_map(scheme))
        .map(|(front, byte, more)| format!("{front}{}", byte.repeat(more)))
        .collect();
    let script = lines.join("\ninfer\n").into_bytes();
    converse(&script);
    for _ in 0..20 {
        assert_answers("random pieces", &script, &random_pieces(&mut random, &script));
    }
}

#[test]
fn lines_of_a_million_bytes_are_answered() {
    let million = |byte| vec![byte; 1_000_000];
    let long: [Vec<u8>; 9] = [
        [b"add ".to_vec(), million(b'1')].concat(),
        [b"add E,0,NUM,1".to_vec(), million(b'1')].concat(),
        [b"redeclare 0 ".to_vec(), million(b'0')].concat(),
        [b"infer".to_vec(), million(b' ')].concat(),
        [b"take-back".to_vec(), million(b'\r')].concat(),
        [b"schemes ".to_vec(), million(b' ')].concat(),
        [b"schemes S,A,00000".to_vec(), million(b' ')].concat(),
        [schemes_command(LONGEST_FILE.as_bytes()), million(b'S')].concat(),
        million(0),
    ];
    let script = [&long.join(&b"\nadd E,0,NUM,1\ninfer\ntake-back\n"[..])[..], b"\ninfer"].concat();
    converse(&script);
    for piece in [1_000, 65_536, WHOLE] {
        assert_answers("lines of a million bytes", &script, &pieces(&script, piece));
    }
    // The last line is a long one without its line feed.
    for last in long {
        let script = [b"add E,0,NUM,1\ninfer\n".to_vec(), last].concat();
        assert_answers("a last line of a million bytes", &script, &pieces(&script, WHOLE));
    }
}

#[test]
fn scripts_of_many_lines_are_answered() {
    let schemes = "schemes S,A,00000\nadd E,0,NUM,1\nschemes S,A,10000 S,B,01000\n";
    for lines in ["\n", "infer\n", "add E,0,NUM,1\ninfer\ntake-back\n", schemes] {
        let script = lines.repeat(100_000).into_bytes();
        assert_answers("many lines", &script, &pieces(&script, WHOLE));
    }
}

#[test]
fn conversations_do_not_disturb_each_other() {
    let mut conversations = [Conversation::start(), Conversation::start()];
    conversations[0].write(b"add E,0,NUM,1\n");
    conversations[0].assert_comes(b"0\n");
    conversations[1].write(b"infer\n");
    conversations[1].assert_comes(b"NO,10,0\n");
    conversations[1].write(b"schemes S,A,00000\n");
    conversations[1].assert_comes(b"0\n");
    conversations[0].write(b"infer\n");
    conversations[0].assert_comes(b"OK,0,1\nE,0,RAND,INT\n");
    conversations.into_iter().for_each(|conversation| conversation.assert_ends(b""));
}
