//! The entry for scripts, and the same through the layer that lends the table, answer as the reference does.

use compare::answers::{
    asked, assert_answers, assert_exchanges, assert_written, number, word, Room, ENTRIES,
};
use compare::buffers::{assert_bytes, shown, with_any_byte};
use compare::placement_session;
use compare::sessions::{adding, random_script, Kind};
use compare::words::WordCounts;
use second::counts::Counts;
use second::examples::{bytes, files};
use second::generate::{deep, text_of_lines, LetterCase, NumberCounts, Place, Random};
use second::session::{answer, session, Command};
use second::text::lines;
use second::to_try;
use second::{SchemeTable, Table};

/// How many generated scripts are compared.
const SCRIPTS: usize = 24_000;

/// The commands with their numbers that occur often in generated scripts, and those that seldom do.
const OFTEN: [&str; 18] = [
    "add 0", "add 1", "add 2", "add 3", "add 4", "add 5", "add 6", "add 7", "redeclare 0",
    "redeclare 5", "take-back 0", "infer 0", "infer 10", "infer 21", "infer 22", "infer 23",
    "infer 24", "? 0",
];
const SELDOM: [&str; 3] = ["add 8", "redeclare 12", "take-back 9"];

/// What was accepted since the last infer of a closed program.
#[derive(Default)]
struct Since {
    redeclared: bool,
    added: bool,
    taken_back: bool,
}

/// What an infer says of a closed program.
enum Verdict {
    Accepted,
    NoTyping,
    FloorMissed,
}

impl Verdict {
    /// What an answer to an infer says.
    fn of(answer: &[u8]) -> Verdict {
        match number(answer) {
            0 => Verdict::Accepted,
            24 => Verdict::FloorMissed,
            _ => Verdict::NoTyping,
        }
    }
}

/// What is seen of an infer beside the last one of a closed program.
#[derive(Clone, Copy, Debug, PartialEq, Eq, PartialOrd, Ord)]
enum Change {
    /// Only parameters were redeclared, and both are accepted with different reports.
    OtherReportAfterRedeclare,
    /// Only parameters were redeclared, and an accepted program has no typing now.
    NoTypingAfterRedeclare,
    /// Only parameters were redeclared, and a program that had no typing is accepted now.
    AcceptedAfterRedeclare,
    /// Only parameters were redeclared, and an accepted program misses a floor now.
    FloorMissedAfterRedeclare,
    /// Only parameters were redeclared, and a program that missed a floor is accepted now.
    FloorMetAfterRedeclare,
    /// Only parameters were redeclared, and the lowest parameter that misses its floor is another.
    OtherFloorMissedAfterRedeclare,
    /// Rows were taken back, and the program is open now.
    OpenAfterTakeBack,
    /// Rows were taken back and others added, and both are accepted with different reports.
    OtherReportAfterTakeBack,
    /// Rows were taken back and added again, and both are accepted with the same report.
    SameReportAfterTakeBack,
    /// Rows were taken back and others added, and an accepted program has no typing now.
    NoTypingAfterTakeBack,
    /// Rows were taken back and others added, and a program that had no typing is accepted now.
    AcceptedAfterTakeBack,
    /// Rows were taken back and others added, and an accepted program misses a floor now.
    FloorMissedAfterTakeBack,
    /// Rows were taken back and others added, and a program that missed a floor is accepted now.
    FloorMetAfterTakeBack,
}

impl Change {
    /// The changes that occur often in generated scripts, and those that seldom do.
    const OFTEN: [Change; 11] = [
        Change::OtherReportAfterRedeclare,
        Change::NoTypingAfterRedeclare,
        Change::AcceptedAfterRedeclare,
        Change::FloorMissedAfterRedeclare,
        Change::FloorMetAfterRedeclare,
        Change::OtherFloorMissedAfterRedeclare,
        Change::OpenAfterTakeBack,
        Change::OtherReportAfterTakeBack,
        Change::SameReportAfterTakeBack,
        Change::NoTypingAfterTakeBack,
        Change::AcceptedAfterTakeBack,
    ];
    const SELDOM: [Change; 2] = [Change::FloorMissedAfterTakeBack, Change::FloorMetAfterTakeBack];

    /// What is seen of an infer, if anything, from the answers before and now and what was accepted between.
    fn of(before: &[u8], now: &[u8], since: &Since) -> Option<Change> {
        if open(now) {
            return since.taken_back.then_some(Change::OpenAfterTakeBack);
        }
        if since.taken_back && since.added {
            Change::after_take_back(before, now)
        } else if since.redeclared && !since.taken_back && !since.added {
            Change::after_redeclare(before, now)
        } else {
            None
        }
    }

    /// What is seen of an infer of a closed program where only parameters were redeclared.
    fn after_redeclare(before: &[u8], now: &[u8]) -> Option<Change> {
        match [before, now].map(Verdict::of) {
            [Verdict::Accepted, Verdict::Accepted] if before != now => {
                Some(Change::OtherReportAfterRedeclare)
            }
            [Verdict::Accepted, Verdict::NoTyping] => Some(Change::NoTypingAfterRedeclare),
            [Verdict::NoTyping, Verdict::Accepted] => Some(Change::AcceptedAfterRedeclare),
            [Verdict::Accepted, Verdict::FloorMissed] => Some(Change::FloorMissedAfterRedeclare),
            [Verdict::FloorMissed, Verdict::Accepted] => Some(Change::FloorMetAfterRedeclare),
            [Verdict::FloorMissed, Verdict::FloorMissed] if before != now => {
                Some(Change::OtherFloorMissedAfterRedeclare)
            }
            _ => None,
        }
    }

    /// What is seen of an infer of a closed program where rows were taken back and others added.
    fn after_take_back(before: &[u8], now: &[u8]) -> Option<Change> {
        match [before, now].map(Verdict::of) {
            [Verdict::Accepted, Verdict::Accepted] if before != now => {
                Some(Change::OtherReportAfterTakeBack)
            }
            [Verdict::Accepted, Verdict::Accepted] => Some(Change::SameReportAfterTakeBack),
            [Verdict::Accepted, Verdict::NoTyping] => Some(Change::NoTypingAfterTakeBack),
            [Verdict::NoTyping, Verdict::Accepted] => Some(Change::AcceptedAfterTakeBack),
            [Verdict::Accepted, Verdict::FloorMissed] => Some(Change::FloorMissedAfterTakeBack),
            [Verdict::FloorMissed, Verdict::Accepted] => Some(Change::FloorMetAfterTakeBack),
            _ => None,
        }
    }
}

/// Tells whether an infer is refused because the program is not closed.
fn open(answer: &[u8]) -> bool {
    answer.starts_with(b"NO,10,")
}

/// What occurred in many scripts.
#[derive(Default)]
struct Tally {
    /// The first word of a command, or `?`, with its number, as `add 0`.
    answers: Counts<String>,
    changes: Counts<Change>,
    /// The NUM rows of the tables after the last line.
    numbers: NumberCounts,
    /// The words of lines that were added.
    words: WordCounts,
}

impl Tally {
    /// Counts what is seen in a script; gives all answers of the reference.
    fn take(&mut self, script: &[u8]) -> Vec<u8> {
        let mut table = Table::fresh();
        let (mut before, mut since) = (None, Since::default());
        let mut answers = vec![];
        for line in lines(script) {
            let now = answer(&mut table, line);
            let (word, number) = (word(line), number(&now));
            self.answers.add(format!("{word} {number}"));
            if let (Some(Command::Add(added)), 0) = (Command::read(line), number) {
                self.words.take(added);
            }
            match word {
                "redeclare" => since.redeclared |= number == 0,
                "add" => since.added |= number == 0,
                "take-back" => since.taken_back |= number == 0,
                "infer" => {
                    let change = before.as_deref().and_then(|it| Change::of(it, &now, &since));
                    change.into_iter().for_each(|change| self.changes.add(change));
                    if !open(&now) {
                        (before, since) = (Some(now.clone()), Since::default());
                    }
                }
                _ => {}
            }
            answers.extend(now);
        }
        self.numbers.take(&table);
        answers
    }
}

#[test]
fn the_examples_have_their_answers() {
    for path in ["", "schemes"].into_iter().flat_map(|folder| files(folder, "script")) {
        let answers = bytes(&path.with_extension("answers"));
        assert_answers(&path.display().to_string(), &bytes(&path), &answers);
    }
}

#[test]
fn each_program_to_try_is_answered_as_the_documents_say() {
    for program in to_try::all() {
        let adds = lines(&program.text).count();
        let script = adding(&program.text);
        if !program.prints.starts_with(b"X,") {
            let answers = [b"0\n".repeat(adds), program.prints].concat();
            assert_answers(program.about, &script, &answers);
            continue;
        }
        // The last line is refused there, and the program before it is inferred.
        let (number, line) = (program.returns / 1_000, program.returns % 1_000);
        assert_eq!(line as usize, adds, "for {}", program.about);
        let front = [b"0\n".repeat(adds - 1), format!("{number}\n").into_bytes()].concat();
        for (name, entry) in ENTRIES {
            let found = asked(entry, &script);
            assert_bytes(&found[..front.len()], &front, &format!("{name}, {}", program.about));
        }
    }
}

#[test]
fn a_floor_is_met_and_missed_as_the_documents_say() {
    let report = |word: &str| {
        format!(
            "OK,1,4 G,0,{word} P,0,{word},INT E,0,{word},INT E,1,{word},INT E,2,PLAIN,INT
             E,3,PLAIN,ARROW"
        )
    };
    let (op, det) = (report("OP"), report("DET"));
    let exchanges = [
        ("add T,0,ANY", "0"),
        ("add P,0,g0,0,g0", "1"),
        ("add P,0,g0,0,OP,OP", "1"),
        ("add P,0,g0,0,OP", "0"),
        ("add E,0,VAR,0", "0"),
        ("add E,1,VAR,0", "0"),
        ("add E,2,OP,LT,0,1", "0"),
        ("infer", "NO,10,0"),
        ("add E,3,LAM,0,2", "0"),
        ("infer", &op),
        // FHE supports LT and is below the floor; RAND is above the floor and does not support LT.
        ("redeclare 0 1", "0"),
        ("infer", "NO,24,0"),
        ("redeclare 0 6", "0"),
        ("infer", "NO,23,2"),
        ("redeclare 0 7", "0"),
        ("infer", &op),
        // A sum has AH at most, which is beside the floor; DET, which EQ has, is above it.
        ("take-back", "0"),
        ("take-back", "0"),
        ("add E,2,OP,ADD,0,1", "0"),
        ("add E,3,LAM,0,2", "0"),
        ("infer", "NO,24,0"),
        ("take-back", "0"),
        ("take-back", "0"),
        ("add E,2,OP,EQ,0,1", "0"),
        ("add E,3,LAM,0,2", "0"),
        ("infer", &det),
    ];
    assert_exchanges(&exchanges);
}

#[test]
fn an_empty_script_has_no_answer() {
    assert_answers("an empty script", b"", b"");
    let mut random = Random::seeded(0);
    assert_written(&mut random, b"", b"", 3);
}

#[test]
fn scripts_of_each_kind_are_answered_alike() {
    let mut random = Random::seeded(1);
    let mut tally = Tally::default();
    let (mut kinds, mut rooms) = (Counts::default(), Counts::default());
    for _ in 0..SCRIPTS {
        let (kind, script) = random_script(&mut random);
        let answers = tally.take(&script);
        let room = Room::random(&mut random);
        let length = room.length(&mut random, answers.len());
        assert_written(&mut random, &script, &answers, length);
        kinds.add(kind);
        rooms.add(room);
    }
    println!("{:?}\n{:?}\n{:?}\n{:?}", kinds.0, rooms.0, tally.answers.0, tally.changes.0);
    kinds.assert_each(Kind::ALL, SCRIPTS / 30);
    rooms.assert_each(Room::ALL, SCRIPTS / 30);
    tally.answers.assert_each(OFTEN.map(str::to_string), SCRIPTS / 6);
    tally.answers.assert_each(SELDOM.map(str::to_string), SCRIPTS / 60);
    tally.changes.assert_each(Change::OFTEN, SCRIPTS / 150);
    tally.changes.assert_each(Change::SELDOM, SCRIPTS / 2_000);
    tally.changes.assert_each([Change::OtherReportAfterRedeclare], SCRIPTS / 4);
    let floors = [Change::FloorMissedAfterRedeclare, Change::FloorMetAfterRedeclare];
    tally.changes.assert_each(floors, SCRIPTS / 10);
    println!("{:?}\n{:?}", tally.numbers, tally.words);
    tally.words.assert_each(SCRIPTS / 400);
    tally.numbers.places.assert_each(Place::all(), SCRIPTS / 100);
    tally.numbers.words.assert_each(SchemeTable::six().words(), SCRIPTS / 100);
    tally.numbers.different_words.assert_each(2..=3, SCRIPTS / 100);
}

#[test]
fn the_case_of_words_changes_no_answer() {
    let mut random = Random::seeded(9);
    let (mut kinds, mut changed) = (Counts::default(), 0);
    for _ in 0..SCRIPTS / 12 {
        let (kind, script) = random_script(&mut random);
        let capitals = LetterCase::Capitals.of_text(&mut random, &script);
        let answers = asked(placement_session, &capitals);
        for case in LetterCase::ALL {
            let written = case.of_text(&mut random, &script);
            assert_bytes(&session(&written), &answers, &shown(&written));
            assert_written(&mut random, &written, &answers, answers.len());
            changed += usize::from(written != capitals);
        }
        kinds.add(kind);
    }
    println!("{:?}\n{changed}", kinds.0);
    kinds.assert_each(Kind::ALL, SCRIPTS / 300);
    assert!(changed > SCRIPTS / 12, "{changed} scripts were in another case only");
}

#[test]
fn buffers_of_each_length_are_written_alike() {
    let mut random = Random::seeded(2);
    for _ in 0..30 {
        let (_, script) = random_script(&mut random);
        let answers = session(&script);
        let shortest = answers.len().saturating_sub(300);
        for length in (0..300.min(shortest)).chain(shortest..answers.len() + 40) {
            assert_written(&mut random, &script, &answers, length);
        }
    }
}

#[test]
fn the_length_is_asked_for_and_then_lent() {
    let mut random = Random::seeded(3);
    for _ in 0..1_000 {
        let (_, script) = random_script(&mut random);
        for (name, entry) in ENTRIES {
            let about = format!("{name}, {}", shown(&script));
            assert_bytes(&asked(entry, &script), &session(&script), &about);
        }
    }
}

#[test]
fn scripts_of_one_or_two_bytes_are_answered_alike() {
    let mut random = Random::seeded(4);
    let mut compare = |script: &[u8]| {
        let answers = session(script);
        assert_written(&mut random, script, &answers, answers.len() + 1);
    };
    for first in 0..=255 {
        compare(&[first]);
        for second in 0..=255 {
            compare(&[first, second]);
        }
    }
}

#[test]
fn commands_with_any_byte_changed_are_answered_alike() {
    let mut random = Random::seeded(5);
    let mut unknown = 0;
    for command in ["add E,1,LAM,0,0", "redeclare 0 10", "take-back", "infer"] {
        for changed in with_any_byte(command.as_bytes()) {
            unknown += usize::from(Command::read(&changed).is_none());
            let before = b"add T,0,ANY\nadd P,0,g0,0\nadd E,0,VAR,0\n";
            let script = [&before[..], &changed, b"\ninfer\n"].concat();
            let answers = session(&script);
            assert_written(&mut random, &script, &answers, answers.len());
        }
    }
    assert!(unknown > 10_000, "{unknown} lines were no commands only");
}

#[test]
fn redeclarations_near_the_limits_are_answered_alike() {
    let mut random = Random::seeded(6);
    let numbers = ["", "0", "00", "1", "2", "6", "7", "70", "71", "255", "256", "257", "65535"];
    let larger = ["65536", "4294967295", "4294967296", "4294967297", "18446744073709551615"];
    let largest = ["18446744073709551616", "100000000000000000000000000000000000000000"];
    let all: Vec<&str> = numbers.into_iter().chain(larger).chain(largest).collect();
    let program = b"T,0,ANY\nP,0,g0,0,OP\nP,1,AH,0\nE,0,VAR,1\nE,1,LAM,1,0\nE,2,LAM,0,1\n";
    for parameter in &all {
        for code in &all {
            let mut script = adding(program);
            script.extend(format!("redeclare {parameter} {code}\ninfer").into_bytes());
            let answers = session(&script);
            assert_written(&mut random, &script, &answers, answers.len());
        }
    }
}

#[test]
fn deep_programs_are_answered_alike() {
    let mut random = Random::seeded(7);
    for (_, lines) in deep::all() {
        let script = adding(&text_of_lines(&lines));
        let answers = session(&script);
        assert_written(&mut random, &script, &answers, answers.len());
    }
}

#[test]
fn long_scripts_are_answered_alike() {
    const LINES: usize = 30_000;
    let million = |byte| vec![byte; 1_000_000];
    let repeated = |line: &str| format!("{line}\n").repeat(LINES).into_bytes();
    let after = |script: Vec<u8>| [&b"add E,0,NUM,1\n"[..], &script, b"\ninfer\n"].concat();
    let scripts = [
        repeated("\n\n"),
        after(million(b' ')),
        after([b"add ".to_vec(), million(b'1')].concat()),
        after([b"redeclare 0 ".to_vec(), million(b'0')].concat()),
        after([b"infer".to_vec(), million(0)].concat()),
        after(repeated("infer")),
        after(repeated("add E,1,NUM,1\nredeclare 0 0\ntake-back")),
        after(repeated("take-back\nadd E,0,ENC,AH,7\ninfer")),
    ];
    let mut random = Random::seeded(8);
    for script in scripts {
        let answers = session(&script);
        for length in [answers.len() - 1, answers.len()] {
            assert_written(&mut random, &script, &answers, length);
        }
    }
}
