//! Scripts with scheme files among their commands: both entries for scripts answer as the reference does.

use compare::answers::{asked, assert_exchanges, assert_written, number, word, Room, ENTRIES};
use compare::buffers::{assert_bytes, shown, with_any_byte};
use compare::sessions::{
    random_script, random_script_with_files, schemes_command, Kind, LONGEST_FILE,
};
use second::counts::Counts;
use second::generate::{
    accepted_file_of, LineFault, Malformation, OrderFaults, PlainByBounds, Random, SchemeFile,
    SchemeProperty,
};
use second::schemes::SIX_FILE;
use second::session::{answer, session};
use second::text::lines;
use second::{SchemeTable, Table};

/// How many generated scripts are compared.
const SCRIPTS: usize = 5_000;

/// The commands with their numbers that occur often in generated scripts, and those that seldom do.
const OFTEN: [&str; 20] = [
    "add 0", "add 1", "add 2", "add 4", "add 5", "add 6", "add 7", "redeclare 0", "redeclare 5",
    "take-back 0", "infer 0", "infer 10", "infer 21", "infer 22", "infer 23", "infer 24", "? 0",
    "schemes 0", "schemes 25", "schemes 26",
];
const SELDOM: [&str; 5] = ["add 3", "add 8", "redeclare 12", "take-back 9", "schemes 27"];

/// The answers to infers of closed programs: accepted, or the number of a refusal.
const VERDICTS: [u32; 5] = [0, 21, 22, 23, 24];

/// What occurred in many scripts.
#[derive(Default)]
struct Tally {
    /// The first word of a command, or `?`, with its number, as `add 0`.
    answers: Counts<String>,
    /// What the scheme tables have under which infers were answered, with the answers' numbers.
    properties: Counts<(SchemeProperty, u32)>,
    /// Why a variable is PLAIN though no constant makes it so, where an infer was accepted.
    plain_by_bounds: Counts<PlainByBounds>,
    /// The numbers of refused files and of infers that followed on the same table.
    after_refused: Counts<(u32, u32)>,
    /// The accepted files that took the place of a table, by whether it had rows.
    replaced: Counts<bool>,
}

impl Tally {
    /// Counts what is seen in a script; gives all answers of the reference.
    fn take(&mut self, script: &[u8]) -> Vec<u8> {
        let (mut table, mut refused) = (Table::fresh(), None);
        let mut answers = vec![];
        for line in lines(script) {
            let had_rows = !table.terms.is_empty();
            let now = answer(&mut table, line);
            let (word, number) = (word(line), number(&now));
            self.answers.add(format!("{word} {number}"));
            match (word, number) {
                ("schemes", 0) => {
                    self.replaced.add(had_rows);
                    refused = None;
                }
                ("schemes", _) => refused = Some(number),
                ("infer", _) => self.take_infer(&table, refused, number),
                _ => {}
            }
            answers.extend(now);
        }
        answers
    }

    /// Counts an infer by its answer's number, with that of a file refused before on the same table.
    fn take_infer(&mut self, table: &Table, refused: Option<u32>, number: u32) {
        SchemeProperty::of(table.schemes()).for_each(|it| self.properties.add((it, number)));
        refused.into_iter().for_each(|it| self.after_refused.add((it, number)));
        if number == 0 {
            let reason = PlainByBounds::of(table);
            reason.into_iter().for_each(|it| self.plain_by_bounds.add(it));
        }
    }
}

impl Tally {
    /// Asserts that all occurred often; prints the counts for those who want to see them.
    fn assert_each(&self) {
        println!("{:?}\n{:?}", self.answers.0, self.properties.0);
        println!("{:?}\n{:?}", self.plain_by_bounds.0, self.after_refused.0);
        self.answers.assert_each(OFTEN.map(str::to_string), SCRIPTS / 6);
        self.answers.assert_each(SELDOM.map(str::to_string), SCRIPTS / 60);
        for number in VERDICTS {
            self.properties.assert_each(SchemeProperty::ALL.map(|it| (it, number)), SCRIPTS / 100);
            self.after_refused.assert_each([25, 26].map(|it| (it, number)), SCRIPTS / 50);
            self.after_refused.assert_each([(27, number)], SCRIPTS / 200);
        }
        self.plain_by_bounds.assert_each(PlainByBounds::ALL, SCRIPTS / 50);
        self.replaced.assert_each([true], SCRIPTS / 2);
        self.replaced.assert_each([false], SCRIPTS / 2);
    }
}

#[test]
fn a_session_goes_on_under_a_file() {
    let report = |word: &str| {
        format!(
            "OK,1,4 G,0,{word} P,0,{word},INT E,0,{word},INT E,1,{word},INT E,2,{word},INT
             E,3,PLAIN,ARROW"
        )
    };
    let program = [
        ("add T,0,ANY", "0"),
        ("add P,0,g0,0", "0"),
        ("add E,0,VAR,0", "0"),
        ("add E,1,VAR,0", "0"),
        ("add E,2,OP,ADD,0,1", "0"),
        ("add E,3,LAM,0,2", "0"),
    ];
    let refused = [
        ("schemes", "?"),
        ("schemes ", "25"),
        ("schemes  ", "25"),
        ("schemes S,low,10000 S,high,00000", "25"),
        ("schemes S,LOW,10000  S,HIGH,00000", "25"),
        ("schemes S,LOW,10000 S,HIGH,00000  ", "25"),
        ("schemes S,A,10000 S,B,01000", "26"),
        ("schemes S,Z,00000 S,A,10001 S,B,01001", "27"),
        ("Schemes S,A,00000", "?"),
    ];
    let (six, low, one) = (report("AH"), report("LOW"), report("ONE"));
    let fresh = [("infer", "NO,10,0"), ("take-back", "9"), ("redeclare 0 0", "5")];
    assert_exchanges(
        &[
            &program[..],
            &refused,
            &[("infer", &six), ("redeclare 0 71", "12"), ("redeclare 0 70", "0")],
            // LOW supports ADD, HIGH nothing, and the greatest code is 66.
            &[("schemes S,LOW,10000 S,HIGH,00000 ", "0")],
            &fresh,
            &program,
            &refused,
            &[("infer", &low), ("redeclare 0 67", "12"), ("redeclare 0 2", "0")],
            &[("infer", "NO,23,2"), ("redeclare 0 3", "0"), ("infer", &low)],
            &[("add P,1,AH,0", "1"), ("add P,1,Low,0,low", "0")],
            &[("schemes S,ONE,11111", "0")],
            &fresh,
            &program,
            &refused,
            &[("infer", &one), ("redeclare 0 66", "12"), ("redeclare 0 65", "0")],
            &[(
                "schemes S,FHE,11111 S,OP,00111 S,DET,00100 S,MH,01000 S,AH,10000 S,RAND,00000",
                "0",
            )],
            &fresh,
            &program,
            &[("infer", &six), ("redeclare 0 71", "12"), ("redeclare 0 70", "0")],
        ]
        .concat(),
    );
}

#[test]
fn scripts_with_files_are_answered_alike() {
    let mut random = Random::seeded(1);
    let mut tally = Tally::default();
    let (mut kinds, mut rooms) = (Counts::default(), Counts::default());
    for _ in 0..SCRIPTS {
        let (parts, script) = random_script_with_files(&mut random);
        let answers = tally.take(&script);
        let room = Room::random(&mut random);
        let length = room.length(&mut random, answers.len());
        assert_written(&mut random, &script, &answers, length);
        parts.into_iter().for_each(|kind| kinds.add(kind));
        rooms.add(room);
    }
    println!("{:?}\n{:?}", kinds.0, rooms.0);
    kinds.assert_each(Kind::ALL, SCRIPTS / 30);
    rooms.assert_each(Room::ALL, SCRIPTS / 30);
    tally.assert_each();
}

/// A script that adds a row, goes on with a file, infers and adds the row once more, with its answers where the file is refused with this number or accepted with 0.
fn script_with(file: &[u8], number: u32) -> (Vec<u8>, Vec<u8>) {
    let command = schemes_command(file);
    let script = [b"add E,0,NUM,1\n", &command[..], b"\ninfer\nadd E,0,NUM,1\n"].concat();
    let after = match number {
        0 => "NO,10,0\n0\n",
        _ => "OK,0,1\nE,0,RAND,INT\n2\n",
    };
    (script, format!("0\n{number}\n{after}").into_bytes())
}

#[test]
fn files_with_each_fault_and_without_are_answered_by_their_numbers() {
    let mut random = Random::seeded(2);
    let (mut numbers, mut faults) = (Counts::default(), Counts::default());
    let line_faults = || LineFault::all().into_iter().map(Some).chain([None]);
    for order_faults in OrderFaults::all() {
        for line_fault in line_faults().flat_map(|fault| [fault; 40]) {
            let file = SchemeFile::with(&mut random, line_fault, order_faults);
            // A blank is read as a line feed, so that it stands in no file.
            if !file.bytes.contains(&b' ') {
                let (script, answers) = script_with(&file.bytes, file.number());
                assert_written(&mut random, &script, &answers, answers.len());
                numbers.add(file.number());
                faults.add(line_fault);
            }
        }
    }
    println!("{:?}\n{:?}", numbers.0, faults.0);
    let blank = Some(LineFault::Malformed(Malformation::Blank));
    faults.assert_each(line_faults().filter(|&it| it != blank), 200);
    numbers.assert_each([0, 27], 40);
    numbers.assert_each([26], 200);
}

#[test]
fn codes_follow_the_number_of_schemes() {
    let mut random = Random::seeded(3);
    let program = b"add T,0,INT\nadd P,0,g63,0\nadd E,0,VAR,0\nadd E,1,LAM,0,0\n";
    for size in (1..=SchemeTable::MOST_SCHEMES).flat_map(|size| [size; 20]) {
        let file = accepted_file_of(&mut random, size);
        let mut script = [&schemes_command(&file)[..], b"\n", program].concat();
        for code in 0..=80 {
            script.extend(format!("redeclare 0 {code}\ninfer\n").into_bytes());
        }
        let answers = session(&script);
        assert_written(&mut random, &script, &answers, answers.len());
        // The schemes' codes begin with 1, and 64 variables' codes follow.
        let refused = lines(&answers).filter(|line| line == b"12").count();
        assert_eq!(refused, 80 - (size + 64));
    }
}

#[test]
fn commands_with_any_byte_changed_are_answered_alike() {
    let mut random = Random::seeded(4);
    let mut counts = Counts::default();
    for changed in with_any_byte(b"schemes S,AB,10000 S,C,00000") {
        let before = b"add T,0,ANY\nadd P,0,g0,0\nadd E,0,VAR,0\nadd E,1,LAM,0,0\n";
        let script = [&before[..], &changed, b"\ninfer\nadd E,0,ENC,C,1\n"].concat();
        let answers = session(&script);
        assert_written(&mut random, &script, &answers, answers.len());
        counts.add((word(&changed), number(&answer(&mut Table::fresh(), &changed))));
    }
    println!("{:?}", counts.0);
    counts.assert_each([("?", 0)], 3_000);
    counts.assert_each([("schemes", 25)], 8_000);
    counts.assert_each([("schemes", 0)], 60);
}

#[test]
fn lines_longer_than_the_longest_file_are_refused() {
    let mut random = Random::seeded(5);
    let longest = LONGEST_FILE.as_bytes();
    for file in [longest, longest.strip_suffix(b"\n").unwrap()] {
        let (script, answers) = script_with(file, 0);
        assert_written(&mut random, &script, &answers, answers.len());
    }
    for more in ["\n", "S", "0", "\r", "\0", "S,IIIII,11110\n", "\nS,IIIII,11110"] {
        for times in (1..40).chain([1_000, 100_000]) {
            let file = format!("{LONGEST_FILE}{}", more.repeat(times));
            let (script, answers) = script_with(file.as_bytes(), 25);
            assert_written(&mut random, &script, &answers, answers.len());
        }
    }
}

#[test]
fn the_file_of_the_six_changes_no_answer() {
    let mut random = Random::seeded(6);
    let mut kinds = Counts::default();
    let six = [&schemes_command(SIX_FILE)[..], b"\n"].concat();
    for _ in 0..SCRIPTS / 10 {
        let (kind, script) = random_script(&mut random);
        let under = [&six[..], &script].concat();
        for (name, entry) in ENTRIES {
            let expected = [b"0\n", &asked(entry, &script)[..]].concat();
            assert_bytes(&asked(entry, &under), &expected, &format!("{name}, {}", shown(&under)));
        }
        kinds.add(kind);
    }
    println!("{:?}", kinds.0);
    kinds.assert_each(Kind::ALL, SCRIPTS / 400);
}

#[test]
fn buffers_of_each_length_are_written_alike() {
    let mut random = Random::seeded(7);
    for _ in 0..12 {
        let (_, script) = random_script_with_files(&mut random);
        let answers = session(&script);
        let shortest = answers.len().saturating_sub(200);
        for length in (0..40.min(shortest)).chain(shortest..answers.len() + 40) {
            assert_written(&mut random, &script, &answers, length);
        }
    }
}

#[test]
fn long_scripts_are_answered_alike() {
    const LINES: usize = 10_000;
    let repeated = |line: &str| format!("{line}\n").repeat(LINES).into_bytes();
    let mut random = Random::seeded(8);
    for script in [
        repeated("schemes S,A,00000"),
        repeated("schemes "),
        repeated("schemes S,A,10000 S,B,01000\nadd E,0,NUM,1"),
        repeated("schemes S,A,00000\nadd E,0,ENC,A,1\ninfer\nschemes S,B,11111"),
        [b"schemes ".to_vec(), vec![b' '; 1_000_000]].concat(),
        [b"schemes S,".to_vec(), vec![b'A'; 1_000_000]].concat(),
    ] {
        let answers = session(&script);
        for length in [answers.len() - 1, answers.len()] {
            assert_written(&mut random, &script, &answers, length);
        }
    }
}
