//! Sessions: each command with its answer, lines that are no commands, and how a script is parted into lines.

mod common;

use common::text;
use second::session;
use second::session::{entry, scheme_file, Command};

/// Program A of document 01, and its report as the document prints it.
const PROGRAM_A: [&str; 6] =
    ["T,0,ANY", "P,0,g0,0", "E,0,VAR,0", "E,1,VAR,0", "E,2,OP,ADD,0,1", "E,3,LAM,0,2"];
const REPORT_A: &str = "OK,1,4 G,0,AH P,0,AH,INT E,0,AH,INT E,1,AH,INT E,2,AH,INT E,3,PLAIN,ARROW";

/// Lines that are no commands, though most of them are near one.
const NO_COMMANDS: [&[u8]; 105] = [
    b"", b" ", b"\r", b"\0", b"?", b"0", b"help", b"# a comment", b"T,0,ANY", b"E,4,NUM,1", b"add",
    b"Add E,4,NUM,1", b"ADD E,4,NUM,1", b" add E,4,NUM,1", b"adds E,4,NUM,1", b"ad E,4,NUM,1",
    b"add,E,4,NUM,1", b"add\tE,4,NUM,1", b"add\r", b"add\0E,4,NUM,1", b"addE,4,NUM,1",
    b"aadd E,4,NUM,1", b"redeclare", b"redeclare ", b"redeclare  ", b"redeclare 0",
    b"redeclare 0 ", b"redeclare  0", b"redeclare  0 6", b"redeclare 0  6", b" redeclare 0 6",
    b"redeclare 0 6 ", b"redeclare 0 6 6", b"redeclare 0 6\r", b"redeclare 0 6\0",
    b"redeclare 0,6", b"redeclare,0,6", b"redeclare\t0\t6", b"redeclare 0\t6", b"redeclare 00 6",
    b"redeclare 0 06", b"redeclare 0 00", b"redeclare -0 6", b"redeclare 0 -6", b"redeclare +0 6",
    b"redeclare 0 +6", b"redeclare 0 6.0", b"redeclare 0x0 6", b"redeclare 0 RAND",
    b"redeclare 0 g0", b"redeclare x 6", b"Redeclare 0 6", b"redeclare0 6", b"redeclared 0 6",
    b"take-back ", b" take-back", b"take-back\r", b"take back", b"takeback", b"Take-back",
    b"infer ", b" infer", b"infer\r", b"INFER", b"schemes", b"schemes\r", b"schemes\0",
    b"schemes\tS,A,00000", b"schemes,S,A,00000", b"schemesS,A,00000", b" schemes S,A,00000",
    b"scheme S,A,00000", b"Schemes S,A,00000", b"SCHEMES S,A,00000", b"S,A,00000", b"run", b"run ",
    b"run  ", b"run\r", b"run\0", b" run 9", b"run 9 ", b"run  9", b"run 9  21", b"run 9 21 ",
    b"run 9 21\r", b"run 9\r", b"run 9\t21", b"run\t9 21", b"run,9,21", b"run 9,21", b"run 09 21",
    b"run 9 021", b"run 9 00", b"run 9 -1", b"run 9 +1", b"run 9 1.0", b"run 9 AH", b"run x 21",
    b"run -1", b"Run 9 21", b"RUN 9 21", b"run9 21", b"runs 9 21", b"run 9 21\0",
];

/// Lines that would be commands if their numbers were not too large; cut to 32 or 64 bits some name parameter 0 or code 6.
const NUMBERS_TOO_LARGE: [&[u8]; 10] = [
    b"redeclare 4294967296 6",
    b"redeclare 0 4294967296",
    b"redeclare 0 4294967302",
    b"redeclare 18446744073709551616 6",
    b"redeclare 0 18446744073709551622",
    b"redeclare 0 100000000000000000000000000000000000000",
    b"run 4294967296 21",
    b"run 9 4294967296",
    b"run 9 4294967317",
    b"run 9 18446744073709551637",
];

/// All lines above that are no commands.
fn no_commands() -> impl Iterator<Item = &'static [u8]> {
    NO_COMMANDS.into_iter().chain(NUMBERS_TOO_LARGE)
}

/// A line of a script and what is printed of it, lines separated by white space.
type Exchange<'a> = (&'a str, &'a str);

/// The command that goes on with a fresh table of the six.
const SCHEMES_OF_THE_SIX: &str =
    "schemes S,FHE,11111 S,OP,00111 S,DET,00100 S,MH,01000 S,AH,10000 S,RAND,00000";

/// Asserts what is printed of a script; the file of the six before it changes none of its answers.
fn assert_exchanges(exchanges: &[Exchange]) {
    assert_printed(exchanges);
    assert_printed(&[&[(SCHEMES_OF_THE_SIX, "0")], exchanges].concat());
}

/// Asserts what is printed of each line of a script, and of the whole with or without its last line feed.
fn assert_printed(exchanges: &[Exchange]) {
    let (mut script, mut expected) = (vec![], vec![]);
    for (line, printed) in exchanges {
        script.extend(format!("{line}\n").into_bytes());
        expected.extend(text(printed));
        let answers = session(&script);
        assert_eq!(shown(&answers), shown(&expected), "up to the line {line}");
    }
    assert_eq!(script.pop(), Some(b'\n'));
    assert_eq!(shown(&session(&script)), shown(&expected), "without the last line feed");
}

/// Bytes in a message.
fn shown(bytes: &[u8]) -> String {
    bytes.escape_ascii().to_string()
}

/// The adds of some lines, all accepted.
fn adds<'a>(lines: &'a [String]) -> Vec<Exchange<'a>> {
    lines.iter().map(|line| (line.as_str(), "0")).collect()
}

/// The commands that add lines separated by white space.
fn commands(lines: &str) -> Vec<String> {
    lines.split_whitespace().map(|line| format!("add {line}")).collect()
}

/// Asserts what is printed after the adds of some lines, all accepted.
fn assert_after(lines: &str, exchanges: &[Exchange]) {
    assert_exchanges(&[&adds(&commands(lines)), exchanges].concat());
}

/// Asserts what is printed after a command that goes on under other schemes, and the adds of some lines, all accepted.
fn assert_under(schemes: &str, lines: &str, exchanges: &[Exchange]) {
    assert_exchanges(&[&[(schemes, "0")], &adds(&commands(lines))[..], exchanges].concat());
}

#[test]
fn an_empty_script_has_no_answer() {
    assert_eq!(session(b""), b"");
}

#[test]
fn program_a_is_added_and_inferred() {
    assert_after(&PROGRAM_A.join(" "), &[("infer", REPORT_A), ("infer", REPORT_A)]);
}

#[test]
fn each_script_starts_from_a_fresh_table() {
    for _ in 0..2 {
        assert_exchanges(&[("infer", "NO,10,0"), ("add E,0,NUM,1", "0"), ("take-back", "0")]);
    }
}

#[test]
fn each_refusal_of_an_add_has_its_number() {
    assert_exchanges(&[
        ("add T,0,INTEGER", "1"),
        ("add ", "1"),
        ("add add T,0,INT", "1"),
        ("add infer", "1"),
        ("add  T,0,INT", "1"),
        ("add T,0,INT ", "1"),
        ("add T,0,INT\r", "1"),
        ("add T,1,INT", "2"),
        ("add T,0,ARROW,AH,0,AH,0", "4"),
        ("add P,0,AH,0", "4"),
        ("add E,0,VAR,0", "5"),
        ("add T,0,INT", "0"),
        ("add P,0,AH,0,g0", "1"),
        ("add P,0,AH,0,AH,AH", "1"),
        ("add P,0,AH,0", "0"),
        ("add E,0,LAM,0,0", "6"),
        ("add E,0,VAR,0", "0"),
        ("add E,1,APP,0,0", "7"),
        ("add E,1,LAM,0,0", "0"),
        ("add E,2,APP,0,1", "7"),
        ("add E,2,LAM,0,1", "8"),
        ("infer", "OK,1,2 P,0,AH,INT E,0,AH,INT E,1,PLAIN,ARROW"),
    ]);
}

#[test]
fn words_of_a_line_are_read_in_either_case_and_commands_are_not() {
    assert_exchanges(&[
        ("add t,0,any", "1"),
        ("add T,0,any", "0"),
        ("add P,0,G0,0,ah", "1"),
        ("Add P,0,g0,0,ah", "?"),
        ("add P,0,g0,0,ah", "0"),
        ("add E,0,var,0", "0"),
        ("add E,1,Var,0", "0"),
        ("add E,2,oP,adD,0,1", "0"),
        ("add E,3,lam,0,2", "0"),
        ("infer", REPORT_A),
        ("Infer", "?"),
        ("Take-Back", "?"),
        ("take-back", "0"),
        ("ADD E,3,LAM,0,2", "?"),
        ("infer", "NO,10,0"),
        ("add E,3,LAM,0,2", "0"),
        ("infer", REPORT_A),
    ]);
}

#[test]
fn full_lists_are_refused_with_3() {
    let mut lines: Vec<String> = (0..64).map(|row| format!("T,{row},INT")).collect();
    lines.extend((0..64).map(|parameter| format!("P,{parameter},AH,0")));
    lines.extend((0..256).map(|row| format!("E,{row},NUM,1")));
    assert_after(
        &lines.join(" "),
        &[
            ("add T,64,INT", "3"),
            ("add P,64,AH,0", "3"),
            ("add E,256,NUM,1", "3"),
            ("infer", "NO,10,0"),
            ("take-back", "0"),
            ("add E,256,NUM,1", "2"),
            ("add E,255,NUM,1", "0"),
            ("add E,256,NUM,1", "3"),
        ],
    );
}

#[test]
fn a_take_back_without_a_row_is_refused_with_9() {
    assert_exchanges(&[
        ("take-back", "9"),
        ("add T,0,INT", "0"),
        ("add P,0,AH,0", "0"),
        ("take-back", "9"),
        ("add E,0,VAR,0", "0"),
        ("take-back", "0"),
        ("take-back", "9"),
        ("add E,0,VAR,0", "0"),
    ]);
}

#[test]
fn a_redeclare_is_refused_with_5_before_12() {
    assert_exchanges(&[
        ("redeclare 0 0", "5"),
        ("redeclare 0 71", "5"),
        ("add T,0,INT", "0"),
        ("add P,0,AH,0", "0"),
        ("redeclare 0 71", "12"),
        ("redeclare 0 256", "12"),
        ("redeclare 0 65536", "12"),
        ("redeclare 0 4294967295", "12"),
        ("redeclare 1 0", "5"),
        ("redeclare 1 71", "5"),
        ("redeclare 256 0", "5"),
        ("redeclare 65536 0", "5"),
        ("redeclare 4294967295 0", "5"),
        ("redeclare 4294967295 4294967295", "5"),
        ("redeclare 0 0", "0"),
        ("redeclare 0 6", "0"),
        ("redeclare 0 7", "0"),
        ("redeclare 0 70", "0"),
        ("add E,0,VAR,0", "0"),
        ("add E,1,LAM,0,0", "0"),
        ("infer", "OK,1,2 G,63,RAND P,0,RAND,INT E,0,RAND,INT E,1,PLAIN,ARROW"),
    ]);
}

#[test]
fn an_inference_is_refused_with_its_row() {
    assert_exchanges(&[("infer", "NO,10,0")]);
    assert_after("E,0,NUM,1 E,1,NUM,2", &[("infer", "NO,10,0")]);
    assert_after("E,0,NUM,1 E,1,NUM,2 E,2,APP,0,1", &[("infer", "NO,21,2")]);
    assert_after(
        "T,0,INT P,0,AH,0 P,1,MH,0 E,0,VAR,0 E,1,VAR,1 E,2,OP,ADD,0,1 E,3,LAM,1,2 E,4,LAM,0,3",
        &[("infer", "NO,22,2")],
    );
    assert_after(
        "T,0,INT P,0,RAND,0 E,0,VAR,0 E,1,VAR,0 E,2,OP,ADD,0,1 E,3,LAM,0,2",
        &[("infer", "NO,23,2")],
    );
}

#[test]
fn an_inference_goes_by_the_present_qualifiers() {
    assert_after(
        &PROGRAM_A.join(" "),
        &[
            ("infer", REPORT_A),
            // FHE supports ADD, and no variable stands in a line any more.
            ("redeclare 0 1", "0"),
            ("infer", "OK,1,4 P,0,FHE,INT E,0,FHE,INT E,1,FHE,INT E,2,FHE,INT E,3,PLAIN,ARROW"),
            // DET does not support ADD.
            ("redeclare 0 3", "0"),
            ("infer", "NO,23,2"),
            ("redeclare 0 71", "12"),
            ("infer", "NO,23,2"),
            ("redeclare 0 11", "0"),
            ("infer", "OK,1,4 G,4,AH P,0,AH,INT E,0,AH,INT E,1,AH,INT E,2,AH,INT E,3,PLAIN,ARROW"),
            ("redeclare 0 7", "0"),
            ("infer", REPORT_A),
        ],
    );
}

#[test]
fn a_floor_stays_while_its_parameter_is_redeclared() {
    let program = PROGRAM_A.join(" ").replace("P,0,g0,0", "P,0,g0,0,AH");
    let report = "OK,1,4 P,0,AH,INT E,0,AH,INT E,1,AH,INT E,2,AH,INT E,3,PLAIN,ARROW";
    assert_after(
        &program,
        &[
            ("infer", REPORT_A),
            // FHE supports ADD, but it is below AH.
            ("redeclare 0 1", "0"),
            ("infer", "NO,24,0"),
            ("infer", "NO,24,0"),
            ("redeclare 0 5", "0"),
            ("infer", report),
            ("redeclare 0 0", "0"),
            ("infer", "NO,24,0"),
            // RAND is above AH, but it does not support ADD.
            ("redeclare 0 6", "0"),
            ("infer", "NO,23,2"),
            ("redeclare 0 0", "0"),
            ("redeclare 0 71", "12"),
            ("add P,0,AH,0", "2"),
            ("infer", "NO,24,0"),
            ("take-back", "0"),
            ("infer", "NO,10,0"),
            ("add E,3,LAM,0,2", "0"),
            ("infer", "NO,24,0"),
            ("redeclare 0 7", "0"),
            ("infer", REPORT_A),
        ],
    );
}

#[test]
fn the_lowest_parameter_below_its_floor_is_named() {
    assert_after(
        "T,0,INT P,0,g0,0,DET P,1,OP,0,DET P,2,AH,0,MH E,0,NUM,1 E,1,LAM,0,0 E,2,LAM,1,1
         E,3,LAM,2,2",
        &[
            ("infer", "NO,24,1"),
            ("redeclare 1 3", "0"),
            ("infer", "NO,24,2"),
            ("redeclare 0 4", "0"),
            ("infer", "NO,24,0"),
            ("redeclare 2 6", "0"),
            ("infer", "NO,24,0"),
            ("redeclare 0 3", "0"),
            (
                "infer",
                "OK,3,4 P,0,DET,INT P,1,DET,INT P,2,RAND,INT E,0,RAND,INT E,1,PLAIN,ARROW
                 E,2,PLAIN,ARROW E,3,PLAIN,ARROW",
            ),
        ],
    );
}

#[test]
fn an_inference_goes_by_the_rows_that_are_left() {
    assert_after(
        &PROGRAM_A.join(" "),
        &[
            ("infer", REPORT_A),
            ("take-back", "0"),
            // The parameter is not bound.
            ("infer", "NO,10,0"),
            ("add E,3,LAM,0,2", "0"),
            ("infer", REPORT_A),
            ("take-back", "0"),
            ("take-back", "0"),
            ("add E,2,OP,LT,0,1", "0"),
            ("add E,3,LAM,0,2", "0"),
            (
                "infer",
                "OK,1,4 G,0,OP P,0,OP,INT E,0,OP,INT E,1,OP,INT E,2,PLAIN,INT E,3,PLAIN,ARROW",
            ),
            ("take-back", "0"),
            ("take-back", "0"),
            ("take-back", "0"),
            // Nothing is left of the comparison.
            ("add E,1,LAM,0,0", "0"),
            ("infer", "OK,1,2 G,0,RAND P,0,RAND,ANY E,0,RAND,ANY E,1,PLAIN,ARROW"),
            ("take-back", "0"),
            ("add E,1,VAR,0", "0"),
            ("add E,2,APP,0,1", "0"),
            ("add E,3,LAM,0,2", "0"),
            ("infer", "NO,21,2"),
        ],
    );
}

/// A command with two schemes: LOW supports ADD and is below HIGH, which supports nothing.
const TWO_SCHEMES: &str = "schemes S,LOW,10000 S,HIGH,00000";

/// The report of program A under the two schemes.
const REPORT_UNDER_TWO: &str =
    "OK,1,4 G,0,LOW P,0,LOW,INT E,0,LOW,INT E,1,LOW,INT E,2,LOW,INT E,3,PLAIN,ARROW";

#[test]
fn a_report_has_the_words_of_the_file() {
    assert_under(
        TWO_SCHEMES,
        &PROGRAM_A.join(" "),
        &[
            ("infer", REPORT_UNDER_TWO),
            ("redeclare 0 2", "0"),
            // HIGH does not support ADD.
            ("infer", "NO,23,2"),
            ("redeclare 0 1", "0"),
            ("infer", "OK,1,4 P,0,LOW,INT E,0,LOW,INT E,1,LOW,INT E,2,LOW,INT E,3,PLAIN,ARROW"),
            ("take-back", "0"),
            ("take-back", "0"),
            // No scheme supports MUL, so that only PLAIN is multiplied.
            ("add E,2,OP,MUL,0,1", "0"),
            ("add E,3,LAM,0,2", "0"),
            ("infer", "NO,23,2"),
            ("redeclare 0 3", "0"),
            (
                "infer",
                "OK,1,4 G,0,PLAIN P,0,PLAIN,INT E,0,PLAIN,INT E,1,PLAIN,INT E,2,PLAIN,INT
                 E,3,PLAIN,ARROW",
            ),
        ],
    );
}

#[test]
fn words_in_lines_follow_the_file() {
    assert_under(
        TWO_SCHEMES,
        "T,0,INT",
        &[
            ("add P,0,AH,0", "1"),
            ("add P,0,LOW,0,AH", "1"),
            ("add E,0,ENC,RAND,7", "1"),
            ("add E,0,ENC,PLAIN,7", "1"),
            ("add P,0,hiGH,0,low", "0"),
            ("add E,0,ENC,High,7", "0"),
            ("add E,1,LAM,0,0", "0"),
            ("infer", "OK,1,2 P,0,HIGH,INT E,0,HIGH,INT E,1,PLAIN,ARROW"),
            // PLAIN is below the floor.
            ("redeclare 0 0", "0"),
            ("infer", "NO,24,0"),
            ("redeclare 0 1", "0"),
            ("infer", "OK,1,2 P,0,LOW,INT E,0,HIGH,INT E,1,PLAIN,ARROW"),
        ],
    );
}

#[test]
fn an_accepted_file_begins_a_fresh_table() {
    let fresh = [("infer", "NO,10,0"), ("take-back", "9"), ("redeclare 0 0", "5")];
    let program = commands(&PROGRAM_A.join(" "));
    let (six, two) = ([("infer", REPORT_A)], [("infer", REPORT_UNDER_TWO)]);
    let under = |schemes, report: &[Exchange<'static>]| {
        [&[(schemes, "0")], &fresh[..], &adds(&program), report].concat()
    };
    assert_exchanges(&[adds(&program), six.to_vec(), under(TWO_SCHEMES, &two)].concat());
    assert_exchanges(
        &[
            under(TWO_SCHEMES, &two),
            under(TWO_SCHEMES, &two),
            under(SCHEMES_OF_THE_SIX, &six),
            under("schemes S,LOW,11111", &two),
        ]
        .concat(),
    );
}

/// Commands whose files are refused, each with its number.
const REFUSED_SCHEMES: [Exchange; 34] = [
    ("schemes ", "25"),
    ("schemes  ", "25"),
    // A malformed line.
    ("schemes infer", "25"),
    ("schemes S,A", "25"),
    ("schemes S,A,0000", "25"),
    ("schemes S,A,000000", "25"),
    ("schemes S,A,00002", "25"),
    ("schemes S,A,00000,", "25"),
    ("schemes S,A,00000\r", "25"),
    ("schemes S,,00000", "25"),
    ("schemes S,ABCDEF,00000", "25"),
    ("schemes S,A1,00000", "25"),
    ("schemes S,PLAIN,00000", "25"),
    ("schemes T,A,00000", "25"),
    // Small letters are read in the lines of a table alone.
    ("schemes s,A,00000", "25"),
    ("schemes S,a,00000", "25"),
    ("schemes S,low,10000 S,high,00000", "25"),
    ("schemes S,LOW,10000 S,HIGh,00000", "25"),
    // An empty line.
    ("schemes  S,A,00000", "25"),
    ("schemes S,A,00000  ", "25"),
    ("schemes S,LOW,10000  S,HIGH,00000", "25"),
    ("schemes S,LOW,10000   S,HIGH,00000", "25"),
    // A repeated name, repeated bits, nine lines.
    ("schemes S,A,00000 S,A,10000", "25"),
    ("schemes S,A,10000 S,B,10000", "25"),
    (
        "schemes S,A,00000 S,B,10000 S,C,01000 S,D,00100 S,E,11000 S,F,10100 S,H,01100 S,I,11100 \
         S,J,11110",
        "25",
    ),
    // Lines count before the order of the schemes.
    ("schemes S,A,10000 S,B,01000 S,C,0", "25"),
    ("schemes S,A,00000 S,B,10001 S,C,01001 S,C,11111", "25"),
    // No greatest scheme.
    ("schemes S,A,10000 S,B,01000", "26"),
    ("schemes S,A,11110 S,B,01111 S,C,11111", "26"),
    // Both C and D are below A and B, and neither is below the other.
    ("schemes S,Z,00000 S,A,10000 S,B,01000 S,C,11100 S,D,11010", "26"),
    // The order counts before the operations: two schemes support GT here, and none is the greatest.
    ("schemes S,A,10001 S,B,01001", "26"),
    // A and B support GT, and neither is below the other.
    ("schemes S,Z,00000 S,A,10001 S,B,01001", "27"),
    ("schemes S,Z,00000 S,A,10001 S,B,01001 ", "27"),
    ("schemes S,A,10001 S,Z,00000 S,B,01001 S,C,11111", "27"),
];

#[test]
fn a_refused_file_changes_neither_the_table_nor_its_schemes() {
    for refused in REFUSED_SCHEMES {
        assert_exchanges(&[refused, ("infer", "NO,10,0"), refused]);
        assert_after(
            &PROGRAM_A.join(" "),
            &[
                refused,
                ("infer", REPORT_A),
                ("redeclare 0 70", "0"),
                refused,
                ("redeclare 0 71", "12"),
                ("take-back", "0"),
                ("add E,3,LAM,0,2", "0"),
                (
                    "infer",
                    "OK,1,4 G,63,AH P,0,AH,INT E,0,AH,INT E,1,AH,INT E,2,AH,INT E,3,PLAIN,ARROW",
                ),
            ],
        );
        assert_under(
            TWO_SCHEMES,
            &PROGRAM_A.join(" "),
            &[
                refused,
                ("infer", REPORT_UNDER_TWO),
                ("redeclare 0 67", "12"),
                ("add P,1,AH,0", "1"),
                ("add P,1,LOW,0", "0"),
            ],
        );
    }
}

#[test]
fn a_blank_at_the_end_is_the_last_line_feed() {
    let with_blank = format!("{TWO_SCHEMES} ");
    assert_under(&with_blank, &PROGRAM_A.join(" "), &[("infer", REPORT_UNDER_TWO)]);
    let with_two = format!("{TWO_SCHEMES}  ");
    assert_exchanges(&[(&with_two, "25"), ("add T,0,INT", "0"), ("add P,0,AH,0", "0")]);
}

#[test]
fn the_longest_file_has_112_bytes() {
    let bits = ["00000", "10000", "01000", "00100", "11000", "10100", "01100", "11100"];
    let names = ["AAAAA", "BBBBB", "CCCCC", "DDDDD", "EEEEE", "FFFFF", "GGGGG", "HHHHH"];
    let lines: String = names.iter().zip(bits).map(|it| format!("S,{},{} ", it.0, it.1)).collect();
    assert_eq!(lines.len(), 112);
    let longest = format!("schemes {lines}");
    assert_under(&longest, "E,0,NUM,1", &[("infer", "OK,0,1 E,0,AAAAA,INT")]);
    for more in [" ", "  ", "S", "S,IIIII,11110", "S,IIIII,11110 ", "\r", "0"] {
        assert_exchanges(&[(&format!("{longest}{more}"), "25"), ("add E,0,ENC,AH,1", "0")]);
    }
}

#[test]
fn any_byte_but_a_blank_behind_a_scheme_file_is_refused() {
    for byte in (0..=255).filter(|&byte| byte != b'\n') {
        let behind = [b"schemes S,A,00000".as_slice(), &[byte]].concat();
        let expected = if byte == b' ' { "0\\n" } else { "25\\n" };
        assert_eq!(shown(&session(&behind)), expected, "for {byte}");
        let alone = [b"schemes ".as_slice(), &[byte]].concat();
        assert_eq!(shown(&session(&alone)), "25\\n", "for {byte}");
    }
}

/// The command with eight schemes, the greatest of them last.
const EIGHT_SCHEMES: &str = "schemes S,A,11100 S,B,10000 S,C,01000 S,D,00100 S,E,11000 S,F,10100 \
                             S,G,01100 S,H,00000";

#[test]
fn codes_follow_the_file() {
    // The greatest scheme is the last one, with its code; then come the variables' codes, which are 64.
    for (schemes, word, scheme, first, last, above) in [
        ("schemes S,ONE,11111", "ONE", 1, 2, 65, 66),
        (TWO_SCHEMES, "HIGH", 2, 3, 66, 67),
        (SCHEMES_OF_THE_SIX, "RAND", 6, 7, 70, 71),
        (EIGHT_SCHEMES, "H", 8, 9, 72, 73),
    ] {
        let report = |variable: &str, word: &str| {
            format!("OK,1,2 {variable} P,0,{word},INT E,0,{word},INT E,1,PLAIN,ARROW")
        };
        let named = |variable: u32| report(&format!("G,{variable},{word}"), word);
        let redeclare = |code: u32| format!("redeclare 0 {code}");
        assert_under(
            schemes,
            "T,0,INT P,0,g5,0 E,0,VAR,0 E,1,LAM,0,0",
            &[
                (&redeclare(above), "12"),
                ("infer", &named(5)),
                (&redeclare(0), "0"),
                ("infer", &report("", "PLAIN")),
                (&redeclare(scheme), "0"),
                ("infer", &report("", word)),
                (&redeclare(first), "0"),
                ("infer", &named(0)),
                (&redeclare(last), "0"),
                ("infer", &named(63)),
                (&redeclare(above), "12"),
                ("infer", &named(63)),
                ("redeclare 0 4294967295", "12"),
                ("redeclare 1 0", "5"),
            ],
        );
    }
}

#[test]
fn a_line_that_is_no_command_prints_a_question_mark() {
    for line in no_commands() {
        assert_eq!(Command::read(line), None, "for the line {}", shown(line));
        let script = [line, b"\n"].concat();
        assert_eq!(shown(&session(&script)), "?\\n", "for the line {}", shown(line));
    }
}

#[test]
fn a_line_that_is_no_command_changes_nothing() {
    for line in no_commands() {
        let (mut script, mut expected) = (vec![], vec![]);
        for added in PROGRAM_A {
            script.extend([line, b"\nadd ", added.as_bytes(), b"\n"].concat());
            expected.extend(b"?\n0\n");
        }
        script.extend([b"infer\n", line, b"\ninfer\n"].concat());
        expected.extend([text(REPORT_A), b"?\n".to_vec(), text(REPORT_A)].concat());
        assert_eq!(shown(&session(&script)), shown(&expected), "for the line {}", shown(line));
    }
}

#[test]
fn commands_are_read() {
    assert_eq!(Command::read(b"add "), Some(Command::Add(b"")));
    assert_eq!(Command::read(b"add  "), Some(Command::Add(b" ")));
    assert_eq!(Command::read(b"add T,0,INT\r"), Some(Command::Add(b"T,0,INT\r")));
    assert_eq!(Command::read(b"redeclare 0 0"), Some(Command::Redeclare(0, 0)));
    assert_eq!(Command::read(b"redeclare 10 70"), Some(Command::Redeclare(10, 70)));
    assert_eq!(
        Command::read(b"redeclare 4294967295 4294967295"),
        Some(Command::Redeclare(4_294_967_295, 4_294_967_295))
    );
    assert_eq!(Command::read(b"take-back"), Some(Command::TakeBack));
    assert_eq!(Command::read(b"infer"), Some(Command::Infer));
    assert_eq!(Command::read(b"schemes "), Some(Command::Schemes(b"")));
    assert_eq!(Command::read(b"schemes  "), Some(Command::Schemes(b" ")));
    assert_eq!(Command::read(b"schemes infer"), Some(Command::Schemes(b"infer")));
    assert_eq!(Command::read(b"schemes S,A,1 S,B,0 "), Some(Command::Schemes(b"S,A,1 S,B,0 ")));
}

#[test]
fn a_blank_in_a_scheme_file_stands_for_a_line_feed() {
    assert_eq!(scheme_file(b""), b"");
    assert_eq!(scheme_file(b" "), b"\n");
    assert_eq!(scheme_file(b"S,A,1 S,B,0"), b"S,A,1\nS,B,0");
    assert_eq!(scheme_file(b"  S,A,1\r\t\0 "), b"\n\nS,A,1\r\t\0\n");
}

#[test]
fn an_added_line_may_have_any_bytes() {
    for byte in (0..=255).filter(|&byte| byte != b'\n') {
        assert_eq!(shown(&session(&[b'a', b'd', b'd', b' ', byte])), "1\\n", "for {byte}");
        let mut script = b"add E,0,NUM,1".to_vec();
        script.extend([byte, b'\n']);
        // A second digit makes another number.
        let expected = if byte.is_ascii_digit() { "0\\n" } else { "1\\n" };
        assert_eq!(shown(&session(&script)), expected, "for {byte}");
    }
    let all: Vec<u8> = (0..=255).filter(|&byte| byte != b'\n').collect();
    assert_eq!(shown(&session(&[b"add ", &all[..]].concat())), "1\\n");
    // A line feed ends the line.
    assert_eq!(shown(&session(b"add E,0,NUM,1\n7\n")), "0\\n?\\n");
}

#[test]
fn lines_may_be_long() {
    let million = |byte| vec![byte; 1_000_000];
    let added = [b"add ".to_vec(), million(b'1')].concat();
    let redeclared = [b"redeclare 0 ".to_vec(), million(b'0')].concat();
    let inferred = [b"infer".to_vec(), million(b' ')].concat();
    let named = [b"schemes S,".to_vec(), million(b'A'), b",00000".to_vec()].concat();
    let blank = [b"schemes S,A,00000".to_vec(), million(b' ')].concat();
    let last = b"add E,0,NUM,1".to_vec();
    let script = [added, redeclared, inferred, named, blank, million(0), last].join(&b'\n');
    assert_eq!(shown(&session(&script)), "1\\n?\\n?\\n25\\n25\\n?\\n0\\n");
}

#[test]
fn lines_are_parted_at_line_feeds() {
    assert_eq!(shown(&session(b"\n")), "?\\n");
    assert_eq!(shown(&session(b"\n\n")), "?\\n?\\n");
    assert_eq!(shown(&session(b"\ninfer")), "?\\nNO,10,0\\n");
    assert_eq!(shown(&session(b"infer\n\n")), "NO,10,0\\n?\\n");
    assert_eq!(shown(&session(b"infer")), "NO,10,0\\n");
    assert_eq!(shown(&session(b"infe")), "?\\n");
    assert_eq!(shown(&session(b"add ")), "1\\n");
    assert_eq!(shown(&session(b"add")), "?\\n");
    assert_eq!(shown(&session(b"infer\r\ntake-back\r\n")), "?\\n?\\n");
    assert_eq!(shown(&session(b"take-back\rinfer\n")), "?\\n");
}

#[test]
fn the_entry_writes_where_there_is_room_for_all_answers() {
    let script = b"add E,0,NUM,1\ninfer\nhelp";
    let answers = b"0\nOK,0,1\nE,0,RAND,INT\n?\n";
    for length in 0..=answers.len() + 2 {
        let mut buffer = vec![7; length];
        assert_eq!(entry(script, &mut buffer), 24);
        let mut expected = vec![7; length];
        if length >= 24 {
            expected[..24].copy_from_slice(answers);
        }
        assert_eq!(shown(&buffer), shown(&expected), "for a buffer of {length}");
    }
    assert_eq!(entry(b"", &mut []), 0);
}

#[test]
fn a_run_prints_how_it_ended() {
    assert_after(
        &PROGRAM_A.join(" "),
        &[
            ("run 2 21", "NUMBER,42,AH,1,1"),
            ("run 1 21", "NO,30,1,0"),
            ("run 0 21", "NO,30,0,0"),
            ("run 4294967295 21", "NUMBER,42,AH,1,1"),
            ("run 9 2147483647", "NUMBER,4294967294,AH,1,1"),
            ("run 9 2147483648", "NO,29,1,0"),
            ("run 9 4294967295", "NO,29,1,0"),
            ("run 9 0", "NUMBER,0,AH,1,1"),
            ("run 9", "NO,28,0,0"),
            ("run 9 21 21", "NO,28,0,0"),
            // A run changes nothing, and what the other commands change is seen.
            ("infer", REPORT_A),
            ("redeclare 0 1", "0"),
            ("run 9 21", "NUMBER,42,FHE,1,1"),
            ("redeclare 0 0", "0"),
            ("run 9 21", "NUMBER,42,PLAIN,1,1"),
            ("redeclare 0 3", "0"),
            ("run 9 21", "NO,28,0,0"),
            ("redeclare 0 7", "0"),
            ("take-back", "0"),
            ("run 9 21", "NO,28,0,0"),
            ("add E,3,LAM,0,2", "0"),
            ("run 9 21", "NUMBER,42,AH,1,1"),
        ],
    );
    assert_exchanges(&[
        ("run 9", "NO,28,0,0"),
        ("add E,0,NUM,7", "0"),
        ("run 0", "NUMBER,7,RAND,0,0"),
        ("run 0 7", "NO,28,0,0"),
    ]);
}

#[test]
fn a_run_can_end_with_a_function() {
    assert_after(
        "T,0,ANY T,1,ANY P,0,g0,0 P,1,g1,1 E,0,VAR,0 E,1,LAM,1,0 E,2,LAM,0,1 E,3,NUM,1 E,4,APP,2,3",
        &[("run 1", "FUNCTION,1,0"), ("run 0", "NO,30,0,0"), ("run 1 1", "NO,28,0,0")],
    );
}

#[test]
fn a_run_has_the_words_of_the_file() {
    assert_under(
        "schemes S,BFV,11000 S,ORE,00111 S,GCM,00000 S,PAIL,10000 S,SIV,00100",
        &PROGRAM_A.join(" "),
        &[
            ("run 9 21", "NUMBER,42,PAIL,1,1"),
            ("redeclare 0 1", "0"),
            ("run 9 21", "NUMBER,42,BFV,1,1"),
            // The table is a fresh one then, and a refused file leaves it.
            ("schemes S,R,00000", "0"),
            ("run 9", "NO,28,0,0"),
            ("add E,0,NUM,7", "0"),
            ("schemes S,R,00001 S,Q,10000", "26"),
            ("run 9", "NUMBER,7,R,0,0"),
        ],
    );
}

#[test]
fn sixty_five_numbers_of_a_run_are_looked_at() {
    let run = |count: usize, behind: &str| format!("run 100{}{behind}", " 1".repeat(count));
    let answer = |line: &str| {
        let mut script: Vec<u8> = b"add T,0,INT\nadd E,0,NUM,5\n".to_vec();
        for own in 0..64 {
            script.extend(format!("add P,{own},g0,0\nadd E,{},LAM,{own},{own}\n", own + 1).bytes());
        }
        let before = session(&script).len();
        script.extend(format!("{line}\n").bytes());
        shown(&session(&script)[before..])
    };
    assert_eq!(answer(&run(64, "")), "NUMBER,5,RAND,64,0\\n");
    let wrong_count = "NO,28,0,0\\n";
    for line in [run(0, ""), run(63, ""), run(65, ""), run(66, ""), run(1_000, "")] {
        assert_eq!(answer(&line), wrong_count);
    }
    // What stands after the blank that follows the 65th number is not looked at.
    for behind in [" ", "  ", " x", " 4294967296", " 01", " 1 x", " \r"] {
        assert_eq!(answer(&run(65, behind)), wrong_count);
        assert_eq!(answer(&run(64, behind)) == wrong_count, behind == " 1 x");
    }
    for behind in ["x", ",", "\r", "9999999999"] {
        assert_eq!(answer(&run(65, behind)), "?\\n");
        assert_eq!(answer(&run(64, behind)), "?\\n");
    }
    // With 64 numbers more than a blank must follow, and the next must be a number.
    assert_eq!(answer(&run(64, " ")), "?\\n");
}

#[test]
fn a_run_is_read() {
    assert_eq!(Command::read(b"run 7"), Some(Command::Run(7, vec![])));
    assert_eq!(Command::read(b"run 0 4294967295 0"), Some(Command::Run(0, vec![u32::MAX, 0])));
    let many = format!("run 4294967295{}", " 3".repeat(80));
    assert_eq!(Command::read(many.as_bytes()), Some(Command::Run(u32::MAX, vec![3; 65])));
}
