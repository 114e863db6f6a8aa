//! The proved table and the reference table give the same answers and hold the same entries.

use compare::calls::{filling_lines, fitting_calls, program_calls, Call, LONGEST_LINE};
use compare::run_calls;
use compare::script::{entries, script, sizes, ALL_ENTRIES_BYTES, CALL_BYTES, ENTRY_BYTES};
use compare::words::WordCounts;
use second::generate::Random;
use second::Table;
use std::io::Write;
use std::time::{Duration, Instant};

/// How many lists of calls each kind of short lists has.
const SHORT_LISTS: usize = 20_000;

/// The numbers that the calls return: 0 and the refusals.
const ANSWERS: [usize; 11] = [0, 1, 2, 3, 4, 5, 6, 7, 8, 9, 12];

/// What stands in the buffers before a call: a number that no call returns, and a byte.
const NUMBER_BEFORE: u16 = 0xA55A;
const BYTE_BEFORE: u8 = 0xA5;

/// What a run of calls gives.
#[derive(Debug, PartialEq, Eq)]
struct Outcome {
    numbers: Vec<u16>,
    sizes: u64,
    entries: Vec<u8>,
}

/// What the proved table gives; the buffers have room for more, which must stay as it was.
fn proved(script: &[u8]) -> Outcome {
    let calls = script.len() / CALL_BYTES;
    let mut numbers = vec![NUMBER_BEFORE; calls + 2];
    let mut entries = vec![BYTE_BEFORE; ALL_ENTRIES_BYTES + 3];
    let sizes = run_calls(script, &mut numbers, &mut entries);
    assert_eq!(numbers.split_off(calls), [NUMBER_BEFORE; 2]);
    assert_eq!(entries.split_off(ALL_ENTRIES_BYTES), [BYTE_BEFORE; 3]);
    Outcome { numbers, sizes, entries }
}

/// What the reference table gives.
fn reference(calls: &[Call]) -> Outcome {
    let mut table = Table::fresh();
    let numbers = calls.iter().map(|call| call.apply(&mut table) as u16).collect();
    Outcome { numbers, sizes: sizes(&table), entries: entries(&table) }
}

/// Compares the two outcomes part by part, so that a failure names what differs.
fn assert_same(proved: &Outcome, reference: &Outcome, calls: &[Call]) {
    for (position, call) in calls.iter().enumerate() {
        let (one, other) = (proved.numbers[position], reference.numbers[position]);
        assert_eq!(one, other, "for call {position}, {call:?}, of {calls:?}");
    }
    assert_eq!(proved.sizes, reference.sizes, "after {calls:?}");
    let rows = |outcome: &Outcome| -> Vec<Vec<u8>> {
        outcome.entries.chunks(ENTRY_BYTES).map(<[u8]>::to_vec).collect()
    };
    for (number, (one, other)) in rows(proved).iter().zip(&rows(reference)).enumerate() {
        assert_eq!(one, other, "for entry {number} after {calls:?}");
    }
    assert_eq!(proved, reference, "after {calls:?}");
}

/// What occurred in many comparisons.
#[derive(Default)]
struct Tally {
    /// How often each number was returned.
    numbers: [usize; 13],
    /// How often a parameter had each floor after the last call.
    floors: [usize; 7],
    /// The words of lines that were added.
    words: WordCounts,
}

impl Tally {
    /// Compares the two tables on a list of calls and counts what the calls return.
    fn compare(&mut self, random: &mut Random, calls: &[Call]) {
        let expected = reference(calls);
        assert_same(&proved(&script(random, calls)), &expected, calls);
        for (&number, call) in expected.numbers.iter().zip(calls) {
            self.numbers[usize::from(number)] += 1;
            if let (0, Call::Add(line)) = (number, call) {
                self.words.take(line);
            }
        }
        for floor in floors(&expected) {
            self.floors[usize::from(floor)] += 1;
        }
    }

    /// Asserts that each of these numbers was returned so often.
    fn assert_each(&self, answers: &[usize], fewest: usize) {
        for &answer in answers {
            let count = self.numbers[answer];
            assert!(count >= fewest, "{answer} was returned {count} times only");
        }
    }

    /// Asserts that parameters had each floor so often.
    fn assert_each_floor(&self, fewest: usize) {
        assert!(self.floors.iter().all(|&count| count >= fewest), "{:?}", self.floors);
    }
}

/// The floors of the parameters that stand.
fn floors(outcome: &Outcome) -> impl Iterator<Item = u8> + '_ {
    let all = outcome.entries.chunks(ENTRY_BYTES);
    let params = all.skip(Table::TYPE_LIMIT).take(Table::PARAMETER_LIMIT);
    params.filter(|bytes| bytes[0] == 1).map(|bytes| bytes[4])
}

/// The adds of some lines, separated by white space.
fn adds(lines: &str) -> Vec<Call> {
    lines.split_whitespace().map(|line| Call::Add(line.into())).collect()
}

/// Asserts that one entry after these lines has these bytes in both tables.
fn assert_entry(lines: &str, number: usize, expected: [u8; ENTRY_BYTES]) {
    let calls = adds(lines);
    let place = number * ENTRY_BYTES..(number + 1) * ENTRY_BYTES;
    let proved = proved(&script(&mut Random::seeded(0), &calls));
    assert_eq!(proved.entries[place.clone()], expected, "after {lines}");
    assert_eq!(reference(&calls).entries[place], expected, "after {lines}");
}

#[test]
fn each_entry_has_its_bytes() {
    let types = "T,0,INT T,1,ANY T,2,ARROW,RAND,0,g63,1";
    assert_entry(types, 0, [1, 0, 0, 0, 0, 0, 0, 0, 0, 0]);
    assert_entry(types, 1, [2, 0, 0, 0, 0, 0, 0, 0, 0, 0]);
    assert_entry(types, 2, [3, 6, 0, 0, 70, 1, 0, 0, 0, 0]);
    assert_entry(types, 3, [0; ENTRY_BYTES]);
    let params = "T,0,INT T,1,ANY P,0,g0,1 P,1,AH,0,PLAIN P,2,g63,1,RAND P,3,FHE,0,MH";
    assert_entry(params, 64, [1, 7, 1, 0, 0, 0, 0, 0, 0, 0]);
    assert_entry(params, 65, [1, 5, 0, 0, 0, 0, 0, 0, 0, 0]);
    assert_entry(params, 66, [1, 70, 1, 0, 6, 0, 0, 0, 0, 0]);
    assert_entry(params, 67, [1, 1, 0, 0, 4, 0, 0, 0, 0, 0]);
    let small = "T,0,int T,1,arrow,rand,0,g63,0 P,0,fhe,1,mh E,0,enc,op,7 E,1,num,7 E,2,op,gt,0,1";
    assert_entry(small, 1, [3, 6, 0, 0, 70, 0, 0, 0, 0, 0]);
    assert_entry(small, 64, [1, 1, 1, 0, 4, 0, 0, 0, 0, 0]);
    assert_entry(small, 128, [6, 2, 7, 0, 0, 0, 0, 0, 0, 0]);
    assert_entry(small, 130, [3, 4, 0, 0, 1, 0, 0, 0, 0, 0]);
    let terms = "T,0,INT P,0,AH,0 E,0,VAR,0 E,1,LAM,0,0 E,2,NUM,67305985 E,3,ENC,MH,4294967295 \
                 E,4,OP,GT,2,3 E,5,APP,1,4";
    assert_entry(terms, 128, [4, 0, 0, 0, 0, 0, 0, 0, 0, 0]);
    assert_entry(terms, 129, [1, 0, 0, 0, 0, 0, 0, 0, 0, 0]);
    assert_entry(terms, 130, [5, 0, 1, 2, 3, 4, 0, 0, 0, 0]);
    assert_entry(terms, 131, [6, 4, 255, 255, 255, 255, 0, 0, 0, 0]);
    assert_entry(terms, 132, [3, 4, 2, 0, 3, 0, 0, 0, 0, 0]);
    assert_entry(terms, 133, [2, 0, 1, 0, 4, 0, 0, 0, 0, 0]);
}

#[test]
fn calls_that_build_programs_are_answered_alike() {
    let mut random = Random::seeded(1);
    let mut tally = Tally::default();
    for _ in 0..SHORT_LISTS {
        let rows = random.between(1, 40);
        let calls = program_calls(&mut random, rows);
        tally.compare(&mut random, &calls);
    }
    tally.assert_each(&[0, 1, 2, 4, 5, 6, 7, 8, 12], 500);
    tally.assert_each_floor(1_000);
    println!("{:?}", tally.words);
    tally.words.assert_each(SHORT_LISTS / 400);
}

#[test]
fn calls_that_build_long_programs_are_answered_alike() {
    let mut random = Random::seeded(2);
    let mut tally = Tally::default();
    for _ in 0..500 {
        let rows = random.between(200, 256);
        let calls = program_calls(&mut random, rows);
        tally.compare(&mut random, &calls);
    }
    tally.assert_each(&[0, 1, 2, 4, 5, 6, 7, 8, 12], 100);
}

#[test]
fn calls_that_nearly_fit_are_answered_alike() {
    let mut random = Random::seeded(3);
    let mut tally = Tally::default();
    for _ in 0..SHORT_LISTS {
        let count = random.between(1, 80);
        let calls = fitting_calls(&mut random, count);
        tally.compare(&mut random, &calls);
    }
    tally.assert_each(&[0, 1, 2, 4, 5, 6, 7, 8, 9, 12], 500);
    tally.assert_each_floor(1_000);
    println!("{:?}", tally.words);
    tally.words.assert_each(SHORT_LISTS / 100);
}

#[test]
fn calls_on_full_tables_are_answered_alike() {
    let mut random = Random::seeded(4);
    let mut tally = Tally::default();
    let mut full = 0;
    for _ in 0..300 {
        let calls = fitting_calls(&mut random, 1_500);
        tally.compare(&mut random, &calls);
        let largest = 64 + (64 << 8) + (256 << 16);
        full += usize::from(reference(&calls).sizes == largest);
    }
    tally.assert_each(&ANSWERS, 100);
    assert!(full >= 30, "{full} tables were full only");
}

#[test]
fn entries_after_each_call_are_alike() {
    let mut random = Random::seeded(5);
    for _ in 0..60 {
        let calls = fitting_calls(&mut random, 150);
        let script = script(&mut random, &calls);
        for count in 0..=calls.len() {
            let proved = proved(&script[..count * CALL_BYTES]);
            assert_same(&proved, &reference(&calls[..count]), &calls[..count]);
        }
    }
}

#[test]
fn each_first_byte_of_a_call_is_answered_alike() {
    let mut random = Random::seeded(6);
    for byte in 0..=255 {
        let mut calls = adds("T,0,INT P,0,AH,0 E,0,VAR,0");
        let mut script = script(&mut random, &calls);
        script.extend([byte; CALL_BYTES]);
        calls.push(match byte {
            0 => Call::Add(vec![]),
            1 => Call::Redeclare(0x0101_0101, 0x0101_0101),
            _ => Call::TakeBack,
        });
        assert_same(&proved(&script), &reference(&calls), &calls);
    }
}

#[test]
fn each_length_of_a_line_is_answered_alike() {
    for length in 0..=255 {
        let mut script = [b','; CALL_BYTES];
        script[..2].copy_from_slice(&[0, length]);
        script[2..11].copy_from_slice(b"E,0,NUM,1");
        // A call has room for 70 bytes of a line only.
        let line = &script[2..2 + usize::from(length).min(LONGEST_LINE)];
        let calls = [Call::Add(line.to_vec())];
        assert_same(&proved(&script), &reference(&calls), &calls);
    }
}

#[test]
fn each_redeclaration_is_answered_alike() {
    let mut random = Random::seeded(7);
    let mut tally = Tally::default();
    let limits = [255, 256, 65_535, 65_536, 65_537, 16_777_216, u32::MAX - 1, u32::MAX];
    for parameter in (0..70).chain(limits) {
        for code in (0..80).chain(limits) {
            let mut calls = adds("T,0,INT P,0,AH,0,DET P,1,g3,0 P,2,RAND,0,RAND");
            calls.push(Call::Redeclare(parameter, code));
            tally.compare(&mut random, &calls);
        }
    }
    tally.assert_each(&[0, 5, 12], 20);
    // No floor but those of the lines: PLAIN, DET and RAND.
    assert_eq!(tally.floors.map(|count| count > 0), [true, false, false, true, false, false, true]);
}

#[test]
fn calls_without_room_for_their_numbers_are_not_made() {
    let mut random = Random::seeded(8);
    for _ in 0..500 {
        let calls = fitting_calls(&mut random, 40);
        let script = script(&mut random, &calls);
        let room = random.between(0, calls.len());
        let mut numbers = vec![NUMBER_BEFORE; room];
        let mut entries = vec![BYTE_BEFORE; ALL_ENTRIES_BYTES];
        let sizes = run_calls(&script, &mut numbers, &mut entries);
        let made = &calls[..room];
        assert_same(&Outcome { numbers, sizes, entries }, &reference(made), made);
    }
}

#[test]
fn bytes_after_the_last_call_are_not_read() {
    let mut random = Random::seeded(9);
    for rest in 0..CALL_BYTES {
        let calls = fitting_calls(&mut random, 40);
        let mut script = script(&mut random, &calls);
        script.extend((0..rest).map(|_| random.number() as u8));
        assert_same(&proved(&script), &reference(&calls), &calls);
    }
}

#[test]
fn entries_without_room_for_all_are_not_written() {
    let mut random = Random::seeded(10);
    for room in [0, 1, 9, 10, 640, 1_280, ALL_ENTRIES_BYTES - 10, ALL_ENTRIES_BYTES - 1] {
        let calls = fitting_calls(&mut random, 40);
        let script = script(&mut random, &calls);
        let mut numbers = vec![NUMBER_BEFORE; calls.len()];
        let mut entries = vec![BYTE_BEFORE; room];
        let sizes = run_calls(&script, &mut numbers, &mut entries);
        let expected = reference(&calls);
        assert_eq!((numbers, sizes), (expected.numbers, expected.sizes));
        assert!(entries.iter().all(|&byte| byte == BYTE_BEFORE));
    }
}

#[test]
fn a_table_is_filled_in_well_under_a_millisecond() {
    let calls: Vec<Call> = filling_lines().map(|line| Call::Add(line.into_bytes())).collect();
    let script = script(&mut Random::seeded(0), &calls);
    let mut numbers = vec![0; calls.len()];
    let mut entries = vec![0; ALL_ENTRIES_BYTES];
    let mut shortest = Duration::MAX;
    for _ in 0..200 {
        let start = Instant::now();
        run_calls(&script, &mut numbers, &mut entries);
        shortest = shortest.min(start.elapsed());
    }
    assert!(numbers.iter().all(|&number| number == 0));
    // Written past the test's capture, so that every run of the tests shows it.
    writeln!(std::io::stdout(), "{} adds: {shortest:?}", calls.len()).unwrap();
    assert!(shortest < Duration::from_millis(1), "{} adds took {shortest:?}", calls.len());
}
