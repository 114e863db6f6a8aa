//! The proved reader, fed byte by byte, answers after each byte as the second reader does for the bytes so far as a whole field.

use compare::number_answers;
use second::generate::{any_bytes, Random};
use second::line::number;

/// Upper ends: those of variables, rows and literals, those that later files have, and the least and the largest.
const UPPER_ENDS: [u32; 8] = [0, 9, 63, 1_023, 65_535, 1_000_000, u32::MAX - 1, u32::MAX];

/// How many byte strings each kind of generated ones has.
const GENERATED: usize = 50_000;

/// What the export writes where there is no number.
const NONE: u64 = 1 << 32;

/// What stands in a buffer before a call; no answer is that large.
const BEFORE: u64 = u64::MAX;

/// For each upper end how many fronts were numbers, and how many were none.
#[derive(Default)]
struct Tally([[usize; 2]; UPPER_ENDS.len()]);

impl Tally {
    /// Compares the answers for each front of the bytes, under each upper end.
    fn compare(&mut self, bytes: &[u8]) {
        let fronts: Vec<Option<u32>> = (0..=bytes.len()).map(|n| number(&bytes[..n])).collect();
        for (counts, most) in self.0.iter_mut().zip(UPPER_ENDS) {
            let expected: Vec<Option<u32>> =
                fronts.iter().map(|front| front.filter(|&number| number <= most)).collect();
            let answers = proved(bytes, most);
            assert_eq!(answers, expected, "for {} up to {most}", bytes.escape_ascii());
            let numbers = expected.iter().flatten().count();
            counts[0] += numbers;
            counts[1] += expected.len() - numbers;
        }
    }

    /// Asks for a value by its digits, which is the number itself where it is small enough, and compares
    /// the digits behind and before zeros and other bytes.
    fn compare_value(&mut self, value: u128) {
        let digits = value.to_string();
        for most in UPPER_ENDS {
            let whole = u32::try_from(value).ok().filter(|&number| number <= most);
            assert_eq!(
                proved(digits.as_bytes(), most).last(),
                Some(&whole),
                "{value} up to {most}"
            );
        }
        for text in [format!("0{digits}"), format!("00{digits}"), format!("{digits}00")] {
            self.compare(text.as_bytes());
        }
        for other in [b'/', b':', b',', b' ', b'-', b'g', 0, 255] {
            self.compare(&[&[other], digits.as_bytes()].concat());
            self.compare(&[digits.as_bytes(), &[other], digits.as_bytes()].concat());
        }
    }

    /// Asserts that under each upper end so many fronts were numbers, and so many none.
    fn assert_each(&self, fewest: usize) {
        for (counts, most) in self.0.iter().zip(UPPER_ENDS) {
            assert!(counts.iter().all(|&count| count >= fewest), "{counts:?} up to {most}");
        }
    }
}

/// The proved reader's answers before the first byte and after each; what follows them must stay as it was.
fn proved(bytes: &[u8], most: u32) -> Vec<Option<u32>> {
    let mut buffer = vec![BEFORE; bytes.len() + 2];
    assert_eq!(number_answers(bytes, most, &mut buffer), bytes.len() + 1);
    assert_eq!(buffer.pop(), Some(BEFORE));
    buffer.into_iter().map(decoded).collect()
}

/// An answer as a number, if it is one.
fn decoded(answer: u64) -> Option<u32> {
    (answer != NONE).then(|| u32::try_from(answer).expect("an answer is a number or none"))
}

/// 1 to 40 digits, of which the first may be 0.
fn random_digits(random: &mut Random) -> Vec<u8> {
    let length = random.between(1, 40);
    (0..length).map(|_| b'0' + random.below(10) as u8).collect()
}

/// All strings of so many of these bytes.
fn strings(bytes: &[u8], length: u32) -> impl Iterator<Item = Vec<u8>> + '_ {
    let count = bytes.len();
    (0..count.pow(length)).map(move |mut code| {
        let mut string = Vec::new();
        for _ in 0..length {
            string.push(bytes[code % count]);
            code /= count;
        }
        string
    })
}

#[test]
fn no_byte_is_no_number() {
    for most in UPPER_ENDS {
        assert_eq!(proved(b"", most), [None]);
    }
}

#[test]
fn each_pair_of_bytes_is_read_alike() {
    let mut tally = Tally::default();
    let all: Vec<u8> = (0..=255).collect();
    for pair in strings(&all, 2) {
        tally.compare(&pair);
    }
    tally.assert_each(1);
}

#[test]
fn each_byte_at_each_place_is_read_alike() {
    let mut tally = Tally::default();
    for number in ["0", "63", "65535", "1000000", "4294967295", "18446744073709551616"] {
        for place in 0..number.len() {
            for byte in 0..=255 {
                let mut bytes = number.as_bytes().to_vec();
                bytes[place] = byte;
                tally.compare(&bytes);
            }
        }
    }
    tally.assert_each(5);
}

#[test]
fn strings_of_a_few_bytes_are_read_alike() {
    let mut tally = Tally::default();
    for length in 0..=6 {
        for string in strings(b"0/19:,", length) {
            tally.compare(&string);
        }
    }
    tally.assert_each(100);
}

#[test]
fn values_around_each_upper_end_are_read_alike() {
    let mut tally = Tally::default();
    for most in UPPER_ENDS {
        let most = u128::from(most);
        for value in most.saturating_sub(30)..=most + 30 {
            tally.compare_value(value);
            tally.compare_value(value * 10);
        }
    }
    tally.assert_each(1_000);
}

#[test]
fn values_that_wrap_to_small_ones_are_read_alike() {
    let mut tally = Tally::default();
    for power in [8, 16, 31, 32, 33, 48, 63, 64, 65, 96] {
        for times in [1u128, 2, 3, 9, 10, 11, 99, 1_000_003] {
            for value in 0..=12 {
                tally.compare_value((times << power) + value);
                tally.compare_value((times << power) - 1 - value);
            }
        }
    }
    tally.assert_each(1_000);
}

#[test]
fn digits_of_any_count_are_read_alike() {
    let mut random = Random::seeded(51);
    let mut tally = Tally::default();
    for _ in 0..GENERATED {
        tally.compare(&random_digits(&mut random));
    }
    tally.assert_each(1_000);
}

#[test]
fn digits_among_other_bytes_are_read_alike() {
    let mut random = Random::seeded(52);
    let mut tally = Tally::default();
    for _ in 0..GENERATED {
        let mut bytes = random_digits(&mut random);
        for _ in 0..random.between(1, 3) {
            let place = random.below(bytes.len());
            bytes[place] = random.number() as u8;
        }
        tally.compare(&bytes);
    }
    tally.assert_each(1_000);
}

#[test]
fn any_bytes_are_read_alike() {
    let mut random = Random::seeded(53);
    let mut tally = Tally::default();
    for _ in 0..GENERATED {
        tally.compare(&any_bytes(&mut random, 40));
    }
    tally.assert_each(100);
}

#[test]
fn a_short_buffer_stays_unchanged() {
    for length in 0..=3 {
        let mut buffer = vec![BEFORE; length];
        assert_eq!(number_answers(b"123", u32::MAX, &mut buffer), 0);
        assert_eq!(buffer, vec![BEFORE; length]);
    }
    let mut buffer = [BEFORE; 4];
    assert_eq!(number_answers(b"123", u32::MAX, &mut buffer), 4);
    assert_eq!(buffer, [NONE, 1, 12, 123]);
}
