//! Random scheme files are refused for what is wrong with them, and files of all kinds occur.

use second::counts::Counts;
use second::generate::{
    accepted_file, accepted_file_of, any_bytes, Damage, LineFault, Malformation, OrderFaults,
    Random, SchemeFile, SchemeProperty, Support,
};
use second::schemes::SIX_FILE;
use second::text::lines;
use second::{entry_under, SchemeTable, Table};
use std::collections::BTreeSet;

/// The number that refuses a file, 0 if it is accepted.
fn number(file: &[u8]) -> u32 {
    SchemeTable::open(file).err().unwrap_or(0)
}

/// What a line supports, read from its ends: the tag before, six bytes behind, and a name between.
fn support(line: &[u8]) -> Option<(&[u8], Support)> {
    let rest = line.strip_prefix(b"S,")?;
    let (name, bits) = rest.split_at_checked(rest.len().checked_sub(6)?)?;
    let is_name = matches!(name.len(), 1..=5) && name.iter().all(u8::is_ascii_uppercase);
    let has_bits = bits[0] == b',' && bits[1..].iter().all(|byte| *byte == b'0' || *byte == b'1');
    let add = |support: Support, byte: &u8| support * 2 + (byte - b'0');
    (is_name && name != b"PLAIN" && has_bits).then(|| (name, bits[1..].iter().fold(0, add)))
}

/// The number of any file, worked out otherwise: by sets of names and bits, and by what supporters have in common.
fn expected_number(file: &[u8]) -> u32 {
    let mut lines: Vec<&[u8]> = file.split(|&byte| byte == b'\n').collect();
    if lines.last().is_some_and(|line| line.is_empty()) {
        lines.pop();
    }
    let Some(schemes) = lines.iter().map(|line| support(line)).collect::<Option<Vec<_>>>() else {
        return 25;
    };
    let names: BTreeSet<&[u8]> = schemes.iter().map(|scheme| scheme.0).collect();
    let supports: BTreeSet<Support> = schemes.iter().map(|scheme| scheme.1).collect();
    let is_repeated = [names.len(), supports.len()] != [lines.len(); 2];
    match lines.len() {
        1..=8 if !is_repeated => {
            OrderFaults::of(&supports.into_iter().collect::<Vec<Support>>()).number()
        }
        _ => 25,
    }
}

/// The file of schemes that support this, named A and so on.
fn file_of(supports: &[Support]) -> Vec<u8> {
    let lines = (b'A'..).zip(supports);
    lines.flat_map(|(name, it)| format!("S,{},{it:05b}\n", char::from(name)).into_bytes()).collect()
}

/// All sets of so many of the supports from the first on, each in rising order.
fn sets(first: Support, size: usize) -> Vec<Vec<Support>> {
    if size == 0 {
        return vec![vec![]];
    }
    let with = |support: Support| {
        sets(support + 1, size - 1).into_iter().map(move |rest| [vec![support], rest].concat())
    };
    (first..32).flat_map(with).collect()
}

#[test]
fn all_files_of_up_to_four_schemes_have_their_numbers() {
    let mut counts = Counts::default();
    for size in 1..=4 {
        for supports in sets(0, size) {
            let faults = OrderFaults::of(&supports);
            let file = file_of(&supports);
            assert_eq!(number(&file), faults.number(), "for {}", file.escape_ascii());
            counts.add((size, faults.number()));
        }
    }
    // 32, 496, 4,960 and 35,960 sets. Of one scheme each is accepted, and of two those of which one has the other's bits and more:
    // 3 to the 5th pairs of a set and one within it, without the 32 of a set and itself.
    let of_size = |size| [0, 26, 27].map(|number| counts.of(&(size, number)));
    assert_eq!(of_size(1), [32, 0, 0]);
    assert_eq!(of_size(2), [211, 285, 0]);
    assert_eq!(of_size(3).iter().sum::<usize>(), 4_960);
    assert_eq!(of_size(4).iter().sum::<usize>(), 35_960);
    assert!(of_size(3).iter().chain(&of_size(4)).all(|&count| count > 200), "{counts:?}");
}

#[test]
fn larger_sets_have_their_numbers() {
    let mut random = Random::seeded(71);
    let mut counts = Counts::default();
    for faults in OrderFaults::all() {
        for _ in 0..400 {
            let SchemeFile { bytes, .. } = SchemeFile::with(&mut random, None, faults);
            assert_eq!(number(&bytes), faults.number(), "for {}", bytes.escape_ascii());
            assert_eq!(expected_number(&bytes), faults.number(), "for {}", bytes.escape_ascii());
            let size = bytes.split(|&byte| byte == b'\n').filter(|line| !line.is_empty()).count();
            counts.add((faults.number(), size));
        }
    }
    counts.assert_each((1..=8).map(|size| (0, size)), 25);
    counts.assert_each((2..=8).map(|size| (26, size)), 100);
    counts.assert_each((3..=8).map(|size| (27, size)), 10);
}

#[test]
fn each_fault_of_lines_is_refused_with_25_whatever_the_order_is() {
    let mut random = Random::seeded(72);
    let mut counts = Counts::default();
    for fault in LineFault::all() {
        for faults in OrderFaults::all() {
            for _ in 0..40 {
                let file = SchemeFile::with(&mut random, Some(fault), faults);
                assert_eq!((number(&file.bytes), file.number()), (25, 25), "for {file:?}");
                assert_eq!(expected_number(&file.bytes), 25, "for {file:?}");
                counts.add((fault, file.order_faults));
            }
        }
    }
    // An empty file has no order.
    assert_eq!(counts.of(&(LineFault::NoLine, OrderFaults::NONE)), 8 * 40);
    assert_eq!(counts.0.len(), 1 + (LineFault::all().len() - 1) * 8);
}

#[test]
fn faults_of_lines_are_what_they_are_called() {
    let mut random = Random::seeded(73);
    for fault in LineFault::all() {
        for _ in 0..200 {
            let SchemeFile { bytes, .. } =
                SchemeFile::with(&mut random, Some(fault), OrderFaults::NONE);
            let lines: Vec<&[u8]> = lines(&bytes).collect();
            let read: Vec<_> = lines.iter().filter_map(|line| support(line)).collect();
            let names: BTreeSet<&[u8]> = read.iter().map(|scheme| scheme.0).collect();
            let supports: BTreeSet<Support> = read.iter().map(|scheme| scheme.1).collect();
            let malformed = lines.len() - read.len();
            let repeated = (lines.len() - names.len(), lines.len() - supports.len());
            let about = format!("{fault:?} of {}", bytes.escape_ascii());
            match fault {
                LineFault::NoLine => assert!(bytes.is_empty(), "{about}"),
                LineFault::TooManyLines => {
                    assert!(lines.len() > 8 && repeated == (0, 0), "{about}");
                }
                LineFault::RepeatedName => {
                    assert!(lines.len() <= 8 && repeated == (1, 0), "{about}")
                }
                LineFault::RepeatedBits => {
                    assert!(lines.len() <= 8 && repeated == (0, 1), "{about}")
                }
                LineFault::Malformed(_) => assert!(lines.len() <= 8 && malformed == 1, "{about}"),
            }
        }
    }
}

#[test]
fn accepted_files_of_each_size_have_each_property() {
    let mut random = Random::seeded(74);
    let (mut properties, mut sizes, mut unended) = (Counts::default(), Counts::default(), 0);
    for size in (1..=8).cycle().take(4_000) {
        let file = accepted_file_of(&mut random, size);
        assert_eq!((number(&file), expected_number(&file)), (0, 0), "for {}", file.escape_ascii());
        let schemes = SchemeTable::open(&file).unwrap();
        assert_eq!(schemes.schemes().count(), size);
        let missing: &[u8] = if file.ends_with(b"\n") { b"" } else { b"\n" };
        assert_eq!(schemes.file(), [&file[..], missing].concat());
        unended += missing.len();
        SchemeProperty::of(&schemes).for_each(|property| properties.add(property));
        sizes.add(SchemeTable::open(&accepted_file(&mut random)).unwrap().schemes().count());
    }
    properties.assert_each(SchemeProperty::ALL, 400);
    sizes.assert_each(1..=8, 400);
    assert!(unended > 1_000, "{unended} files have no last line feed");
}

#[test]
fn the_six_have_the_properties_by_hand() {
    // FHE is below AH and MH; all operations are supported; RAND is the last; OP is a kind's word too.
    let six = [SchemeProperty::SchemeMeet, SchemeProperty::OtherWord];
    assert!(SchemeProperty::of(SchemeTable::six()).eq(six));
    let open = |file: &[u8]| SchemeTable::open(file).unwrap();
    // Sums or products: A and M have PLAIN below them, and nothing supports EQ.
    let sum_or_product = open(b"S,R,00000\nS,A,10000\nS,M,01000\n");
    assert!(SchemeProperty::of(&sum_or_product).eq([
        SchemeProperty::NoFullScheme,
        SchemeProperty::GreatestNotLast,
        SchemeProperty::PlainMeet,
        SchemeProperty::UnsupportedOperation,
        SchemeProperty::WithoutRand,
        SchemeProperty::WithoutFhe,
    ]));
    assert!(SchemeProperty::of(&open(b"S,RAND,11111")).eq([
        SchemeProperty::OneScheme,
        SchemeProperty::GreatestSupports,
        SchemeProperty::WithoutFhe,
    ]));
}

#[test]
fn files_of_any_kind_have_their_numbers() {
    let mut random = Random::seeded(75);
    let (mut numbers, mut several) = (Counts::default(), Counts::default());
    for _ in 0..8_000 {
        let file = SchemeFile::random(&mut random);
        assert_eq!(number(&file.bytes), file.number(), "for {file:?}");
        numbers.add(file.number());
        let OrderFaults { greatest, meet, highest } = file.order_faults;
        match file.line_fault {
            Some(_) => several.add((25, file.order_faults.number())),
            None if highest && (greatest || meet) => several.add((26, 27)),
            None => {}
        }
    }
    numbers.assert_each([0], 3_000);
    numbers.assert_each([25, 26, 27], 200);
    several.assert_each([(25, 26), (25, 27), (26, 27)], 100);
}

#[test]
fn the_same_seed_gives_the_same_files() {
    let files = |seed| -> Vec<SchemeFile> {
        let mut random = Random::seeded(seed);
        (0..50).map(|_| SchemeFile::random(&mut random)).collect()
    };
    assert_eq!(files(1), files(1));
    assert_ne!(files(1), files(2));
}

#[test]
fn damaged_files_have_their_numbers() {
    let mut random = Random::seeded(76);
    let mut counts = Counts::default();
    for damage in Damage::ALL.into_iter().cycle().take(16_000) {
        let file = match random.one_in(4) {
            true => SIX_FILE.to_vec(),
            false => accepted_file(&mut random),
        };
        let damaged = damage.of_text(&mut random, &file);
        let expected = expected_number(&damaged);
        assert_eq!(number(&damaged), expected, "for {}", damaged.escape_ascii());
        counts.add(expected);
    }
    counts.assert_each([0, 25], 2_000);
    counts.assert_each([26], 200);
    counts.assert_each([27], 10);
}

#[test]
fn lines_with_one_other_byte_have_their_numbers() {
    // Each byte of a file of two lines is replaced by each byte.
    let file = b"S,REST,00000\nS,PLAIM,10110\n";
    let mut counts = Counts::default();
    for position in 0..file.len() {
        for byte in 0..=255 {
            let mut changed = file.to_vec();
            changed[position] = byte;
            let expected = expected_number(&changed);
            assert_eq!(number(&changed), expected, "for {}", changed.escape_ascii());
            counts.add(expected);
        }
    }
    // By hand, with a byte itself among all bytes: the tags, the commas and the line feeds are one byte each. A name has any capital
    // at its nine places, but for PLAIN. Of the ten bits each may be as it is; REST with MUL or GT is not above PLAIM, which has
    // neither, and all other changes leave it above.
    let (fixed, capitals, bits) = (2 + 4 + 2, 9 * 26 - 1, 10 + 8);
    assert_eq!((counts.of(&0), counts.of(&26)), (fixed + capitals + bits, 2));
}

#[test]
fn any_bytes_are_refused_with_25() {
    let mut random = Random::seeded(77);
    for _ in 0..3_000 {
        let file = any_bytes(&mut random, 60);
        assert_eq!(number(&file), 25, "for {}", file.escape_ascii());
        assert_eq!(Table::fresh_under(&file), (Table::fresh(), 25));
        assert_eq!(entry_under(&file, b"E,0,NUM,1", &mut [0; 6280]), 25_000);
    }
}

#[test]
fn each_malformation_is_refused_in_each_line() {
    let mut random = Random::seeded(78);
    let mut positions = Counts::default();
    for malformation in Malformation::ALL {
        for _ in 0..400 {
            let fault = Some(LineFault::Malformed(malformation));
            let SchemeFile { bytes, .. } = SchemeFile::with(&mut random, fault, OrderFaults::NONE);
            let lines: Vec<&[u8]> = lines(&bytes).collect();
            let position = lines.iter().position(|line| support(line).is_none()).unwrap();
            positions.add((malformation, position));
            assert_eq!(number(&bytes), 25);
        }
        positions.assert_each((0..8).map(|position| (malformation, position)), 3);
    }
}
