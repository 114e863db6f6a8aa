//! The rival's solver answers as the second one does, so that the measure compares with a right solver.

use bench::answers;
use bench::rival::{Rival, MEET};
use bench::sets::{self, Sample};
use second::generate::{
    chain, deep, doubling, opened, program_with_floors, text_of_lines, text_of_table,
    text_with_floors, Floors, NumberCounts, Opening, Place, Random,
};
use second::qualifier::{meet, Qualifier};
use second::SchemeTable;

/// Compares the answers on these texts; gives how often each number was answered.
fn compare(texts: impl Iterator<Item = Vec<u8>>) -> [usize; 101] {
    let mut rival = Rival::default();
    let mut numbers = [0; 101];
    for text in texts {
        let expected = answers::second(&text);
        let found = answers::rival_infer(&mut rival, &Sample::of_text(&text));
        assert!(found == expected, "{} {}: {}", found.0, expected.0, text.escape_ascii());
        numbers[(expected.0 / 1_000).min(100) as usize] += 1;
    }
    numbers
}

#[test]
fn closed_programs() {
    let mut random = Random::seeded(21);
    let (mut met, mut several_missed) = (0, 0);
    let mut literals = NumberCounts::default();
    let programs = (0..3_000).map(|_| {
        let rows = random.between(1, 256);
        let table = program_with_floors(&mut random, rows).table();
        met += usize::from(Floors::of(&table) == Floors::Met);
        several_missed += usize::from(Floors::of(&table) == Floors::SeveralMissed);
        literals.take(&table);
        text_of_table(&table)
    });
    let numbers = compare(programs);
    for number in [21, 22, 23, 24, 100] {
        assert!(numbers[number] > 100, "{number}: {}", numbers[number]);
    }
    assert!(met > 300 && several_missed > 100, "{met} {several_missed}");
    let operands = Place::operands().into_iter();
    let places = operands.chain([Place::IgnoredArgument, Place::Argument, Place::Result]);
    literals.places.assert_each(places.chain([Place::Body]), 300);
    literals.words.assert_each(SchemeTable::six().words(), 200);
}

#[test]
fn open_programs() {
    let mut random = Random::seeded(22);
    let programs = (0..1_000).filter_map(|_| {
        let program = program_with_floors(&mut random, 40);
        let opening = *random.pick(&Opening::ALL)?;
        let lines = opened(&mut random, &program, opening)?;
        Some(text_of_lines(&lines.join(" ")))
    });
    assert!(compare(programs)[10] > 500);
}

#[test]
fn chains_and_shared_types() {
    let mut random = Random::seeded(23);
    let mut texts = |generate: fn(&mut Random) -> Vec<u8>, count: usize| -> Vec<_> {
        let text = |_| {
            let text = generate(&mut random);
            text_with_floors(&mut random, &text)
        };
        (0..count).map(text).collect()
    };
    let (chains, doubled) = (texts(chain, 700), texts(doubling, 300));
    let shared = sets::shared(&mut random, 500).into_iter().map(|sample| sample.text);
    let named = deep::all().into_iter().map(|(_, lines)| text_of_lines(&lines));
    let numbers = compare(chains.into_iter().chain(doubled).chain(shared).chain(named));
    assert!(numbers[24] > 50, "{}", numbers[24]);
}

/// A program whose APP at row 5 makes two arrows equal; x, declared g0, is in a sum before.
fn two_arrows(expected: &str, given: &str) -> Vec<u8> {
    text_of_lines(&format!(
        "T,0,INT T,1,ARROW,{expected} T,2,ARROW,{given} T,3,ARROW,PLAIN,1,PLAIN,0
         P,0,g0,0 P,1,PLAIN,3 P,2,PLAIN,2 E,0,VAR,0 E,1,VAR,0 E,2,OP,ADD,0,1
         E,3,VAR,1 E,4,VAR,2 E,5,APP,3,4 E,6,OP,EQ,2,5 E,7,LAM,0,6 E,8,LAM,1,7 E,9,LAM,2,8"
    ))
}

#[test]
fn one_row_breaks_several_rules() {
    // A bound is broken; with it two constants meet; with them INT meets an arrow: the arguments
    // come before the results, so each later reason has the lesser number.
    let cases = [
        ("g0,0,AH,0", "RAND,0,AH,0", 23_005),
        ("g0,0,AH,0", "RAND,0,MH,0", 22_005),
        ("g0,0,AH,0", "RAND,0,PLAIN,1", 21_005),
        ("AH,0,AH,0", "MH,0,PLAIN,1", 21_005),
    ];
    for (expected, given, answer) in cases {
        let text = two_arrows(expected, given);
        assert_eq!(compare([text.clone()].into_iter())[answer / 1_000], 1);
        assert_eq!(answers::second(&text).0 as usize, answer);
        assert_eq!(answers::proved_infer(&text, 1).0 as usize, answer);
    }
}

#[test]
fn the_sets_are_what_they_are_called() {
    let mut random = Random::seeded(24);
    let texts = |set: Vec<Sample>, rows: usize| {
        assert!(set.iter().all(|sample| sample.table.terms.len() == rows));
        // Times stay comparable with those from before there were floors.
        assert!(set.iter().all(|sample| Floors::of(&sample.table) == Floors::Plain));
        set.into_iter().map(|sample| sample.text)
    };
    assert_eq!(compare(texts(sets::accepted(&mut random, 20, 256), 256))[100], 20);
    let refused = compare(texts(sets::refused(&mut random, 40, 256), 256));
    assert_eq!((refused[21], refused[22], refused[23]), (20, 10, 10));
    assert!(compare(texts(sets::shared(&mut random, 40), 256))[100] > 20);
    let full = sets::full(&mut random, 20);
    assert!(full.iter().all(|it| (it.table.types.len(), it.table.params.len()) == (64, 64)));
    assert_eq!(compare(texts(full, 255))[100], 20);
    assert_eq!(compare(texts(sets::functions_only(&mut random, 20), 256))[22], 20);
    assert_eq!(compare(texts(sets::long_applications(&mut random, 40), 256))[100], 40);
    let small = compare(texts(sets::refused(&mut random, 40, 32), 32));
    assert_eq!((small[21], small[22], small[23]), (20, 10, 10));
}

#[test]
fn the_table_of_meets_follows_from_the_order() {
    for left in Qualifier::ALL {
        for right in Qualifier::ALL {
            let entry = MEET[usize::from(left.code())][usize::from(right.code())];
            assert_eq!(entry, meet(left, right).code());
        }
    }
}
