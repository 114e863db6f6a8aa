//! Lines of the ten forms, filled in with given or random fields.

use second::generate::{in_any_case, Random};
use second::operation::Operation;
use second::qualifier::NAMED_VARIABLES;
use second::SchemeTable;

/// What stands in a field that is no fixed word.
#[derive(Clone, Copy, Debug, PartialEq, Eq)]
pub enum Field {
    /// The own number.
    Own,
    /// The number of a type row.
    TypeRow,
    /// The number of a parameter.
    Parameter,
    /// The number of a term row.
    Row,
    /// A number from 0 to 4294967295.
    Number,
    /// A qualifier or a named variable.
    Qualifier,
    /// A floor: a qualifier, but no named variable.
    Floor,
    /// A scheme.
    Scheme,
    /// An operation.
    Operation,
}

impl Field {
    /// The words that may stand in this field under a scheme table.
    pub fn words(self, schemes: &SchemeTable) -> Vec<String> {
        match self {
            Field::Own | Field::TypeRow | Field::Parameter | Field::Row | Field::Number => vec![],
            Field::Qualifier | Field::Floor => schemes.words(),
            // The first qualifier is PLAIN, which is no scheme.
            Field::Scheme => schemes.words().split_off(1),
            Field::Operation => Operation::ALL.map(|it| it.word().to_string()).to_vec(),
        }
    }
}

/// A form of a line: the words before and after its own number, then its other fields.
#[derive(Clone, Copy, Debug)]
pub struct Form {
    /// The list that the line is for.
    pub list: &'static str,
    /// The word after the own number, empty where there is none.
    pub word: &'static str,
    /// The fields after that word.
    pub fields: &'static [Field],
}

/// The ten forms in the order of their numbers; that of a P line stands twice, without a floor and with one.
pub const ALL: [Form; 11] = [
    Form { list: "T", word: "INT", fields: &[] },
    Form { list: "T", word: "ANY", fields: &[] },
    Form {
        list: "T",
        word: "ARROW",
        fields: &[Field::Qualifier, Field::TypeRow, Field::Qualifier, Field::TypeRow],
    },
    Form { list: "P", word: "", fields: &[Field::Qualifier, Field::TypeRow] },
    Form { list: "P", word: "", fields: &[Field::Qualifier, Field::TypeRow, Field::Floor] },
    Form { list: "E", word: "LAM", fields: &[Field::Parameter, Field::Row] },
    Form { list: "E", word: "APP", fields: &[Field::Row, Field::Row] },
    Form { list: "E", word: "OP", fields: &[Field::Operation, Field::Row, Field::Row] },
    Form { list: "E", word: "VAR", fields: &[Field::Parameter] },
    Form { list: "E", word: "NUM", fields: &[Field::Number] },
    Form { list: "E", word: "ENC", fields: &[Field::Scheme, Field::Number] },
];

impl Form {
    /// The line of this form with the texts that a function gives for its fields, the own number first.
    pub fn line(&self, mut text: impl FnMut(Field) -> String) -> String {
        let mut line = format!("{},{}", self.list, text(Field::Own));
        if !self.word.is_empty() {
            line = format!("{line},{}", self.word);
        }
        for &field in self.fields {
            line = format!("{line},{}", text(field));
        }
        line
    }

    /// How many fields the line has apart from its words, the own number included.
    pub fn open_fields(&self) -> usize {
        1 + self.fields.len()
    }

    /// How many fields stand before the last ones: the list, the own number, and the word where there is one.
    fn first_fields(&self) -> usize {
        2 + usize::from(!self.word.is_empty())
    }

    /// How many fields the line has.
    pub fn length(&self) -> usize {
        self.first_fields() + self.fields.len()
    }

    /// The words that may stand in the line under the built-in six, each with the place of its field.
    pub fn words(&self) -> Vec<(usize, String)> {
        let own = [self.word].into_iter().filter(|word| !word.is_empty());
        let open = (self.first_fields()..).zip(self.fields);
        let others = open.flat_map(|(place, field)| {
            field.words(SchemeTable::six()).into_iter().map(move |word| (place, word))
        });
        own.map(|word| (2, word.to_string())).chain(others).collect()
    }

    /// The line of this form with one given field, and the lowest text in all others.
    pub fn line_with(&self, position: usize, given: &str) -> String {
        let mut positions = 0..;
        self.line(|field| match positions.next() {
            Some(next) if next == position => given.to_string(),
            _ => lowest(field).to_string(),
        })
    }
}

/// One of the ten forms.
pub fn random_form(random: &mut Random) -> Form {
    ALL[random.below(ALL.len())]
}

/// A line under the built-in six, as [`random_line_under`] makes it.
pub fn random_line(random: &mut Random) -> Vec<u8> {
    random_line_under(random, SchemeTable::six())
}

/// A line of a random form with random fields, often at their limits, and words in any case.
pub fn random_line_under(random: &mut Random, schemes: &SchemeTable) -> Vec<u8> {
    let form = random_form(random);
    let line = form.line(|field| random_text(random, schemes, field));
    in_any_case(random, line.as_bytes())
}

/// The first text that may stand in a field.
fn lowest(field: Field) -> &'static str {
    match field {
        Field::Own | Field::TypeRow | Field::Parameter | Field::Row | Field::Number => "0",
        Field::Qualifier | Field::Floor => "PLAIN",
        Field::Scheme => "FHE",
        Field::Operation => "ADD",
    }
}

/// A random text that may stand in a field under a scheme table; a word is in capitals.
pub fn random_text(random: &mut Random, schemes: &SchemeTable, field: Field) -> String {
    match field {
        Field::Own | Field::TypeRow | Field::Parameter | Field::Row => {
            random_number(random, u16::MAX.into()).to_string()
        }
        Field::Number => random_number(random, u32::MAX.into()).to_string(),
        Field::Qualifier if random.one_in(2) => {
            format!("g{}", random.below(NAMED_VARIABLES.into()))
        }
        Field::Qualifier | Field::Floor | Field::Scheme | Field::Operation => {
            let mut words = field.words(schemes);
            words.swap_remove(random.below(words.len()))
        }
    }
}

/// A number up to the greatest one, of any number of bits, often close to the greatest.
fn random_number(random: &mut Random, greatest: u64) -> u64 {
    let number = random.number() % (greatest + 1);
    match random.below(4) {
        0 => greatest - number % 12,
        1 => number,
        _ => number >> random.below(64 - greatest.leading_zeros() as usize),
    }
}
