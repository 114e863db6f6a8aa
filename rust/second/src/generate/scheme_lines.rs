//! Lines of scheme files: names, well-formed lines, and lines malformed in a known way.

use super::random::Random;
use super::supports::Support;
use crate::schemes::SchemeTable;

/// Names that are words of lines too, words of the six, and names next to PLAIN.
const SPECIAL_NAMES: [&str; 29] = [
    "G", "GT", "OP", "ADD", "MUL", "EQ", "LT", "INT", "ANY", "ARROW", "LAM", "APP", "VAR", "NUM",
    "ENC", "T", "P", "E", "S", "OK", "NO", "X", "FHE", "DET", "MH", "AH", "RAND", "PLAI", "PLAIM",
];

/// Bytes that are no letters, some of them next to letters.
const NO_LETTERS: &[u8] = b"0159 @[`{\0\t\r-_.\xc4\xff";

/// Bytes that are no bits, some of them next to the digits 0 and 1 or alike.
const NO_BITS: &[u8] = b"2389/:OIl \0\t\r-.\xb0\xff";

/// What may not stand in the place of the tag.
const NO_TAGS: [&str; 7] = ["", "s", "T", "SS", " S", "5", "E"];

/// What may not part the fields.
const NO_COMMAS: &[u8] = b";: \t.|";

/// A scheme to be written to a file.
#[derive(Clone, Debug, PartialEq, Eq)]
pub struct NamedSupport {
    /// Its name.
    pub name: String,
    /// What it supports.
    pub support: Support,
}

impl NamedSupport {
    /// A scheme whose name is none of these schemes'.
    pub fn new(random: &mut Random, support: Support, others: &[NamedSupport]) -> NamedSupport {
        loop {
            let name = any_name(random);
            if others.iter().all(|other| other.name != name) {
                return NamedSupport { name, support };
            }
        }
    }

    /// The well-formed line, without a line feed.
    pub fn line(&self) -> Vec<u8> {
        format!("S,{},{}", self.name, self.bits()).into_bytes()
    }

    /// The five digits of the line.
    fn bits(&self) -> String {
        format!("{:05b}", self.support)
    }
}

/// Any name, often one that is also a word.
fn any_name(random: &mut Random) -> String {
    if random.one_in(3) {
        return SPECIAL_NAMES[random.below(SPECIAL_NAMES.len())].to_string();
    }
    loop {
        let length = random.between(1, SchemeTable::LONGEST_NAME);
        let name: String = (0..length).map(|_| char::from(any_capital(random))).collect();
        if name != "PLAIN" {
            return name;
        }
    }
}

/// Any capital.
fn any_capital(random: &mut Random) -> u8 {
    b'A' + random.below(26) as u8
}

/// In which way a line of a scheme file is malformed.
#[derive(Clone, Copy, Debug, PartialEq, Eq, PartialOrd, Ord)]
pub enum Malformation {
    /// It has no byte.
    Empty,
    /// Its tag is none or another one.
    Tag,
    /// A field is missing.
    FieldMissing,
    /// A field is added, empty or not.
    FieldAdded,
    /// The name is empty.
    NoName,
    /// The name has more than five capitals.
    LongName,
    /// The name is PLAIN.
    PlainName,
    /// A letter of the name is small.
    SmallLetter,
    /// A byte of the name is no letter.
    NoLetter,
    /// There are fewer than five digits.
    FewBits,
    /// There are more than five digits.
    ManyBits,
    /// A digit is another byte than 0 or 1.
    NoBit,
    /// It ends in a carriage return.
    CarriageReturn,
    /// A blank stands before or behind it.
    Blank,
    /// Its fields are parted otherwise than by commas.
    Separator,
}

use Malformation::{
    Blank, CarriageReturn, Empty, FewBits, FieldAdded, FieldMissing, LongName, ManyBits, NoBit,
    NoLetter, NoName, PlainName, Separator, SmallLetter, Tag,
};

impl Malformation {
    /// All ways.
    pub const ALL: [Malformation; 15] = [
        Empty, Tag, FieldMissing, FieldAdded, NoName, LongName, PlainName, SmallLetter, NoLetter,
        FewBits, ManyBits, NoBit, CarriageReturn, Blank, Separator,
    ];

    /// The line of a scheme, without a line feed, malformed in this way.
    pub fn line(self, random: &mut Random, scheme: &NamedSupport) -> Vec<u8> {
        let line = scheme.line();
        match self {
            Empty => vec![],
            CarriageReturn => [&line[..], b"\r"].concat(),
            Blank if random.one_in(2) => [b" ", &line[..]].concat(),
            Blank => [&line[..], b" "].concat(),
            Separator => {
                let other = any_of(random, NO_COMMAS);
                line.iter().map(|&byte| if byte == b',' { other } else { byte }).collect()
            }
            FieldMissing | FieldAdded => self.other_fields(random, &line),
            _ => self.changed_field(random, scheme),
        }
    }

    /// The line with one field more or less.
    fn other_fields(self, random: &mut Random, line: &[u8]) -> Vec<u8> {
        let mut fields: Vec<&[u8]> = line.split(|&byte| byte == b',').collect();
        let position = random.below(fields.len());
        match self {
            FieldMissing => {
                fields.remove(position);
            }
            _ => {
                let added = [&b""[..], b"0", b"S", fields[position]][random.below(4)];
                fields.insert(random.between(0, fields.len()), added);
            }
        }
        fields.join(&b',')
    }

    /// The line of a scheme with one field that may not stand in its place.
    fn changed_field(self, random: &mut Random, scheme: &NamedSupport) -> Vec<u8> {
        let mut tag = b"S".to_vec();
        let (mut name, mut bits) = (scheme.name.clone().into_bytes(), scheme.bits().into_bytes());
        let (letter, bit) = (random.below(name.len()), random.below(bits.len()));
        match self {
            Tag => tag = NO_TAGS[random.below(NO_TAGS.len())].as_bytes().to_vec(),
            NoName => name.clear(),
            LongName => name.resize(random.between(6, 9), any_capital(random)),
            PlainName => name = b"PLAIN".to_vec(),
            SmallLetter => name[letter].make_ascii_lowercase(),
            NoLetter => name[letter] = any_of(random, NO_LETTERS),
            FewBits => bits.truncate(bit),
            ManyBits => bits.resize(random.between(6, 9), any_of(random, b"01")),
            _ => bits[bit] = any_of(random, NO_BITS),
        }
        [tag, name, bits].join(&b',')
    }
}

/// One of these bytes.
fn any_of(random: &mut Random, bytes: &[u8]) -> u8 {
    bytes[random.below(bytes.len())]
}
