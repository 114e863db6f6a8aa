//! Scheme tables: the schemes that an owner's file names, their order, and what follows from it.
//!
//! The built-in six are the table of one such file.

use crate::operation::Operation;
use crate::qualifier::NAMED_VARIABLES;
use crate::text::lines;
use crate::word::capitals;
use std::ops::RangeInclusive;
use std::sync::LazyLock;

/// The code of a declared qualifier: 0 is PLAIN, then come the schemes in the file's order, then `g0` to `g63`.
pub type Code = u8;

/// The code of PLAIN under every scheme table.
pub const PLAIN: Code = 0;

/// The word of PLAIN, which no scheme may have for its name.
const PLAIN_WORD: &str = "PLAIN";

/// The file of the built-in six.
pub const SIX_FILE: &[u8] =
    b"S,FHE,11111\nS,OP,00111\nS,DET,00100\nS,MH,01000\nS,AH,10000\nS,RAND,00000\n";

/// A scheme as its line declares it.
#[derive(Clone, Debug, PartialEq, Eq)]
struct Scheme {
    name: String,
    /// Whether it supports each operation, in the order of their codes.
    supported: [bool; Operation::ALL.len()],
}

impl Scheme {
    /// Reads a line `S,name,bits` given without its line feed; `None` if it is malformed.
    fn read(line: &[u8]) -> Option<Scheme> {
        let fields: Vec<&[u8]> = line.split(|&byte| byte == b',').collect();
        match *fields.as_slice() {
            [b"S", name, bits] => {
                Some(Scheme { name: scheme_name(name)?, supported: supported(bits)? })
            }
            _ => None,
        }
    }

    /// Tells whether this scheme supports at least as much as another.
    fn supports_as_much_as(&self, other: &Scheme) -> bool {
        self.supported.iter().zip(other.supported).all(|(&supports, needed)| supports || !needed)
    }

    /// The line that declares this scheme, with its line feed.
    fn line(&self) -> String {
        let bits: String = self.supported.map(|bit| if bit { '1' } else { '0' }).iter().collect();
        format!("S,{},{bits}\n", self.name)
    }
}

/// Reads a name of 1 to 5 capitals that is not PLAIN.
fn scheme_name(field: &[u8]) -> Option<String> {
    let fits = (1..=SchemeTable::LONGEST_NAME).contains(&field.len());
    let is_name = fits && field.iter().all(u8::is_ascii_uppercase);
    let name = String::from_utf8_lossy(field).into_owned();
    Some(name).filter(|name| is_name && name != PLAIN_WORD)
}

/// Reads five digits 0 or 1, one for each operation.
fn supported(field: &[u8]) -> Option<[bool; Operation::ALL.len()]> {
    let digits: [u8; Operation::ALL.len()] = field.try_into().ok()?;
    digits.iter().all(|digit| b"01".contains(digit)).then(|| digits.map(|digit| digit == b'1'))
}

/// The schemes of a file that 25 does not refuse, with the order that their bits give them.
#[derive(Clone, Debug, PartialEq, Eq)]
struct Order {
    schemes: Vec<Scheme>,
}

impl Order {
    /// Reads a file; `None` for another number of lines, a malformed line, a repeated name or repeated bits.
    fn read(file: &[u8]) -> Option<Order> {
        let schemes: Vec<Scheme> = lines(file).map(Scheme::read).collect::<Option<_>>()?;
        let repeats = |(own, scheme): (usize, &Scheme)| {
            let is_same = |it: &Scheme| it.name == scheme.name || it.supported == scheme.supported;
            schemes[..own].iter().any(is_same)
        };
        let is_refused = !(1..=SchemeTable::MOST_SCHEMES).contains(&schemes.len())
            || schemes.iter().enumerate().any(repeats);
        (!is_refused).then_some(Order { schemes })
    }

    /// The codes of PLAIN and the schemes.
    fn qualifiers(&self) -> RangeInclusive<Code> {
        PLAIN..=self.schemes.len() as Code
    }

    /// The codes of the schemes.
    fn schemes(&self) -> RangeInclusive<Code> {
        PLAIN + 1..=self.schemes.len() as Code
    }

    /// The scheme with this code; `None` for PLAIN.
    fn scheme(&self, code: Code) -> Option<&Scheme> {
        Some(&self.schemes[usize::from(code.checked_sub(1)?)])
    }

    /// Tells whether a scheme supports an operation.
    fn supports(&self, code: Code, operation: Operation) -> bool {
        self.scheme(code).is_some_and(|scheme| scheme.supported[usize::from(operation.code())])
    }

    /// "One scheme is at or below another when it supports at least as much; PLAIN is below all."
    fn at_or_below(&self, lower: Code, upper: Code) -> bool {
        match (self.scheme(lower), self.scheme(upper)) {
            (None, _) => true,
            (Some(_), None) => false,
            (Some(lower), Some(upper)) => lower.supports_as_much_as(upper),
        }
    }

    /// The one of these qualifiers that all of them are at or below, if there is one.
    fn greatest_of(&self, candidates: &[Code]) -> Option<Code> {
        let is_greatest =
            |&&upper: &&Code| candidates.iter().all(|&it| self.at_or_below(it, upper));
        candidates.iter().find(is_greatest).copied()
    }

    /// The greatest scheme, if there is one.
    fn greatest(&self) -> Option<Code> {
        self.greatest_of(&self.schemes().collect::<Vec<Code>>())
    }

    /// The greatest lower bound of two qualifiers, if they have one.
    fn meet(&self, left: Code, right: Code) -> Option<Code> {
        let is_below_both = |&it: &Code| self.at_or_below(it, left) && self.at_or_below(it, right);
        self.greatest_of(&self.qualifiers().filter(is_below_both).collect::<Vec<Code>>())
    }

    /// The highest scheme that supports an operation: PLAIN if none does, `None` if no single one is the highest.
    fn highest(&self, operation: Operation) -> Option<Code> {
        let supports = |&it: &Code| self.supports(it, operation);
        let supporters: Vec<Code> = self.schemes().filter(supports).collect();
        match supporters.is_empty() {
            true => Some(PLAIN),
            false => self.greatest_of(&supporters),
        }
    }
}

/// An accepted scheme table.
#[derive(Clone, Debug, PartialEq, Eq)]
pub struct SchemeTable {
    order: Order,
    greatest: Code,
    /// The greatest lower bound of each two qualifiers; it is kept, as the solver asks for it often.
    meets: Vec<Vec<Code>>,
    /// The highest scheme of each operation.
    highest: Vec<Code>,
}

impl SchemeTable {
    /// The most schemes that a file declares; the fewest is one.
    pub const MOST_SCHEMES: usize = 8;
    /// The greatest length of a name.
    pub const LONGEST_NAME: usize = 5;

    /// The table of a file, or the number that refuses the file: 25, 26 or 27.
    pub fn open(file: &[u8]) -> Result<SchemeTable, u32> {
        let order = Order::read(file).ok_or(25u32)?;
        let greatest = order.greatest().ok_or(26u32)?;
        let meets_of = |left| order.qualifiers().map(|right| order.meet(left, right)).collect();
        let meets = order.qualifiers().map(meets_of).collect::<Option<_>>().ok_or(26u32)?;
        let highest_of = |operation| order.highest(operation);
        let highest = Operation::ALL.into_iter().map(highest_of).collect::<Option<_>>();
        let highest = highest.ok_or(27u32)?;
        Ok(SchemeTable { order, greatest, meets, highest })
    }

    /// The built-in six.
    pub fn six() -> &'static SchemeTable {
        static SIX: LazyLock<SchemeTable> =
            LazyLock::new(|| SchemeTable::open(SIX_FILE).expect("the file of the six is accepted"));
        &SIX
    }

    /// The codes of the qualifiers: PLAIN, then the schemes in the file's order.
    pub fn qualifiers(&self) -> RangeInclusive<Code> {
        self.order.qualifiers()
    }

    /// The codes of the schemes in the file's order.
    pub fn schemes(&self) -> RangeInclusive<Code> {
        self.order.schemes()
    }

    /// The code of `g0`; the qualifiers have the codes below it.
    pub fn first_variable(&self) -> Code {
        self.order.schemes.len() as Code + 1
    }

    /// The code of `g63`, the greatest code that a declared qualifier can have.
    pub fn last_variable(&self) -> Code {
        self.first_variable() + NAMED_VARIABLES - 1
    }

    /// The word of a qualifier, in capitals as reports have it.
    pub fn word(&self, code: Code) -> &str {
        self.order.scheme(code).map_or(PLAIN_WORD, |scheme| &scheme.name)
    }

    /// The words of all qualifiers in the order of their codes.
    pub fn words(&self) -> Vec<String> {
        self.qualifiers().map(|code| self.word(code).to_string()).collect()
    }

    /// The qualifier whose word a field spells, in either case, if any.
    pub fn of_word(&self, field: &[u8]) -> Option<Code> {
        let word = capitals(field);
        self.qualifiers().find(|&code| self.word(code).as_bytes() == word)
    }

    /// Tells whether a scheme supports an operation; PLAIN is no scheme.
    pub fn supports(&self, scheme: Code, operation: Operation) -> bool {
        self.order.supports(scheme, operation)
    }

    /// Tells whether one qualifier is at or below another.
    pub fn at_or_below(&self, lower: Code, upper: Code) -> bool {
        self.order.at_or_below(lower, upper)
    }

    /// The greatest lower bound of two qualifiers.
    pub fn meet(&self, left: Code, right: Code) -> Code {
        self.meets[usize::from(left)][usize::from(right)]
    }

    /// The highest scheme that supports an operation, or PLAIN if none does.
    pub fn highest(&self, operation: Operation) -> Code {
        self.highest[usize::from(operation.code())]
    }

    /// The greatest scheme, which every qualifier is at or below.
    pub fn greatest(&self) -> Code {
        self.greatest
    }

    /// The file that declares this table, each line ended by a line feed.
    pub fn file(&self) -> Vec<u8> {
        self.order.schemes.iter().flat_map(|scheme| scheme.line().into_bytes()).collect()
    }
}
