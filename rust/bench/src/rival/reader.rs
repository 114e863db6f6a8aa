//! Reads the lines of a text in one pass, byte after byte.

use super::words::{self, with_letter, Word};
use second::operation::Operation;
use second::qualifier::{FIRST_VARIABLE_CODE, NAMED_VARIABLES};
use second::rows::{Entry, Parameter, QualifiedRow, Term, TypeRow};
use second::schemes::{Code, PLAIN};

/// The bit in which a small letter differs from its capital.
const CASE_BIT: u8 = 0x20;

/// A text with the place of its next byte.
pub struct Reader<'a> {
    text: &'a [u8],
    next: usize,
}

impl<'a> Reader<'a> {
    /// Begins a text.
    pub fn new(text: &'a [u8]) -> Reader<'a> {
        Reader { text, next: 0 }
    }

    /// Tells whether a line is left; what follows the last line feed counts if it is not empty.
    pub fn has_line(&self) -> bool {
        self.next < self.text.len()
    }

    /// Reads a line with its line feed; `None` if it has none of the forms.
    ///
    /// Its length needs no test: no line of more than 64 bytes has one of the forms.
    pub fn line(&mut self) -> Option<Entry> {
        let tag = self.peek();
        self.next += 1;
        let own = self.small_field()?;
        self.take(b',')?;
        let entry = match tag {
            b'T' => Entry::T(own, self.type_row()?),
            b'P' => Entry::P(own, self.parameter()?),
            b'E' => Entry::E(own, self.term()?),
            _ => return None,
        };
        self.take(b'\n')?;
        Some(entry)
    }

    /// Reads a type row from its kind on.
    fn type_row(&mut self) -> Option<TypeRow> {
        Some(match self.word() {
            words::INT => TypeRow::Int,
            words::ANY => TypeRow::Any,
            words::ARROW => {
                TypeRow::Arrow { argument: self.qualified_row()?, result: self.qualified_row()? }
            }
            _ => return None,
        })
    }

    /// Reads a parameter from its qualifier on; without a floor it is PLAIN.
    fn parameter(&mut self) -> Option<Parameter> {
        let (qualifier, type_row) = (self.qualifier()?, self.small_field()?);
        let floor = match self.take(b',') {
            Some(()) => words::qualifier(self.word())?,
            None => PLAIN,
        };
        Some(Parameter { qualifier, type_row, floor })
    }

    /// Reads a term row from its kind on.
    fn term(&mut self) -> Option<Term> {
        Some(match self.word() {
            words::LAM => {
                Term::Lambda { parameter: self.small_field()?, body: self.small_field()? }
            }
            words::APP => {
                Term::Apply { function: self.small_field()?, argument: self.small_field()? }
            }
            words::OP => Term::Operate {
                operation: self.operation_field()?,
                left: self.small_field()?,
                right: self.small_field()?,
            },
            words::VAR => Term::Variable { parameter: self.small_field()? },
            words::NUM => Term::Number { value: self.number_field()? },
            words::ENC => {
                Term::Encrypted { scheme: self.scheme_field()?, value: self.number_field()? }
            }
            _ => return None,
        })
    }

    /// Reads a comma and an operation.
    fn operation_field(&mut self) -> Option<Operation> {
        self.take(b',')?;
        words::operation(self.word())
    }

    /// Reads a comma and a scheme, which PLAIN is not.
    fn scheme_field(&mut self) -> Option<Code> {
        self.take(b',')?;
        words::qualifier(self.word()).filter(|&code| code != PLAIN)
    }

    /// Reads a comma, a qualifier and the field of a type row.
    fn qualified_row(&mut self) -> Option<QualifiedRow> {
        self.take(b',')?;
        Some(QualifiedRow { qualifier: self.qualifier()?, type_row: self.small_field()? })
    }

    /// Reads a variable, which has a small `g`, or a qualifier word, none of which begins with it.
    fn qualifier(&mut self) -> Option<Code> {
        if self.take(b'g').is_none() {
            return words::qualifier(self.word());
        }
        let variable = self.number()?;
        (variable < NAMED_VARIABLES.into()).then_some(FIRST_VARIABLE_CODE + variable as Code)
    }

    /// Reads a comma and a number from 0 to 65535.
    fn small_field(&mut self) -> Option<u16> {
        u16::try_from(self.number_field()?).ok()
    }

    /// Reads a comma and a number from 0 to 4294967295.
    fn number_field(&mut self) -> Option<u32> {
        self.take(b',')?;
        self.number()
    }

    /// Reads a number up to its last digit.
    fn number(&mut self) -> Option<u32> {
        let mut number = self.digit()?;
        // Behind a leading zero a digit stays unread, and no form goes on with one.
        if number == 0 {
            return Some(0);
        }
        while let Some(digit) = self.digit() {
            number = number.checked_mul(10)?.checked_add(digit)?;
        }
        Some(number)
    }

    /// Reads a digit, if the next byte is one.
    fn digit(&mut self) -> Option<u32> {
        let digit = self.peek().wrapping_sub(b'0');
        if digit > 9 {
            return None;
        }
        self.next += 1;
        Some(digit.into())
    }

    /// Reads the letters that follow, in either case; digits, commas and line feeds are below them.
    ///
    /// Other bytes may be among them, but without its case bit none of these is a capital, and then the word is none that is known.
    fn word(&mut self) -> Word {
        let mut word = 0;
        while self.peek() >= b'A' {
            word = with_letter(word, self.peek() & !CASE_BIT);
            self.next += 1;
        }
        word
    }

    /// Reads this byte, if it is the next one.
    fn take(&mut self, byte: u8) -> Option<()> {
        if self.peek() != byte {
            return None;
        }
        self.next += 1;
        Some(())
    }

    /// The next byte; the end of the text is as good as a line feed.
    fn peek(&self) -> u8 {
        self.text.get(self.next).copied().unwrap_or(b'\n')
    }
}
