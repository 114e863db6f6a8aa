//! Random closed programs about functions, most of them of unknown types.

use super::goals::{any_scheme, any_word};
use super::order;
use super::program::Program;
use super::random::Random;
use crate::operation::Operation;
use crate::qualifier::NAMED_VARIABLES;
use crate::rows::{Parameter, QualifiedRow, Term, TypeRow};
use crate::schemes::{Code, SchemeTable, PLAIN};
use crate::table::Table;

/// The most arguments that a type is meant to take.
const MOST_ARGUMENTS: usize = 3;

/// The most rows that one value and its binding take.
const ROWS_OF_A_VALUE: usize = 2 * MOST_ARGUMENTS + 5;

/// A program under the built-in six, as [`functions_under`] makes it.
pub fn functions(random: &mut Random) -> Vec<u8> {
    functions_under(random, SchemeTable::six())
}

/// The text of a program as [`function_program_under`] makes it.
pub fn functions_under(random: &mut Random, schemes: &SchemeTable) -> Vec<u8> {
    function_program_under(random, schemes).text()
}

/// A program that applies parameters to numbers, and what comes out too.
///
/// Each value is the argument of a LAM around those before it, whose parameter may share its type row with others.
pub fn function_program_under(random: &mut Random, schemes: &SchemeTable) -> Program {
    let mut builder = Builder::random(random, schemes);
    builder.declare();
    builder.values();
    builder.unused_types();
    let Builder { random, mut table, .. } = builder;
    table.terms = order::numbered(random, &table.terms);
    let lines = order::lines(random, &table);
    Program { schemes: schemes.clone(), lines, redeclarations: vec![] }
}

/// The lists that grow while a program is built; every child stands below its parent.
struct Builder<'a> {
    random: &'a mut Random,
    /// Once in so many qualifiers of functions one is a scheme, 0 for never.
    encrypted: usize,
    /// The same for qualifiers of numbers, and for numbers that are arguments or operands.
    encrypted_numbers: usize,
    /// Once in so many choices a type row is any one, 0 for never.
    wrong_shape: usize,
    /// How many variables there are, and whether functions and numbers share them.
    variables: usize,
    shared: bool,
    /// How many arguments each type row is meant to take.
    arguments: Vec<usize>,
    /// How many parameters are bound around all values; they are the first ones.
    outer: usize,
    table: Table,
}

impl<'a> Builder<'a> {
    fn random(random: &'a mut Random, schemes: &SchemeTable) -> Builder<'a> {
        let most_variables = usize::from(NAMED_VARIABLES);
        Builder {
            encrypted: [0, 0, 8, 40][random.below(4)],
            encrypted_numbers: [0, 6, 24][random.below(3)],
            wrong_shape: [0, 0, 8, 25][random.below(4)],
            variables: [8, 24, most_variables][random.below(3)],
            shared: random.one_in(3),
            random,
            arguments: vec![],
            outer: 0,
            table: Table::fresh_of(schemes.clone()),
        }
    }

    /// Declares the first type rows and the outer parameters.
    fn declare(&mut self) {
        for _ in 0..self.random.between(1, 12) {
            // The first row is no function, so that every arrow has an argument.
            let most = if self.arguments.is_empty() { 0 } else { MOST_ARGUMENTS };
            let arguments = self.random.between(0, most);
            self.new_type(arguments);
        }
        self.outer = self.random.between(1, 16);
        for _ in 0..self.outer {
            let type_row = self.random.below(self.arguments.len());
            self.parameter(type_row);
        }
    }

    /// Builds the values, each the argument of a LAM around those before it, and binds the outer parameters.
    fn values(&mut self) {
        let (mut root, _) = self.value();
        let values = [4, 12, 24][self.random.below(3)];
        for _ in 0..values {
            let full = self.table.terms.len() + ROWS_OF_A_VALUE + self.outer > Table::TERM_LIMIT
                || self.table.params.len() == Table::PARAMETER_LIMIT;
            if full {
                break;
            }
            let (argument, arguments) = self.value();
            let type_row = self.type_row(arguments);
            let parameter = self.parameter(type_row);
            let function = self.push(Term::Lambda { parameter, body: root });
            root = self.push(Term::Apply { function, argument });
        }
        for parameter in 0..self.outer as u16 {
            root = self.push(Term::Lambda { parameter, body: root });
        }
    }

    /// A parameter that is applied to as many numbers as it takes, or fewer; and how many it takes still.
    fn value(&mut self) -> (u16, usize) {
        let parameter = self.random.below(self.outer);
        let mut arguments = self.arguments_of(parameter);
        let mut row = self.push(Term::Variable { parameter: parameter as u16 });
        while arguments > 0 && !self.random.one_in(4) {
            let argument = self.number();
            row = self.push(Term::Apply { function: row, argument });
            arguments -= 1;
        }
        if arguments == 0 && self.random.one_in(6) {
            let right = self.number();
            let operation = Operation::ALL[self.random.below(Operation::ALL.len())];
            row = self.push(Term::Operate { operation, left: row, right });
        }
        (row, arguments)
    }

    /// A row without children that is no function.
    fn number(&mut self) -> u16 {
        let is_number = |&own: &usize| self.arguments_of(own) == 0;
        let numbers: Vec<usize> = (0..self.outer).filter(is_number).collect();
        let scheme = any_scheme(self.random, self.table.schemes());
        let variable = self.random.pick(&numbers).copied();
        let term = match variable {
            _ if self.random.one_in(self.encrypted_numbers) => Term::Encrypted { scheme, value: 1 },
            Some(parameter) if self.random.one_in(3) => {
                Term::Variable { parameter: parameter as u16 }
            }
            _ => Term::Number { value: 1 },
        };
        self.push(term)
    }

    /// How many numbers a parameter is meant to take.
    fn arguments_of(&self, parameter: usize) -> usize {
        self.arguments[usize::from(self.table.params[parameter].type_row)]
    }

    /// Declares a parameter of a type row.
    fn parameter(&mut self, type_row: usize) -> u16 {
        let QualifiedRow { qualifier, type_row } = self.qualified(type_row);
        self.table.params.push(Parameter { qualifier, type_row, floor: PLAIN });
        (self.table.params.len() - 1) as u16
    }

    /// A type row for a value that takes so many arguments.
    fn type_row(&mut self, arguments: usize) -> usize {
        if self.random.one_in(self.wrong_shape) {
            return self.random.below(self.arguments.len());
        }
        let fits = |row: &usize| self.arguments[*row] == arguments;
        let fitting: Vec<usize> = (0..self.arguments.len()).filter(fits).collect();
        match self.random.pick(&fitting) {
            Some(&row) if self.arguments.len() > 40 || !self.random.one_in(3) => row,
            _ => self.new_type(arguments),
        }
    }

    /// Declares a type row: mostly ANY, otherwise INT or the arrow that is meant.
    fn new_type(&mut self, arguments: usize) -> usize {
        let row = match arguments {
            _ if !self.random.one_in(4) => TypeRow::Any,
            0 => TypeRow::Int,
            _ => {
                let (argument, result) = (self.type_row(0), self.type_row(arguments - 1));
                TypeRow::Arrow {
                    argument: self.qualified(argument),
                    result: self.qualified(result),
                }
            }
        };
        self.table.types.push(row);
        self.arguments.push(arguments);
        self.arguments.len() - 1
    }

    /// Declares arrows over any type rows that nothing names.
    fn unused_types(&mut self) {
        for _ in 0..self.random.below(3) {
            let mut part = || {
                let row = self.random.below(self.arguments.len());
                self.qualified(row)
            };
            let row = TypeRow::Arrow { argument: part(), result: part() };
            self.table.types.push(row);
        }
    }

    /// A qualifier for a type row: that of a function is PLAIN or a variable, mostly.
    fn qualified(&mut self, type_row: usize) -> QualifiedRow {
        let is_function = self.arguments[type_row] > 0;
        let schemes = self.table.schemes();
        let qualifier = match is_function {
            true if self.random.one_in(self.encrypted) => any_scheme(self.random, schemes),
            true if self.random.one_in(3) => PLAIN,
            false if self.random.one_in(self.encrypted_numbers) => any_word(self.random, schemes),
            _ => self.variable(is_function),
        };
        QualifiedRow { qualifier, type_row: type_row as u16 }
    }

    /// The code of a variable; where they are not shared, even numbers are those of functions.
    fn variable(&mut self, is_function: bool) -> Code {
        let number = self.random.below(self.variables);
        let own = match self.shared {
            true => number,
            false => number / 2 * 2 + usize::from(!is_function),
        };
        self.table.schemes().first_variable() + own as Code
    }

    /// Appends a term row.
    fn push(&mut self, term: Term) -> u16 {
        self.table.terms.push(term);
        (self.table.terms.len() - 1) as u16
    }
}
