//! Random closed programs with one long application over 60 parameters of unknown types.

use second::generate::{text_of_lines, Random};

/// The rows of every program.
const ROWS: usize = 256;

/// Parameter 0 is what is applied, to the parameters from 1 to this one.
const ARGUMENTS: usize = 60;

/// The rows below the LAMs.
const BODY_ROWS: usize = ROWS - ARGUMENTS - 1;

/// A program x a b c .. of 256 rows over parameters whose types are all declared unknown.
///
/// Each application makes the result so far a function, while most other types stay unknown to the end. Some arguments are calls that join
/// the types of two parameters, or that make one a function, with all that were joined with it.
pub fn long_application(random: &mut Random) -> Vec<u8> {
    let mut program = Program::new(random);
    let mut function = program.variable(0);
    while program.rows < BODY_ROWS {
        let argument = program.argument();
        function = program.apply(function, argument);
    }
    for parameter in 0..=ARGUMENTS {
        function = program.row(format!("LAM,{parameter},{function}"));
    }
    text_of_lines(&program.lines)
}

/// The lines so far.
struct Program<'a> {
    random: &'a mut Random,
    /// Once in so many arguments one joins two types, 0 for never.
    joins: usize,
    /// Once in so many arguments one makes a type a function, 0 for never.
    functions: usize,
    lines: String,
    rows: usize,
}

impl<'a> Program<'a> {
    fn new(random: &'a mut Random) -> Program<'a> {
        let (joins, functions) = ([0, 2, 4, 8][random.below(4)], [0, 0, 16, 64][random.below(4)]);
        let mut lines = String::new();
        for own in 0..=ARGUMENTS {
            lines += &format!(" T,{own},ANY P,{own},g{},{own}", random.below(64));
        }
        Program { random, joins, functions, lines, rows: 0 }
    }

    fn row(&mut self, term: String) -> usize {
        self.lines += &format!(" E,{},{term}", self.rows);
        self.rows += 1;
        self.rows - 1
    }

    fn variable(&mut self, parameter: usize) -> usize {
        self.row(format!("VAR,{parameter}"))
    }

    fn apply(&mut self, function: usize, argument: usize) -> usize {
        self.row(format!("APP,{function},{argument}"))
    }

    /// A parameter, or a call where there is room for one.
    fn argument(&mut self) -> usize {
        let has_room = self.rows + 4 <= BODY_ROWS;
        if has_room && self.random.one_in(self.joins) {
            self.join()
        } else if has_room && self.random.one_in(self.functions) {
            self.call()
        } else {
            let parameter = self.random.between(1, ARGUMENTS);
            self.variable(parameter)
        }
    }

    /// Applies parameter 1 to another one: all that it is applied to have the same type.
    fn join(&mut self) -> usize {
        let function = self.variable(1);
        let argument = self.other();
        self.apply(function, argument)
    }

    /// Applies a parameter to a number.
    fn call(&mut self) -> usize {
        let function = self.other();
        let argument = self.row("NUM,1".to_string());
        self.apply(function, argument)
    }

    /// Any argument but parameter 1, which cannot be applied to itself.
    fn other(&mut self) -> usize {
        let parameter = self.random.between(2, ARGUMENTS);
        self.variable(parameter)
    }
}
