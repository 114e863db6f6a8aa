//! Random closed programs whose types are small as graphs and huge as trees.

use second::generate::{text_of_lines, Random};

/// The rows of every program.
const ROWS: usize = 256;
const TYPE_ROWS: usize = 64;

/// A program of 256 rows over chains of type rows that each use an earlier one twice.
///
/// An outer parameter of unknown type is applied to one piece after the other. Most pieces make two
/// types of chains equal, or build a shared type by applications of parameters of unknown type.
pub fn deep_sharing(random: &mut Random) -> Vec<u8> {
    let mut program = Program::new(random);
    while program.rows + program.lambdas() + 8 < ROWS && program.params.len() < 60 {
        let unknown_left = program.unknown + 1 < UNKNOWNS;
        match program.random.below(4) {
            0 if unknown_left => program.applications(),
            1 if unknown_left => program.unknown_takes_chain(),
            _ => program.equal_chains(),
        }
    }
    program.fill();
    program.text()
}

/// The lines so far. Row `function` is what the next piece is an argument of.
struct Program<'a> {
    random: &'a mut Random,
    /// How many chains the type rows form; a row's chain is its number modulo this.
    chains: usize,
    /// Once in so many pieces the two types have different heights, 0 for never.
    departures: usize,
    lines: String,
    /// The type rows of the parameters.
    params: Vec<usize>,
    /// The parameters that no LAM binds yet.
    outer: Vec<usize>,
    rows: usize,
    function: usize,
    /// The unknown type row that was used last; row 0 is the outermost function's.
    unknown: usize,
}

/// The first type row above those that are declared unknown.
const UNKNOWNS: usize = 16;

impl<'a> Program<'a> {
    fn new(random: &'a mut Random) -> Program<'a> {
        let chains = [1, 2, 2, 3, 4][random.below(5)];
        let departures = if random.one_in(8) { 6 } else { 0 };
        let mut program = Program {
            random,
            chains,
            departures,
            lines: String::new(),
            params: vec![],
            outer: vec![],
            rows: 0,
            function: 0,
            unknown: 1,
        };
        let lowest = ["INT", "ANY"][program.random.below(2)];
        for row in 0..TYPE_ROWS {
            let line = match row {
                _ if row < UNKNOWNS => format!(" T,{row},ANY"),
                _ if row < UNKNOWNS + chains => format!(" T,{row},{lowest}"),
                _ => {
                    let (argument, result) = (program.variable(), program.variable());
                    format!(" T,{row},ARROW,{argument},{0},{result},{0}", row - chains)
                }
            };
            program.lines += &line;
        }
        let first = program.outer_param(0);
        program.function = program.row(format!("VAR,{first}"));
        program
    }

    /// LAMs that are still to come: one for each outer parameter, and one that makes the rows even.
    fn lambdas(&self) -> usize {
        self.outer.len() + 1
    }

    fn variable(&mut self) -> String {
        format!("g{}", self.random.below(64))
    }

    fn param(&mut self, type_row: usize) -> usize {
        self.params.push(type_row);
        self.params.len() - 1
    }

    fn outer_param(&mut self, type_row: usize) -> usize {
        let param = self.param(type_row);
        self.outer.push(param);
        param
    }

    fn row(&mut self, term: String) -> usize {
        self.lines += &format!(" E,{},{term}", self.rows);
        self.rows += 1;
        self.rows - 1
    }

    /// Applies what stands to one more piece.
    fn take(&mut self, piece: usize) {
        self.function = self.row(format!("APP,{},{piece}", self.function));
    }

    /// A row of a chain, and one of the same height or now and then of another.
    fn two_of_chains(&mut self) -> (usize, usize) {
        let lowest = UNKNOWNS + self.chains;
        let one = self.random.between(lowest, TYPE_ROWS - self.chains);
        if self.random.one_in(self.departures) {
            return (one, self.random.between(lowest, TYPE_ROWS - 1));
        }
        let height = (one - UNKNOWNS) / self.chains;
        (one, UNKNOWNS + height * self.chains + self.random.below(self.chains))
    }

    /// Makes the types of two rows of chains equal.
    fn equal_chains(&mut self) {
        let (one, other) = self.two_of_chains();
        self.equal(one, other);
    }

    /// Gives an unknown type row the type of a chain.
    fn unknown_takes_chain(&mut self) {
        let (one, _) = self.two_of_chains();
        let unknown = self.next_unknown();
        self.equal(unknown, one);
    }

    /// The identity of one type is applied to a parameter of the other.
    fn equal(&mut self, one: usize, other: usize) {
        let (own, outer) = (self.param(one), self.outer_param(other));
        let body = self.row(format!("VAR,{own}"));
        let identity = self.row(format!("LAM,{own},{body}"));
        let argument = self.row(format!("VAR,{outer}"));
        let piece = self.row(format!("APP,{identity},{argument}"));
        self.take(piece);
    }

    /// x (x y) for x of an unknown type and y of the one before: x is an arrow from y's type to itself.
    fn applications(&mut self) {
        let below = self.unknown;
        let above = self.next_unknown();
        let (x, y) = (self.outer_param(above), self.outer_param(below));
        let argument = self.row(format!("VAR,{y}"));
        let first = self.row(format!("VAR,{x}"));
        let inner = self.row(format!("APP,{first},{argument}"));
        let second = self.row(format!("VAR,{x}"));
        let piece = self.row(format!("APP,{second},{inner}"));
        self.take(piece);
    }

    /// The next unknown type row.
    fn next_unknown(&mut self) -> usize {
        self.unknown += 1;
        self.unknown
    }

    /// Fills up to 256 rows with pieces that are numbers.
    fn fill(&mut self) {
        if (ROWS - self.rows - self.outer.len()) % 2 == 1 {
            let unused = self.param(UNKNOWNS);
            let body = self.row("NUM,1".to_string());
            let piece = self.row(format!("LAM,{unused},{body}"));
            self.take(piece);
        }
        while self.rows + self.outer.len() < ROWS {
            let piece = self.row("NUM,1".to_string());
            self.take(piece);
        }
        for param in std::mem::take(&mut self.outer) {
            self.function = self.row(format!("LAM,{param},{}", self.function));
        }
    }

    /// The text, with the parameters before the rows.
    fn text(mut self) -> Vec<u8> {
        let mut params = String::new();
        for (own, type_row) in std::mem::take(&mut self.params).into_iter().enumerate() {
            params += &format!(" P,{own},{},{type_row}", self.variable());
        }
        let rows = self.lines.find(" E,").unwrap_or(self.lines.len());
        self.lines.insert_str(rows, &params);
        text_of_lines(&self.lines)
    }
}
