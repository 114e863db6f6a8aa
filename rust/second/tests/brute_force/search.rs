//! An exhaustive search for typings over a finite set of types.
//!
//! A typing is determined by the named variables' qualifiers, the types of the ANY rows and the
//! qualifiers of the NUM rows: everything else follows bottom up. The search tries all of them
//! and checks the typing rules as they are written.

use crate::order::{Order, MOST_CODES};
use second::operation::Operation;
use second::rows::{Parameter, QualifiedRow, Term, TypeRow};
use second::schemes::PLAIN;
use second::typing::{judge, Judgement, Shape, Slot};
use second::Table;
use std::collections::HashMap;

/// The number of a type; equal types have equal numbers.
type TypeNumber = usize;

/// A qualifier code with a type.
type QualifiedType = (u8, TypeNumber);

const INT: TypeNumber = 0;

/// A bit for each code.
type CodeSet = u16;

/// Stands for the qualifier of a NUM row as long as no row has used it: every code meets the rules.
const UNDECIDED: u8 = MOST_CODES as u8;

/// The types that have been formed, each with its own number.
#[derive(Default)]
struct Types {
    arrows: Vec<(QualifiedType, QualifiedType)>,
    numbers: HashMap<(QualifiedType, QualifiedType), TypeNumber>,
}

impl Types {
    /// The arrow between two qualified types.
    fn arrow(&mut self, argument: QualifiedType, result: QualifiedType) -> TypeNumber {
        *self.numbers.entry((argument, result)).or_insert_with(|| {
            self.arrows.push((argument, result));
            self.arrows.len()
        })
    }

    /// The argument and the result, if the type is an arrow.
    fn parts(&self, type_number: TypeNumber) -> Option<(QualifiedType, QualifiedType)> {
        self.arrows.get(type_number.checked_sub(1)?).copied()
    }

    /// All types up to a depth with the qualifiers of these codes, but for those with a function under a scheme inside.
    fn up_to_depth(&mut self, depth: usize, codes: u8) -> Vec<TypeNumber> {
        let mut found = vec![INT];
        let codes_with = |number| if number == INT { 0..codes } else { PLAIN..PLAIN + 1 };
        for _ in 0..depth {
            let lower = found;
            let qualified =
                |&number: &TypeNumber| codes_with(number).map(move |code| (code, number));
            let parts: Vec<QualifiedType> = lower.iter().flat_map(qualified).collect();
            found = vec![INT];
            for &argument in &parts {
                found.extend(parts.iter().map(|&result| self.arrow(argument, result)));
            }
        }
        found
    }
}

/// Which part of the rules the search respects.
#[derive(Clone, Copy, PartialEq)]
pub enum Rules {
    WithoutQualifiers,
    WithoutBounds,
    /// All but that functions are PLAIN.
    EncryptedFunctions,
    All,
}

impl Rules {
    /// How many qualifiers are told apart.
    fn codes(self, order: &Order) -> u8 {
        match self {
            Rules::WithoutQualifiers => 1,
            Rules::WithoutBounds | Rules::EncryptedFunctions | Rules::All => order.codes,
        }
    }

    /// Tells whether "at or below" in OP counts.
    fn have_bounds(self) -> bool {
        matches!(self, Rules::EncryptedFunctions | Rules::All)
    }
}

/// What a search is for.
#[derive(Clone, Copy, PartialEq)]
enum Wanted {
    /// How many rows from row 0 on have a typing; one of the whole table ends the search.
    MostRows,
    /// All typings of the whole table.
    Typings,
}

/// One choice of the named variables' codes and the ANY rows' types.
struct Choice {
    variables: Vec<u8>,
    unknowns: Vec<TypeNumber>,
}

impl Choice {
    /// Takes the variables' codes and the places of the types among the candidates.
    fn take(&mut self, digits: &[usize], candidates: &[TypeNumber]) {
        let (codes, places) = digits.split_at(self.variables.len());
        self.variables.iter_mut().zip(codes).for_each(|(it, &code)| *it = code as u8);
        self.unknowns.iter_mut().zip(places).for_each(|(it, &place)| *it = candidates[place]);
    }
}

/// A check of the rules for one choice after the other, with every choice of the NUM rows' qualifiers.
struct Check<'a> {
    order: &'a Order,
    table: &'a Table,
    rules: Rules,
    wanted: Wanted,
    choice: Choice,
    types: Types,
    /// The solver's words and shapes, where a typing may have them.
    reported: Option<Judgement>,
    type_rows: Vec<TypeNumber>,
    rows: Vec<QualifiedType>,
}

impl Check<'_> {
    /// The qualifier that stands for a code; one for all if qualifiers are ignored.
    fn qualifier(&self, code: u8) -> u8 {
        match code {
            _ if self.rules == Rules::WithoutQualifiers => 0,
            _ if code < self.order.codes => code,
            _ => self.choice.variables[usize::from(code - self.order.codes)],
        }
    }

    /// The qualified type that a line declares.
    fn declared(&self, row: QualifiedRow) -> QualifiedType {
        (self.qualifier(row.qualifier), self.type_rows[usize::from(row.type_row)])
    }

    /// The qualified type of a parameter.
    fn parameter(&self, parameter: u16) -> QualifiedType {
        self.declared(self.table.params[usize::from(parameter)].declared())
    }

    /// Gives each type row its type.
    fn take_type_rows(&mut self) {
        let mut unknown = 0;
        self.type_rows.clear();
        for row in &self.table.types {
            let type_number = match *row {
                TypeRow::Int => INT,
                TypeRow::Any => {
                    unknown += 1;
                    self.choice.unknowns[unknown - 1]
                }
                TypeRow::Arrow { argument, result } => {
                    let parts = (self.declared(argument), self.declared(result));
                    self.types.arrow(parts.0, parts.1)
                }
            };
            self.type_rows.push(type_number);
        }
    }

    /// "Wherever a qualifier stands with an arrow, in a typing or inside one of its types, it is PLAIN."
    fn has_plain_functions(&self, (qualifier, type_number): QualifiedType) -> bool {
        match self.types.parts(type_number) {
            _ if self.rules == Rules::EncryptedFunctions => true,
            None => true,
            Some((argument, result)) => {
                qualifier == PLAIN
                    && self.has_plain_functions(argument)
                    && self.has_plain_functions(result)
            }
        }
    }

    /// Tells whether the choice is a typing of the T and P lines; a type row has no qualifier of its own.
    fn lines_hold(&self) -> bool {
        let mut types = self.type_rows.iter().map(|&type_number| (PLAIN, type_number));
        let mut params = self.table.params.iter().map(|it| self.declared(it.declared()));
        types.all(|it| self.has_plain_functions(it))
            && params.all(|it| self.has_plain_functions(it))
    }

    /// The qualified type of a term row by its rule, if it has one.
    fn rule(&mut self, term: Term) -> Option<QualifiedType> {
        let row = |number: u16| self.rows[usize::from(number)];
        match term {
            Term::Lambda { parameter, body } => {
                let body = row(body);
                let parameter = self.parameter(parameter);
                Some((self.qualifier(0), self.types.arrow(parameter, body)))
            }
            Term::Apply { function, argument } => {
                let (from, to) = self.types.parts(row(function).1)?;
                (from == row(argument)).then_some(to)
            }
            Term::Operate { operation, left, right } => {
                self.operate(operation, row(left), row(right))
            }
            Term::Variable { parameter } => Some(self.parameter(parameter)),
            // "A NUM row now has type INT under any one qualifier"; the row that uses it tries each.
            Term::Number { .. } => Some((UNDECIDED, INT)),
            Term::Encrypted { scheme, .. } => Some((self.qualifier(scheme), INT)),
        }
    }

    /// The rule of OP.
    fn operate(
        &self,
        operation: Operation,
        left: QualifiedType,
        right: QualifiedType,
    ) -> Option<QualifiedType> {
        let result = match operation {
            Operation::Add | Operation::Mul => left.0,
            Operation::Eq | Operation::Lt | Operation::Gt => self.qualifier(0),
        };
        let integers = left.1 == INT && right.1 == INT;
        let supported = !self.rules.have_bounds() || self.order.supports(left.0, operation);
        (integers && left.0 == right.0 && supported).then_some((result, INT))
    }

    /// Tells whether nothing that is wanted is left to find.
    fn is_over(&self, found: &Found) -> bool {
        self.wanted == Wanted::MostRows && found.most_rows == Some(self.table.terms.len())
    }

    /// Takes all typings that begin with the rows so far.
    fn visit(&mut self, found: &mut Found) {
        found.most_rows = found.most_rows.max(Some(self.rows.len()));
        if self.is_over(found) {
            return;
        }
        let Some(&term) = self.table.terms.get(self.rows.len()) else {
            return self.take_typing(found);
        };
        let numbers: Vec<usize> = term
            .children()
            .map(usize::from)
            .filter(|&child| self.rows[child].0 == UNDECIDED)
            .collect();
        self.visit_row(term, &numbers, found);
    }

    /// Goes on with the next row for every choice of these NUM rows' qualifiers.
    ///
    /// No row is a child twice, so that no rule before or after this row's speaks of them.
    fn visit_row(&mut self, term: Term, numbers: &[usize], found: &mut Found) {
        if let Some((&number, others)) = numbers.split_first() {
            for code in 0..self.rules.codes(self.order) {
                self.rows[number].0 = code;
                self.visit_row(term, others, found);
            }
            self.rows[number].0 = UNDECIDED;
        } else if let Some(qualified) = self.rule(term).filter(|&it| self.has_plain_functions(it)) {
            self.rows.push(qualified);
            self.visit(found);
            self.rows.pop();
        }
    }

    /// Takes a typing of the whole table.
    fn take_typing(&self, found: &mut Found) {
        let params = self.table.params.iter().map(|it| self.declared(it.declared()));
        let slots: Vec<QualifiedType> = params.chain(self.rows.iter().copied()).collect();
        found.take(self, &slots);
    }
}

/// What the search finds about one table.
#[derive(Default)]
pub struct Found {
    /// The greatest number of rows from row 0 on that have a typing; `None` where the T and P lines alone have none.
    pub most_rows: Option<usize>,
    /// The qualifiers of each variable, parameter and row in all typings of the whole table, a bit for each code.
    words: Vec<CodeSet>,
    /// Whether each parameter and row is INT, and whether it is an arrow, in some typing.
    pub shapes: Vec<(bool, bool)>,
    /// Whether a typing has the solver's words, and its shapes with ANY taken as INT.
    pub has_reported: bool,
    /// Whether some single typing of the whole table meets every floor.
    pub meets_every_floor: bool,
}

/// Tells whether a parameter's floor is at or below a qualifier.
fn meets(order: &Order, parameter: &Parameter, code: u8) -> bool {
    order.at_or_below(parameter.floor, code)
}

impl Found {
    /// Takes a typing of the whole table: the choice's variables, then these parameters and rows.
    fn take(&mut self, check: &Check, slots: &[QualifiedType]) {
        let (order, variables) = (check.order, &check.choice.variables);
        let mut params = check.table.params.iter().zip(slots);
        self.meets_every_floor |= params.all(|(parameter, slot)| meets(order, parameter, slot.0));
        let words = || variables.iter().copied().chain(slots.iter().map(|slot| slot.0));
        self.words.resize(words().count(), 0);
        self.shapes.resize(slots.len(), (false, false));
        for (seen, word) in self.words.iter_mut().zip(words()) {
            *seen |= if word == UNDECIDED { every_code(order) } else { 1 << word };
        }
        for (seen, slot) in self.shapes.iter_mut().zip(slots) {
            seen.0 |= slot.1 == INT;
            seen.1 |= slot.1 != INT;
        }
        let reported = check.reported.as_ref();
        self.has_reported |= reported.is_some_and(|judgement| is_same(judgement, variables, slots));
    }

    /// The parameters whose greatest qualifier is not at or above their floor, after so many variables.
    pub fn missed_floors(&self, order: &Order, table: &Table, variables: usize) -> Vec<usize> {
        let greatest = |own: usize| self.greatest(order, variables + own);
        let met = |own: usize| meets(order, &table.params[own], greatest(own));
        (0..table.params.len()).filter(|&own| !met(own)).collect()
    }

    /// The greatest of the qualifiers that a slot has.
    pub fn greatest(&self, order: &Order, slot: usize) -> u8 {
        let seen = || (0..order.codes).filter(|code| self.words[slot] >> code & 1 == 1);
        let is_greatest = |&upper: &u8| seen().all(|lower| order.at_or_below(lower, upper));
        seen().find(is_greatest).expect("the typings have a greatest qualifier")
    }
}

/// All codes of an order.
fn every_code(order: &Order) -> CodeSet {
    (1 << order.codes) - 1
}

/// Tells whether a typing has the words of a judgement, and its shapes with ANY taken as INT.
fn is_same(judgement: &Judgement, variables: &[u8], slots: &[QualifiedType]) -> bool {
    let same_slot = |(slot, found): (&Slot, &QualifiedType)| {
        let has_word = found.0 == UNDECIDED || found.0 == slot.word;
        has_word && (slot.shape == Shape::Arrow) == (found.1 != INT)
    };
    let same_variable = |&(variable, word): &(u8, u8)| variables[usize::from(variable)] == word;
    judgement.variables.iter().all(same_variable)
        && judgement.params.iter().chain(&judgement.terms).zip(slots).all(same_slot)
}

/// Advances to the next combination of digits; false after the last one.
fn advance(digits: &mut [usize], limits: &[usize]) -> bool {
    for (digit, &limit) in digits.iter_mut().zip(limits) {
        *digit += 1;
        if *digit < limit {
            return true;
        }
        *digit = 0;
    }
    false
}

/// A table to be searched, with the order of its scheme table and how many variables it may have.
#[derive(Clone, Copy)]
pub struct Searched<'a> {
    /// The order of the table's qualifiers.
    pub order: &'a Order,
    /// The table.
    pub table: &'a Table,
    /// Its named variables are `g0` and the next ones, so many.
    pub variables: usize,
}

impl Searched<'_> {
    /// All typings, with variables and NUM rows from all qualifiers, ANY rows from all types up to a depth.
    pub fn typings(self, rules: Rules, depth: usize) -> Found {
        self.try_choices(rules, depth, Wanted::Typings)
    }

    /// How many rows from row 0 on have such a typing; `None` where the T and P lines alone have none.
    pub fn most_rows(self, rules: Rules, depth: usize) -> Option<usize> {
        self.try_choices(rules, depth, Wanted::MostRows).most_rows
    }

    /// The rows that have a typing without qualifiers, with types up to a depth.
    pub fn rows_with_shapes(self, depth: usize) -> Option<usize> {
        Searched { variables: 0, ..self }.most_rows(Rules::WithoutQualifiers, depth)
    }

    /// Tries every choice, as far as it is wanted.
    fn try_choices(self, rules: Rules, depth: usize, wanted: Wanted) -> Found {
        let Searched { order, table, variables } = self;
        let mut types = Types::default();
        let candidates = types.up_to_depth(depth, rules.codes(order));
        let unknowns = table.types.iter().filter(|&&row| row == TypeRow::Any).count();
        let mut limits = vec![usize::from(rules.codes(order)); variables];
        limits.resize(variables + unknowns, candidates.len());
        let mut digits = vec![0; limits.len()];
        // Only with all rules the words can be a typing's.
        let reported = judge(table).ok().filter(|_| rules == Rules::All);
        let choice = Choice { variables: vec![0; variables], unknowns: vec![INT; unknowns] };
        let (type_rows, rows) = (vec![], vec![]);
        let mut check =
            Check { order, table, rules, wanted, choice, types, reported, type_rows, rows };
        let mut found = Found::default();
        loop {
            check.choice.take(&digits, &candidates);
            check.take_type_rows();
            if check.lines_hold() {
                check.visit(&mut found);
            }
            if check.is_over(&found) || !advance(&mut digits, &limits) {
                return found;
            }
        }
    }
}
