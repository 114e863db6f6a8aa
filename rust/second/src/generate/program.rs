//! Random closed programs of up to 256 rows, typable and not.

use super::goals::{any_code, wrong_code, wrong_scheme, Aim, Departures, Goal, QualifierPlan};
use super::order;
use super::random::Random;
use crate::operation::Operation;
use crate::rows::{Parameter, QualifiedRow, Term, TypeRow};
use crate::schemes::{Code, SchemeTable, PLAIN};
use crate::table::Table;

/// A closed program as lines to add, with redeclarations to be made after them.
pub struct Program {
    /// The scheme table that its words are from.
    pub schemes: SchemeTable,
    /// The lines without line feeds; all are accepted by a fresh table of these schemes.
    pub lines: Vec<String>,
    /// Parameters and codes for redeclare, all accepted after the lines.
    pub redeclarations: Vec<(u64, u64)>,
}

impl Program {
    /// The lines as one text, each ended by a line feed.
    pub fn text(&self) -> Vec<u8> {
        self.lines.iter().flat_map(|line| format!("{line}\n").into_bytes()).collect()
    }

    /// The table after the lines and the redeclarations.
    pub fn table(&self) -> Table {
        let mut table = Table::fresh_of(self.schemes.clone());
        for line in &self.lines {
            table.add(line.as_bytes());
        }
        for &(parameter, code) in &self.redeclarations {
            table.redeclare(parameter, code);
        }
        table
    }
}

/// A random closed program under the built-in six, as [`closed_program_under`] makes it.
pub fn closed_program(random: &mut Random, rows: usize) -> Program {
    closed_program_under(random, SchemeTable::six(), rows)
}

/// A random closed program without floors, with so many rows, or fewer where the parameters run out.
pub fn closed_program_under(random: &mut Random, schemes: &SchemeTable, rows: usize) -> Program {
    let rows = rows.clamp(1, Table::TERM_LIMIT);
    let mut builder = Builder::new(random, schemes, rows);
    builder.program(rows);
    builder.unused_types();
    let redeclarations = builder.redeclarations();
    let Builder { types, params, terms, .. } = builder;
    let mut table = Table::fresh_of(schemes.clone());
    (table.types, table.params) = (types, params);
    table.terms = order::numbered(random, &terms);
    Program { lines: order::lines(random, &table), redeclarations, schemes: schemes.clone() }
}

/// The lists that grow while a program is built; every child stands below its parent.
struct Builder<'a> {
    random: &'a mut Random,
    schemes: &'a SchemeTable,
    departures: Departures,
    plan: QualifierPlan,
    types: Vec<TypeRow>,
    /// The shape that each used type row was declared for.
    aims: Vec<Aim>,
    params: Vec<Parameter>,
    /// The goal that each parameter was declared for.
    goals: Vec<Goal>,
    terms: Vec<Term>,
    /// The parameters whose LAM encloses the term under construction.
    scope: Vec<u16>,
}

impl<'a> Builder<'a> {
    fn new(random: &'a mut Random, schemes: &'a SchemeTable, rows: usize) -> Builder<'a> {
        let classes = random.between(1, 1 + (rows / 4).min(5));
        Builder {
            departures: Departures::random(random, rows),
            plan: QualifierPlan::random(random, schemes, classes),
            random,
            schemes,
            types: vec![],
            aims: vec![],
            params: vec![],
            goals: vec![],
            terms: vec![],
            scope: vec![],
        }
    }

    /// Builds a whole program.
    fn program(&mut self, rows: usize) {
        let outer = self.outer_goals(rows);
        for goal in &outer {
            let parameter = self.parameter(goal);
            self.scope.push(parameter);
        }
        let body_rows = rows - outer.len();
        let goal = self.plan.goal(self.random, if body_rows > 8 { 2 } else { 0 });
        let mut row = self.term(goal, body_rows);
        for parameter in std::mem::take(&mut self.scope) {
            row = self.push(Term::Lambda { parameter, body: row });
        }
        // Functions of unused parameters make up for rows that the body left over.
        while self.terms.len() < rows && self.params.len() < Table::PARAMETER_LIMIT {
            let goal = self.plan.goal(self.random, 1);
            let parameter = self.parameter(&goal);
            row = self.push(Term::Lambda { parameter, body: row });
        }
    }

    /// Goals of the outer parameters: an integer for each class, and some others.
    fn outer_goals(&mut self, rows: usize) -> Vec<Goal> {
        let mut goals: Vec<Goal> = (0..self.plan.classes()).map(Goal::int).collect();
        for _ in 0..self.random.below(1 + (rows / 8).min(6)) {
            goals.push(self.plan.goal(self.random, 2));
        }
        goals.truncate(if self.random.one_in(4) { 0 } else { rows / 2 });
        goals
    }

    /// Builds a term for a goal with at most so many rows, at least one.
    fn term(&mut self, goal: Goal, rows: usize) -> u16 {
        if !self.random.one_in(self.departures.wrong_shape) {
            return self.fitting_term(goal, rows);
        }
        if rows >= 3 && self.random.one_in(2) {
            return self.any_call(rows);
        }
        let other = self.plan.goal(self.random, 2);
        self.fitting_term(other, rows)
    }

    /// Builds a term that is meant to reach the goal.
    fn fitting_term(&mut self, goal: Goal, rows: usize) -> u16 {
        match self.random.below(4) {
            0 if self.may_bind(rows, 3 + goal.fewest_rows()) => self.immediate_call(goal, rows),
            1 => match self.parameter_call(&goal, rows) {
                Some(row) => row,
                None => self.direct(&goal, rows),
            },
            2 if goal.aim != Aim::Int && self.fitting_parameter(&goal).is_some() => {
                self.leaf(&goal)
            }
            _ => self.direct(&goal, rows),
        }
    }

    /// Builds a term by the rule that its shape suggests.
    fn direct(&mut self, goal: &Goal, rows: usize) -> u16 {
        match &goal.aim {
            Aim::Int => self.operation(goal, rows),
            Aim::Arrow(argument, result) if self.may_bind(rows, 2) => {
                self.function(argument, (**result).clone(), rows)
            }
            Aim::Arrow(..) => self.leaf(goal),
        }
    }

    /// Tells whether a LAM can be made in so many rows.
    fn may_bind(&self, rows: usize, fewest: usize) -> bool {
        rows >= fewest && self.params.len() < Table::PARAMETER_LIMIT
    }

    /// A LAM with a new parameter.
    fn function(&mut self, argument: &Goal, result: Goal, rows: usize) -> u16 {
        let parameter = self.parameter(argument);
        self.scope.push(parameter);
        let body = self.term(result, rows - 1);
        self.scope.pop();
        self.push(Term::Lambda { parameter, body })
    }

    /// A LAM applied at once.
    fn immediate_call(&mut self, goal: Goal, rows: usize) -> u16 {
        let most = rows - 2 - goal.fewest_rows();
        let mut argument_goal = self.plan.goal(self.random, 2);
        if argument_goal.fewest_rows() > most {
            argument_goal = Goal::int(argument_goal.class);
        }
        // Leaves as arguments are tied to a parameter alone, and not to an operation.
        let most = if self.random.one_in(2) { argument_goal.fewest_rows() } else { most };
        let argument_rows = self.random.between(argument_goal.fewest_rows(), most);
        let function = self.function(&argument_goal, goal, rows - 1 - argument_rows);
        let argument = self.term(argument_goal, argument_rows);
        self.push(Term::Apply { function, argument })
    }

    /// A parameter in scope applied to an argument, if one gives the goal.
    fn parameter_call(&mut self, goal: &Goal, rows: usize) -> Option<u16> {
        let gives = |parameter: u16| match &self.goals[usize::from(parameter)].aim {
            Aim::Arrow(argument, result) if **result == *goal => {
                (argument.fewest_rows() + 2 <= rows).then(|| (parameter, (**argument).clone()))
            }
            _ => None,
        };
        let candidates: Vec<_> =
            self.scope.iter().filter_map(|&parameter| gives(parameter)).collect();
        let (parameter, argument_goal) = self.random.pick(&candidates)?.clone();
        let function = self.push(Term::Variable { parameter });
        let argument = self.term(argument_goal, rows - 2);
        Some(self.push(Term::Apply { function, argument }))
    }

    /// Any term applied to any other.
    fn any_call(&mut self, rows: usize) -> u16 {
        let (one, other) = (self.plan.goal(self.random, 2), self.plan.goal(self.random, 2));
        let function_rows = self.random.between(1, rows - 2);
        let function = self.term(one, function_rows);
        let argument = self.term(other, rows - 1 - function_rows);
        self.push(Term::Apply { function, argument })
    }

    /// An operation on two terms, or a leaf where none fits.
    fn operation(&mut self, goal: &Goal, rows: usize) -> u16 {
        let supported = self.supported_operations(goal);
        let Some((operation, class)) = self.preferred(&supported, rows).filter(|_| rows >= 3)
        else {
            return self.leaf(goal);
        };
        let left_rows = self.random.between(1, rows - 2);
        let left = self.term(Goal::int(class), left_rows);
        let right = self.term(Goal::int(class), rows - 1 - left_rows);
        self.push(Term::Operate { operation, left, right })
    }

    /// One of these operations, often one that makes good use of so many rows.
    ///
    /// Few schemes support arithmetic, so operands of a fixed scheme are mostly leaves.
    fn preferred(
        &mut self,
        supported: &[(Operation, usize)],
        rows: usize,
    ) -> Option<(Operation, usize)> {
        let is_fixed = |class| self.plan.constant(class).is_some_and(|it| it != PLAIN);
        let is_preferred = |&&(operation, class): &&(Operation, usize)| match rows {
            0..=8 => is_fixed(class),
            _ => operation.keeps_qualifier(),
        };
        let preferred: Vec<_> = supported.iter().filter(is_preferred).collect();
        match self.random.pick(&preferred) {
            Some(&&operation) if !self.random.one_in(3) => Some(operation),
            _ => self.random.pick(supported).copied(),
        }
    }

    /// The operations that give the goal, each with a class for its operands that supports it, or does not where it departs.
    fn supported_operations(&mut self, goal: &Goal) -> Vec<(Operation, usize)> {
        let departs = self.random.one_in(self.departures.wrong_operation);
        let classes = |operation| (0..self.plan.classes()).map(move |class| (operation, class));
        let gives = |&(operation, class): &(Operation, usize)| {
            goal.class == if operation.keeps_qualifier() { class } else { 0 }
        };
        let supports = |&(operation, class): &(Operation, usize)| {
            let highest = self.schemes.highest(operation);
            self.plan.constant(class).is_none_or(|it| self.schemes.at_or_below(it, highest))
        };
        let all = Operation::ALL.into_iter().flat_map(classes).filter(gives);
        let (supported, unsupported): (Vec<_>, Vec<_>) = all.partition(supports);
        if departs && !unsupported.is_empty() {
            unsupported
        } else {
            supported
        }
    }

    /// A row without children: a parameter in scope, a number or an encrypted number.
    fn leaf(&mut self, goal: &Goal) -> u16 {
        let departs = self.random.one_in(self.departures.wrong_qualifier);
        let variable = self.fitting_parameter(goal);
        let value = (self.random.number() >> self.random.between(32, 63)) as u32;
        let scheme = match self.plan.constant(goal.class) {
            _ if departs => Some(wrong_scheme(self.random, self.schemes)),
            Some(PLAIN) => None,
            Some(constant) => Some(constant).filter(|_| self.random.one_in(2)),
            // A scheme fixes the class, so it stays free where a parameter has it.
            None if variable.is_some() => None,
            None => {
                let scheme = wrong_scheme(self.random, self.schemes);
                self.random.one_in(2).then_some(scheme)
            }
        };
        let prefers_variable = !departs && !self.random.one_in(3);
        self.push(match (variable, scheme) {
            (Some(parameter), _) if prefers_variable => Term::Variable { parameter },
            (_, Some(scheme)) => Term::Encrypted { scheme, value },
            // A number follows whatever it is tied to, so it fits every class.
            _ => Term::Number { value },
        })
    }

    /// A parameter in scope that was declared for this goal.
    fn fitting_parameter(&mut self, goal: &Goal) -> Option<u16> {
        let fits = |&parameter: &u16| self.goals[usize::from(parameter)] == *goal;
        let candidates: Vec<u16> = self.scope.iter().copied().filter(fits).collect();
        self.random.pick(&candidates).copied()
    }

    /// Declares a parameter for a goal.
    fn parameter(&mut self, goal: &Goal) -> u16 {
        let type_row = self.type_row(&goal.aim);
        let qualifier = self.qualifier(goal.class);
        self.params.push(Parameter { qualifier, type_row, floor: PLAIN });
        self.goals.push(goal.clone());
        (self.params.len() - 1) as u16
    }

    /// A declared qualifier for a class.
    fn qualifier(&mut self, class: usize) -> Code {
        match self.random.one_in(self.departures.wrong_qualifier) {
            true => wrong_code(self.random, self.schemes),
            false => self.plan.code(self.random, class),
        }
    }

    /// A type row for a shape: an earlier one, an unknown, or the shape itself.
    fn type_row(&mut self, aim: &Aim) -> u16 {
        let fits = |row: &usize| self.aims[*row] == *aim;
        let earlier: Vec<usize> = (0..self.types.len()).filter(fits).collect();
        // An arrow of depth two declares up to three rows after this test.
        let full = self.types.len() + 4 > Table::TYPE_LIMIT;
        if let Some(&row) = self.random.pick(&earlier).filter(|_| full || self.random.one_in(2)) {
            return row as u16;
        }
        if full || self.types.len() > 1 && self.random.one_in(4 * self.departures.wrong_shape) {
            // A row of another shape: there is no place for a fitting one, or a departure.
            return self.random.below(self.types.len()) as u16;
        }
        let row = match aim {
            _ if self.random.one_in(2) => TypeRow::Any,
            Aim::Int => TypeRow::Int,
            Aim::Arrow(argument, result) => TypeRow::Arrow {
                argument: self.qualified_row(argument),
                result: self.qualified_row(result),
            },
        };
        self.types.push(row);
        self.aims.push(aim.clone());
        (self.types.len() - 1) as u16
    }

    /// A declared qualifier and a type row for a goal.
    fn qualified_row(&mut self, goal: &Goal) -> QualifiedRow {
        QualifiedRow { type_row: self.type_row(&goal.aim), qualifier: self.qualifier(goal.class) }
    }

    /// Appends type rows that nothing uses; their variables still stand in T lines.
    fn unused_types(&mut self) {
        let count = if self.random.one_in(3) { self.random.below(4) } else { 0 };
        for _ in 0..count {
            if self.types.is_empty() || self.types.len() >= Table::TYPE_LIMIT {
                return;
            }
            let mut part = || QualifiedRow {
                qualifier: any_code(self.random, self.schemes),
                type_row: self.random.below(self.types.len()) as u16,
            };
            let row = TypeRow::Arrow { argument: part(), result: part() };
            self.types.push(row);
        }
    }

    /// Moves the qualifiers of some parameters from their lines to redeclarations.
    fn redeclarations(&mut self) -> Vec<(u64, u64)> {
        let mut redeclarations = vec![];
        let often = if self.random.one_in(3) { 2 } else { 0 };
        for (number, parameter) in self.params.iter_mut().enumerate() {
            if self.random.one_in(often) {
                redeclarations.push((number as u64, u64::from(parameter.qualifier)));
                parameter.qualifier = wrong_code(self.random, self.schemes);
            }
        }
        redeclarations
    }

    /// Appends a term row.
    fn push(&mut self, term: Term) -> u16 {
        self.terms.push(term);
        (self.terms.len() - 1) as u16
    }
}
