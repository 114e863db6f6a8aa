//! Programs that are accepted line by line but not closed, each with a known reason.

use super::program::Program;
use super::random::Random;

/// Why a program is not closed.
#[derive(Clone, Copy, Debug, PartialEq, Eq, PartialOrd, Ord)]
pub enum Opening {
    /// It has no term row.
    NoRow,
    /// A row before the last is no child.
    UnusedRow,
    /// A parameter is not bound.
    UnboundParameter,
    /// A VAR stands outside the body of the LAM that binds its parameter.
    OutsideBody,
}

impl Opening {
    /// All reasons.
    pub const ALL: [Opening; 4] =
        [Opening::NoRow, Opening::UnusedRow, Opening::UnboundParameter, Opening::OutsideBody];
}

/// The lines of a closed program, changed so that they are accepted and it is not closed for this reason.
///
/// `None` if the program has no place for the change.
pub fn opened(random: &mut Random, program: &Program, opening: Opening) -> Option<Vec<String>> {
    let table = program.table();
    let (rows, params) = (table.terms.len(), table.params.len());
    let mut lines = program.lines.clone();
    match opening {
        Opening::NoRow => lines.retain(|line| !line.starts_with('E')),
        Opening::UnusedRow if rows < 256 => lines.push(format!("E,{rows},NUM,1")),
        Opening::UnboundParameter if params < 64 && !table.types.is_empty() => {
            let type_row = random.below(table.types.len());
            lines.push(format!("P,{params},g{},{type_row}", random.below(64)));
        }
        Opening::OutsideBody if rows + 2 <= 256 && params > 0 => {
            // The last row and a VAR become children of a new last row.
            lines.push(format!("E,{rows},VAR,{}", random.below(params)));
            let children = match random.one_in(2) {
                true => format!("{},{rows}", rows - 1),
                false => format!("{rows},{}", rows - 1),
            };
            let name = *random.pick(&["APP", "OP,EQ"])?;
            lines.push(format!("E,{},{name},{children}", rows + 1));
        }
        _ => return None,
    }
    Some(lines)
}
