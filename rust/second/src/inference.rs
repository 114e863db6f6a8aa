//! The fourth call, infer, which reads a table and changes nothing in it.

use crate::report;
use crate::table::Table;
use crate::typing::{self, Judgement, NoTyping};

/// What an inference returns.
#[derive(Clone, Copy, Debug, PartialEq, Eq)]
pub struct Answer {
    /// 0, or the refusal's number.
    pub number: u32,
    /// The row that 21, 22 or 23 names, or the parameter that 24 names, otherwise 0.
    pub row: u32,
    /// The report's length in bytes, 0 for a refusal.
    pub length: u32,
}

/// Why a program is refused.
#[derive(Clone, Copy, Debug, PartialEq, Eq)]
pub struct Refusal {
    /// The refusal's number.
    pub number: u32,
    /// The row that 21, 22 or 23 names, or the parameter that 24 names, otherwise 0.
    pub row: u32,
}

impl Table {
    /// Writes the report into the buffer if the greatest typing meets every floor; refusals leave it unchanged.
    pub fn infer(&self, buffer: &mut [u8]) -> Answer {
        let refused = |number, row| Answer { number, row, length: 0 };
        if buffer.len() < report::LONGEST_REPORT {
            return refused(11, 0);
        }
        let judgement = match self.accepted() {
            Err(refusal) => return refused(refusal.number, refusal.row),
            Ok(judgement) => judgement,
        };
        let report = report::bytes(self.schemes(), &judgement);
        buffer[..report.len()].copy_from_slice(&report);
        Answer { number: 0, row: 0, length: report.len() as u32 }
    }

    /// What is reported of a program that infer accepts, or why it refuses the program.
    pub fn accepted(&self) -> Result<Judgement, Refusal> {
        if !self.closed() {
            return Err(Refusal { number: 10, row: 0 });
        }
        let without_typing = |NoTyping { number, row }: NoTyping| Refusal { number, row };
        let judgement = typing::judge(self).map_err(without_typing)?;
        let missed = self.missed_floors(&judgement).next();
        match missed {
            Some(parameter) => Err(Refusal { number: 24, row: parameter as u32 }),
            None => Ok(judgement),
        }
    }

    /// The parameters whose word in this table's judgement is not at or above their floor, rising.
    pub fn missed_floors<'a>(
        &'a self,
        judgement: &'a Judgement,
    ) -> impl Iterator<Item = usize> + 'a {
        let met = |own: usize| {
            self.schemes().at_or_below(self.params[own].floor, judgement.params[own].word)
        };
        (0..self.params.len()).filter(move |&own| !met(own))
    }
}
