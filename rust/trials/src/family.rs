//! A family of cases, and a run of it.

use crate::case::Case;
use crate::implementation::Implementation;
use crate::reference;
use crate::smallest::smallest;
use seeded::Generator;

/// Cases of one kind.
pub struct Family {
    /// What the cases are, in the words of the line that counts them.
    pub name: &'static str,
    /// Tries them all, up to the first that fails, and says what is wrong there.
    pub run: fn(&mut Run) -> Result<(), String>,
}

/// A run of one family.
pub struct Run {
    /// The implementation under trial.
    pub subject: Implementation,
    /// Where this family's random inputs come from.
    pub generator: Generator,
    /// How many random cases are asked for, if the usual number is not.
    cases: Option<usize>,
    /// How many cases have agreed so far.
    agreed: usize,
}

impl Family {
    /// Tries all cases: how many agree, or what is wrong with the first that
    /// doesn't. `cases` is the number of random ones, or none for as many as
    /// usual.
    pub fn tried(
        &self,
        subject: Implementation,
        seed: u64,
        cases: Option<usize>,
    ) -> Result<usize, String> {
        let mut run = Run {
            subject,
            generator: self.generator(seed),
            cases,
            agreed: 0,
        };
        (self.run)(&mut run)?;
        Ok(run.agreed)
    }

    /// A generator for this family alone, by its name, so that no family changes
    /// the cases of another.
    fn generator(&self, seed: u64) -> Generator {
        let state = self.name.bytes().fold(seed, |state, byte| {
            Generator::new(state ^ u64::from(byte)).number()
        });
        Generator::new(state)
    }
}

impl Run {
    /// How many random cases to try.
    pub fn cases(&self, usual: usize) -> usize {
        self.cases.unwrap_or(usual)
    }

    /// Holds the implementation under trial against the references on a case.
    pub fn check(&mut self, case: &Case) -> Result<(), String> {
        let Some(wrong) = self.wrong(case) else {
            self.agreed += 1;
            return Ok(());
        };
        // What fails by the bytes beside it alone may not fail again.
        let smallest = smallest(case, |case| self.wrong(case).is_some());
        let wrong = self.wrong(&smallest).unwrap_or(wrong);
        Err(format!("case {}: {smallest}: {wrong}", self.agreed + 1))
    }

    /// What is wrong with what came of a case, if anything is.
    fn wrong(&mut self, case: &Case) -> Option<String> {
        let outcome = match case.guarded_outcome(&self.subject, &mut self.generator) {
            Ok(outcome) => outcome,
            Err(wrong) => return Some(wrong),
        };
        match reference::outcome(case) {
            Ok(right) => outcome.difference(&right),
            Err(wrong) => Some(wrong),
        }
    }

    /// Counts cases that were tried in another way.
    pub fn count(&mut self, agreed: usize) {
        self.agreed += agreed;
    }
}

#[cfg(test)]
mod tests;
