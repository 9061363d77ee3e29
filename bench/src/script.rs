//! What a workload is: parts, each some calls; those with a row are measured.

use crate::engine::{Call, Reply};

#[derive(Clone, Copy, Debug)]
pub enum Step {
    /// From here on a ledger that is not open, and a table of so many pages.
    Fresh(usize),
    Call(Call),
}

/// What every answer of a part is, besides being that of the other engine.
#[derive(Clone, Copy, Debug, PartialEq, Eq)]
pub enum Expected {
    Accepted,
    Refused(u64),
    Any,
}

impl Expected {
    pub fn is(self, reply: Reply) -> bool {
        match self {
            Expected::Accepted => reply.error == 0,
            Expected::Refused(number) => reply.error != 0 && reply.value == number,
            Expected::Any => true,
        }
    }
}

/// A line of the tables.
#[derive(Clone, Debug)]
pub struct Row {
    pub group: &'static str,
    pub name: String,
    /// Pages of the table; 0 where they differ.
    pub pages: usize,
    /// Pages of the range that one call names; of a whole TVM or of large pages, all
    /// that it has.
    pub range: usize,
    /// How often the proved code looks at each record of the table, for 17 to 19
    /// and destroy.
    pub looks: Option<usize>,
    /// Whether its growth is shown.
    pub grows: bool,
}

#[derive(Clone, Debug)]
pub struct Part {
    pub row: Option<Row>,
    pub expected: Expected,
    pub steps: Vec<Step>,
}

impl Part {
    pub fn calls(&self) -> usize {
        let is_call = |step: &&Step| matches!(step, Step::Call(_));
        self.steps.iter().filter(is_call).count()
    }
}

/// Parts that follow one another on one ledger.
#[derive(Clone, Debug, Default)]
pub struct Workload {
    pub parts: Vec<Part>,
}

impl Workload {
    /// Calls that are made and not measured.
    pub fn quiet(&mut self, steps: impl IntoIterator<Item = Step>) {
        self.parts.push(Part {
            row: None,
            expected: Expected::Accepted,
            steps: steps.into_iter().collect(),
        });
    }

    pub fn measured(
        &mut self,
        row: Row,
        expected: Expected,
        steps: impl IntoIterator<Item = Step>,
    ) {
        self.parts.push(Part {
            row: Some(row),
            expected,
            steps: steps.into_iter().collect(),
        });
    }
}

/// A call, its unnamed arguments 0.
pub fn call(number: u64, hart: u64, named: &[u64]) -> Step {
    let mut args = [0; 6];
    args[..named.len()].copy_from_slice(named);
    Step::Call(Call { number, hart, args })
}
