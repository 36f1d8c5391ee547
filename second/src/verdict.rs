//! The verdict: one value with a case for each kind of reply and its details.

use crate::fault::{self, Fault};

/// What an entry decides.
#[derive(Clone, Copy, PartialEq, Eq, Debug)]
pub enum Verdict {
    Done,
    Workspace,
    Length,
    Header,
    Malformed { line: usize },
    OffBoard { line: usize },
    TooManyNodes { line: usize },
    TooDeep { line: usize },
    Missing { line: usize },
    Remains { line: usize },
    NotApart { line: usize, cell: usize },
    NotElusive { line: usize, cell: usize },
    TooManyOutcomes,
    NotJoined { index: usize },
    Room,
    AfterOver,
    NoSuchCell,
    Taken,
    NoSuchOutcome,
    NamedTwice { line: usize, cell: usize },
    OnStone { line: usize, cell: usize },
    BranchTwice { line: usize },
}

impl Verdict {
    /// Gives the paper's number of the verdict with its line, cell and index.
    pub fn numbers(&self) -> [usize; 4] {
        match *self {
            Verdict::Done => [0, 0, 0, 0],
            Verdict::Workspace => [1, 0, 0, 0],
            Verdict::Length => [2, 0, 0, 0],
            Verdict::Header => [3, 1, 0, 0],
            Verdict::Malformed { line } => [4, line, 0, 0],
            Verdict::OffBoard { line } => [5, line, 0, 0],
            Verdict::TooManyNodes { line } => [6, line, 0, 0],
            Verdict::TooDeep { line } => [7, line, 0, 0],
            Verdict::Missing { line } => [8, line, 0, 0],
            Verdict::Remains { line } => [9, line, 0, 0],
            Verdict::NotApart { line, cell } => [10, line, cell, 0],
            Verdict::NotElusive { line, cell } => [11, line, cell, 0],
            Verdict::TooManyOutcomes => [12, 0, 0, 0],
            Verdict::NotJoined { index } => [13, 0, 0, index],
            Verdict::Room => [14, 0, 0, 0],
            Verdict::AfterOver => [15, 0, 0, 0],
            Verdict::NoSuchCell => [16, 0, 0, 0],
            Verdict::Taken => [17, 0, 0, 0],
            Verdict::NoSuchOutcome => [18, 0, 0, 0],
            Verdict::NamedTwice { line, cell } => [19, line, cell, 0],
            Verdict::OnStone { line, cell } => [20, line, cell, 0],
            Verdict::BranchTwice { line } => {
                [24, line, usize::from(fault::on(Fault::TwinsCell)), 0]
            }
        }
    }
}
