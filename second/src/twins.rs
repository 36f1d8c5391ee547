//! Follow-up C-20: waits with two moves whose branches are the same, and the refusal 24.

use crate::fault::{self, Fault};
use crate::sheet::{Move, Wait};
use crate::verdict::Verdict;

/// A line of a branch: its kind, its cell (0 on a wait's line) and its count.
type Line = (char, usize, usize);

/// Adds the lines of a branch: the move's own and all lines under it.
fn add_lines(step: &Move, lines: &mut Vec<Line>) {
    lines.push(('m', step.cell, step.waits.len()));
    for wait in &step.waits {
        lines.push(('w', 0, wait.moves.len()));
        wait.moves.iter().for_each(|next| add_lines(next, lines));
    }
}

/// Lists the lines that a branch is compared by: all of them, in their order.
fn compared(step: &Move) -> Vec<Line> {
    let mut lines = Vec::new();
    add_lines(step, &mut lines);
    if fault::on(Fault::TwinsFirstLines) {
        lines.truncate(1);
    }
    if fault::on(Fault::TwinsButLastLine) && lines.len() > 1 {
        lines.pop();
    }
    if fault::on(Fault::TwinsWithoutCounts) {
        lines.iter_mut().for_each(|line| line.2 = 0);
    }
    if fault::on(Fault::TwinsInAnyOrder) {
        lines.sort_unstable();
    }
    lines
}

/// Says whether two branches, by their places under a wait, are compared: any two are.
fn looked_at(one: usize, other: usize, branch: &[Line]) -> bool {
    let next_only = fault::on(Fault::TwinsNextOnly) && other > one + 1;
    let of_first_only = fault::on(Fault::TwinsOfFirstOnly) && one > 0;
    let of_singles_only = fault::on(Fault::TwinsOfSinglesOnly) && branch.len() > 1;
    !(next_only || of_first_only || of_singles_only)
}

/// Finds two moves of a wait whose branches are the same, and gives the later one.
fn twin(wait: &Wait) -> Option<&Move> {
    let branches: Vec<Vec<Line>> = wait.moves.iter().map(compared).collect();
    for (one, branch) in branches.iter().enumerate() {
        let later = one + 1..branches.len();
        let same = |&other: &usize| branches[other] == *branch && looked_at(one, other, branch);
        if let Some(other) = later.into_iter().find(same) {
            return Some(&wait.moves[other]);
        }
    }
    None
}

/// Adds all waits under a move, in line order.
fn add_waits<'a>(step: &'a Move, waits: &mut Vec<&'a Wait>) {
    let inner_first = fault::on(Fault::TwinsInnerFirst);
    for wait in &step.waits {
        if !inner_first {
            waits.push(wait);
        }
        wait.moves.iter().for_each(|next| add_waits(next, waits));
        if inner_first {
            waits.push(wait);
        }
    }
}

/// Refuses a tree that has a wait with the same branch twice, at the first such wait: 24.
pub fn no_twins(root: &Move) -> Result<(), Verdict> {
    let mut waits = Vec::new();
    if fault::on(Fault::TwinsUnderRootOnly) {
        waits.extend(&root.waits);
    } else {
        add_waits(root, &mut waits);
    }
    if fault::on(Fault::TwinsLastWait) {
        waits.reverse();
    }
    for wait in waits {
        if let Some(step) = twin(wait) {
            let line = if fault::on(Fault::TwinsMoveLine) { step.line } else { wait.line };
            return Err(Verdict::BranchTwice { line });
        }
    }
    Ok(())
}
