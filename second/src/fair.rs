//! Section "Fair sheets", first half: the cells of a node, apart and elusive.

use crate::fault::{self, Fault};
use crate::live::{cells_of_live, cells_of_live_wait};
use crate::sheet::{Move, Wait};
use std::collections::BTreeSet;

/// A fault of fairness: the line of the node and its faulty cell.
pub type Found = (usize, usize);

/// Gives all cells named at a move or under it.
pub fn cells_of_move(step: &Move) -> BTreeSet<usize> {
    let mut cells = BTreeSet::new();
    add_cells_of_move(step, &mut cells);
    cells
}

/// Gives all cells named under a wait.
pub fn cells_of_wait(wait: &Wait) -> BTreeSet<usize> {
    let mut cells = BTreeSet::new();
    add_cells_of_wait(wait, &mut cells);
    cells
}

/// Adds a move's own cell, if any, and the cells of its waits.
fn add_cells_of_move(step: &Move, cells: &mut BTreeSet<usize>) {
    if step.cell != 0 {
        cells.insert(step.cell);
    }
    step.waits.iter().for_each(|wait| add_cells_of_wait(wait, cells));
}

/// Adds the cells of a wait's moves.
fn add_cells_of_wait(wait: &Wait, cells: &mut BTreeSet<usize>) {
    wait.moves.iter().for_each(|step| add_cells_of_move(step, cells));
}

/// Lists the cells named at a move and under it in the order of the lines.
fn named_in_order(step: &Move) -> Vec<usize> {
    let mut cells = vec![step.cell];
    for next in step.waits.iter().flat_map(|wait| &wait.moves) {
        cells.extend(named_in_order(next));
    }
    cells
}

/// Picks the faulty cell a refusal names: the smallest.
fn pick(faulty: &BTreeSet<usize>, named: &dyn Fn() -> Vec<usize>) -> Option<usize> {
    if fault::on(Fault::FirstFoundCell) {
        return named().into_iter().find(|cell| faulty.contains(cell));
    }
    faulty.first().copied()
}

/// Gives the faulty cells of a move: its own found under it, or found in two or more waits.
fn faulty_of_move(step: &Move) -> BTreeSet<usize> {
    let dead_out = fault::on(Fault::ApartWithoutDead);
    let looked_at = if dead_out { cells_of_live_wait } else { cells_of_wait };
    let below: Vec<BTreeSet<usize>> = step.waits.iter().map(looked_at).collect();
    let mut faulty = BTreeSet::new();
    for &cell in below.iter().flatten() {
        let own = cell == step.cell && !fault::on(Fault::OwnBelow);
        if own || shared(&below, cell) {
            faulty.insert(cell);
        }
    }
    faulty
}

/// Says whether a cell is found in two or more of these sets.
fn shared(sets: &[BTreeSet<usize>], cell: usize) -> bool {
    if fault::on(Fault::NextToNext) {
        return sets.windows(2).any(|two| two[0].contains(&cell) && two[1].contains(&cell));
    }
    sets.iter().filter(|set| set.contains(&cell)).count() >= 2
}

/// Gives the faulty cells of a wait: those found in every one of its moves.
fn faulty_of_wait(wait: &Wait) -> BTreeSet<usize> {
    if fault::on(Fault::SingleAllowed) && wait.moves.len() == 1 {
        return BTreeSet::new();
    }
    let branches: Vec<BTreeSet<usize>> = if fault::on(Fault::FirstCellOnly) {
        wait.moves.iter().map(|step| BTreeSet::from([step.cell])).collect()
    } else if fault::on(Fault::ElusiveWithoutDead) {
        wait.moves.iter().map(cells_of_live).collect()
    } else {
        wait.moves.iter().map(cells_of_move).collect()
    };
    let in_all = |cell: &usize| branches.iter().all(|branch| branch.contains(cell));
    branches[0].iter().copied().filter(in_all).collect()
}

/// Names the faulty cell of one move, if it has any.
fn fault_of_move(step: &Move) -> Option<Found> {
    pick(&faulty_of_move(step), &|| named_in_order(step)).map(|cell| (step.line, cell))
}

/// Names the faulty cell of one wait, if it has any.
fn fault_of_wait(wait: &Wait) -> Option<Found> {
    let named = || wait.moves.iter().flat_map(named_in_order).collect();
    pick(&faulty_of_wait(wait), &named).map(|cell| (wait.line, cell))
}

/// Finds the first move in line order that is not apart.
pub fn first_not_apart(step: &Move) -> Option<Found> {
    let below = || step.waits.iter().flat_map(|wait| &wait.moves);
    fault_of_move(step).or_else(|| below().find_map(first_not_apart))
}

/// Finds the first wait in line order that is not elusive.
pub fn first_not_elusive(step: &Move) -> Option<Found> {
    let at_or_under =
        |wait: &Wait| fault_of_wait(wait).or_else(|| wait.moves.iter().find_map(first_not_elusive));
    step.waits.iter().find_map(at_or_under)
}

/// Finds the first node of either kind that is at fault; only a faulty program asks this.
pub fn first_unfair(step: &Move) -> Option<(bool, Found)> {
    let at_or_under = |wait: &Wait| {
        let own = fault_of_wait(wait).map(|found| (false, found));
        own.or_else(|| wait.moves.iter().find_map(first_unfair))
    };
    let own = fault_of_move(step).map(|found| (true, found));
    own.or_else(|| step.waits.iter().find_map(at_or_under))
}
