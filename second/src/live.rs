//! Follow-up C-16: live moves, and the number of moves that are not live.
//!
//! Two mistakes are no faults, for they change no reply. Holding a move against the live moves before it only: a move that is not live has every cell common to the moves before it,
//! so with it or without it the same cells are common. The answering rule over live moves only: on a sheet free of 10 and 11 some move under a touched wait has not the opponent's
//! cell, and that cell is common to all moves before the first such one, which is live for it; a free move takes the first move, which is live.

use crate::fair::cells_of_move;
use crate::fault::{self, Fault};
use crate::sheet::{count_moves, Move, Wait};
use std::collections::BTreeSet;

/// The cells of a move: its own and all cells under it.
type Cells = BTreeSet<usize>;

/// Says whether a cell is common to all these moves.
fn common(cell: usize, moves: &[Cells]) -> bool {
    moves.iter().all(|cells| cells.contains(&cell))
}

/// Says whether the move at a place under its wait is live: it is the first, or some cell common to all moves before it isn't in it.
fn live_at(cells: &[Cells], place: usize) -> bool {
    if place == 0 {
        return !fault::on(Fault::FirstNotLive);
    }
    let (before, own) = (&cells[..place], &cells[place]);
    if fault::on(Fault::DeadEndsWait) && (1..place).any(|earlier| !held(cells, earlier)) {
        return false;
    }
    if fault::on(Fault::LiveAgainstLast) {
        return cells[place - 1].iter().any(|cell| !own.contains(cell));
    }
    if fault::on(Fault::LiveAgainstFirst) {
        return cells[0].iter().any(|cell| !own.contains(cell));
    }
    if fault::on(Fault::LiveAgainstAny) {
        return before.iter().flatten().any(|cell| !own.contains(cell));
    }
    if fault::on(Fault::LiveByNewCell) {
        return own.iter().any(|&cell| !common(cell, before));
    }
    held(cells, place)
}

/// Says whether some cell common to all moves before a place, of which there is one at least, isn't in the move there.
fn held(cells: &[Cells], place: usize) -> bool {
    cells[0].iter().any(|&cell| common(cell, &cells[..place]) && !cells[place].contains(&cell))
}

/// Lists what the moves of a wait are held against each other by: their cells.
fn held_by(wait: &Wait) -> Vec<Cells> {
    if fault::on(Fault::LiveByOwnCell) {
        return wait.moves.iter().map(|step| Cells::from([step.cell])).collect();
    }
    if fault::on(Fault::LiveWithoutDead) {
        return wait.moves.iter().map(cells_of_live).collect();
    }
    wait.moves.iter().map(cells_of_move).collect()
}

/// Lists the live moves of a wait.
pub fn live_moves(wait: &Wait) -> Vec<&Move> {
    let cells = held_by(wait);
    let places = (0..cells.len()).filter(|&place| live_at(&cells, place));
    places.map(|place| &wait.moves[place]).collect()
}

/// Lists all moves of a wait, as document 01 counts them.
pub fn every_move(wait: &Wait) -> Vec<&Move> {
    wait.moves.iter().collect()
}

/// Counts the moves that are not live, each wherever it stands.
pub fn count_idle(root: &Move) -> usize {
    idle_below(root) + usize::from(fault::on(Fault::RootIdle))
}

/// Counts the moves under this one that are not live, also those under others that are not.
fn idle_below(step: &Move) -> usize {
    step.waits.iter().map(idle_of_wait).sum()
}

/// Counts the moves at and under a wait that are not live.
fn idle_of_wait(wait: &Wait) -> usize {
    let live = live_moves(wait);
    let is_live = |step: &Move| live.iter().any(|other| other.line == step.line);
    let counted = |step: &Move| match is_live(step) {
        true => idle_below(step),
        false if fault::on(Fault::IdleOutermost) => 1,
        false if fault::on(Fault::IdleWholeBranch) => count_moves(step),
        false => 1 + idle_below(step),
    };
    wait.moves.iter().map(counted).sum()
}

/// Gives the cells of a move without the branches that are not live; only a faulty program asks this.
pub fn cells_of_live(step: &Move) -> Cells {
    let own = Some(step.cell).filter(|&cell| cell != 0);
    own.into_iter().chain(step.waits.iter().flat_map(cells_of_live_wait)).collect()
}

/// Gives the same of a wait.
pub fn cells_of_live_wait(wait: &Wait) -> Cells {
    let branches: Vec<Cells> = wait.moves.iter().map(cells_of_live).collect();
    let live = (0..branches.len()).filter(|&place| live_at(&branches, place));
    live.flat_map(|place| branches[place].clone()).collect()
}

/// Gives a tree without its branches that are not live; only a faulty program asks this.
pub fn without_dead(step: &Move) -> Move {
    let thin = |wait: &Wait| Wait {
        line: wait.line,
        moves: live_moves(wait).into_iter().map(without_dead).collect(),
    };
    Move { line: step.line, cell: step.cell, waits: step.waits.iter().map(thin).collect() }
}
