//! When a set of cells joins the two sides of a player.

use crate::board::{Board, Player};
use crate::fault::{self, Fault};

/// Says whether a chain of neighbours inside the cells runs from one side to the other.
pub fn joins(board: Board, player: Player, cells: &[usize]) -> bool {
    if fault::on(Fault::OneRowTwo) && board.rows == 1 && player == Player::D && cells.len() < 2 {
        return false;
    }
    let mut inside = vec![false; board.size() + 1];
    for &cell in cells {
        inside[cell] = true;
    }
    let mut seen = vec![false; board.size() + 1];
    cells.iter().any(|&cell| {
        board.on_first_side(player, cell) && reaches(board, player, cell, &inside, &mut seen)
    })
}

/// Says whether the last side can be reached from a cell through cells not seen before.
fn reaches(board: Board, player: Player, cell: usize, inside: &[bool], seen: &mut [bool]) -> bool {
    if board.on_last_side(player, cell) {
        return true;
    }
    seen[cell] = true;
    board
        .neighbours(cell)
        .any(|next| inside[next] && !seen[next] && reaches(board, player, next, inside, seen))
}
