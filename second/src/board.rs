//! Section "The board": cells, their numbers, neighbours and sides.

use crate::fault::{self, Fault};

/// The two players: D joins row 1 to the last row, A the first column to the last.
#[derive(Clone, Copy, PartialEq, Eq, Debug)]
pub enum Player {
    D,
    A,
}

/// The most columns and the most rows of a board.
pub const LARGEST: usize = 19;

/// A board of 1 to 19 columns and 1 to 19 rows.
#[derive(Clone, Copy, PartialEq, Eq, Debug)]
pub struct Board {
    pub columns: usize,
    pub rows: usize,
}

const STEPS: [(i64, i64); 6] = [(-1, 0), (1, 0), (0, -1), (0, 1), (1, -1), (-1, 1)];
const OTHER: [(i64, i64); 6] = [(-1, 0), (1, 0), (0, -1), (0, 1), (-1, -1), (1, 1)];

/// Gives the steps from a cell to its neighbours.
fn steps() -> &'static [(i64, i64)] {
    if fault::on(Fault::SquareGrid) {
        return &STEPS[..4];
    }
    if fault::on(Fault::OtherDiagonal) {
        return &OTHER;
    }
    &STEPS
}

impl Board {
    /// Gives how many cells the board has.
    pub fn size(&self) -> usize {
        self.columns * self.rows
    }

    /// Says whether a column and a row are both on the board.
    pub fn holds(&self, column: i64, row: i64) -> bool {
        (1..=self.columns as i64).contains(&column) && (1..=self.rows as i64).contains(&row)
    }

    /// Gives the number of the cell at a column and row, from 1.
    pub fn number(&self, column: usize, row: usize) -> usize {
        (row - 1) * self.columns + column
    }

    /// Gives the column of a cell.
    pub fn column(&self, cell: usize) -> usize {
        (cell - 1) % self.columns + 1
    }

    /// Gives the row of a cell.
    pub fn row(&self, cell: usize) -> usize {
        (cell - 1) / self.columns + 1
    }

    /// Gives the neighbours of a cell that are on the board.
    pub fn neighbours(self, cell: usize) -> impl Iterator<Item = usize> {
        let (column, row) = (self.column(cell) as i64, self.row(cell) as i64);
        steps()
            .iter()
            .map(move |step| (column + step.0, row + step.1))
            .filter(move |place| self.holds(place.0, place.1))
            .map(move |place| self.number(place.0 as usize, place.1 as usize))
    }

    /// Says whether a cell lies on the side where the player starts.
    pub fn on_first_side(&self, player: Player, cell: usize) -> bool {
        match player {
            Player::D => self.row(cell) == 1,
            Player::A => self.column(cell) == 1,
        }
    }

    /// Says whether a cell lies on the side the player wants to reach.
    pub fn on_last_side(&self, player: Player, cell: usize) -> bool {
        match player {
            Player::D => self.row(cell) == self.rows,
            Player::A => self.column(cell) == self.columns,
        }
    }
}
