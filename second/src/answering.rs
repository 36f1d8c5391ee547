//! Section "The answering rule": one game played by a sheet.

use crate::fair::{cells_of_move, cells_of_wait};
use crate::fault::{self, Fault};
use crate::joining::joins;
use crate::live::cells_of_live_wait;
use crate::set_up::Side;
use crate::sheet::{Move, Sheet, Wait};
use crate::verdict::Verdict;
use std::collections::BTreeSet;

/// A game by a sheet: the stones played by both sides, the open waits and whether play is over.
#[derive(Clone)]
pub struct Game<'a> {
    sheet: &'a Sheet,
    mine: Vec<usize>,
    theirs: Vec<usize>,
    open: Vec<&'a Wait>,
    over: bool,
}

impl<'a> Game<'a> {
    /// Starts from the stones set up with the root's stone, if any, and the root's waits open.
    pub fn start(sheet: &'a Sheet) -> Game<'a> {
        let mut game =
            Game { sheet, mine: Vec::new(), theirs: Vec::new(), open: Vec::new(), over: false };
        game.make(&sheet.root);
        game
    }

    /// Puts the stone of a move, opens the waits under it and notices the end of play.
    fn make(&mut self, step: &'a Move) {
        if step.cell != 0 {
            self.mine.push(step.cell);
        }
        self.open.extend(&step.waits);
        self.over = !fault::on(Fault::OverLate) && self.joined();
    }

    /// Says whether the player's stones join, the own ones set up among them.
    pub fn joined(&self) -> bool {
        let mut stones = self.mine.clone();
        if !fault::on(Fault::OwnNotInPlay) {
            stones.extend(self.sheet.set_up.cells(Side::Own));
        }
        joins(self.sheet.board, self.sheet.player, &stones)
    }

    /// Says whether play is over.
    pub fn over(&self) -> bool {
        self.over
    }

    /// Refuses an opponent's move that may not be made: 15, then 16, then 17.
    pub fn refusal(&self, cell: usize) -> Option<Verdict> {
        let off = cell == 0 || cell > self.sheet.board.size();
        if off && fault::on(Fault::LimitBeforeOver) {
            return Some(Verdict::NoSuchCell);
        }
        if self.over {
            return Some(Verdict::AfterOver);
        }
        if off {
            return Some(Verdict::NoSuchCell);
        }
        let own = self.mine.contains(&cell) && !fault::on(Fault::OwnStonesFree);
        let taken = own || self.theirs.contains(&cell) || self.set_up_holds(cell);
        taken.then_some(Verdict::Taken)
    }

    /// Says whether a cell was taken from the start by a stone set up.
    fn set_up_holds(&self, cell: usize) -> bool {
        let has = |side| self.sheet.set_up.cells(side).any(|stone| stone == cell);
        (has(Side::Own) && !fault::on(Fault::OwnSetUpFree))
            || (has(Side::Opp) && !fault::on(Fault::OppSetUpFree))
    }

    /// Puts the opponent's stone and gives the answering cell.
    pub fn answer(&mut self, cell: usize) -> Option<usize> {
        self.theirs.push(cell);
        let (place, step) = match self.touched(cell) {
            Some(place) => (place, avoiding(self.open[place], cell)?),
            None => {
                let place = self.for_free_move()?;
                (place, self.open[place].moves.first()?)
            }
        };
        if !fault::on(Fault::ClosedStaysOpen) {
            self.open.remove(place);
        }
        self.make(step);
        Some(step.cell)
    }

    /// Finds the open wait, the first in line order, whose cells hold the opponent's cell.
    fn touched(&self, cell: usize) -> Option<usize> {
        let dead_out = fault::on(Fault::TouchedWithoutDead);
        let looked_at = if dead_out { cells_of_live_wait } else { cells_of_wait };
        let holds = |place: &usize| looked_at(self.open[*place]).contains(&cell);
        (0..self.open.len()).filter(holds).min_by_key(|&place| self.open[place].line)
    }

    /// Finds the open wait with the smallest line number.
    fn for_free_move(&self) -> Option<usize> {
        if fault::on(Fault::FreeUnanswered) || self.open.is_empty() {
            return None;
        }
        if fault::on(Fault::FreeOldest) {
            return Some(0);
        }
        if fault::on(Fault::FreeLargestLine) {
            return (0..self.open.len()).max_by_key(|&place| self.open[place].line);
        }
        (0..self.open.len()).min_by_key(|&place| self.open[place].line)
    }

    /// Lists the empty cells, those of open waits before the free ones, with the number of the former.
    pub fn empty_cells(&self) -> (Vec<usize>, usize) {
        let played = |cell: &usize| self.mine.contains(cell) || self.theirs.contains(cell);
        let empty = |cell: &usize| !played(cell) && !self.set_up_holds(*cell);
        let waited: BTreeSet<usize> =
            self.open.iter().flat_map(|wait| cells_of_wait(wait)).collect();
        let cells = (1..=self.sheet.board.size()).filter(empty);
        let (mut held, free): (Vec<usize>, Vec<usize>) =
            cells.partition(|cell| waited.contains(cell));
        let count = held.len();
        held.extend(free);
        (held, count)
    }

    /// Gives the stones played by the player and by the opponent.
    pub fn stones(&self) -> (&[usize], &[usize]) {
        (&self.mine, &self.theirs)
    }
}

/// Finds the first move under a wait whose cells do not hold the opponent's cell.
fn avoiding(wait: &Wait, cell: usize) -> Option<&Move> {
    if fault::on(Fault::FirstMoveAlways) {
        return wait.moves.first();
    }
    wait.moves.iter().find(|step| !cells_of_move(step).contains(&cell))
}
