//! Small boards solved by brute force into complete and/or trees.

use crate::plan::{add_new, leaf, step, Plan, Spot, Step, NONE};
use crate::rng::Rng;
use std::collections::HashMap;

/// A small board, at most 16 cells, with the positions already decided.
struct Solver {
    columns: usize,
    rows: usize,
    known: HashMap<(u16, u16), bool>,
}

/// How a tree is made from a won position.
struct Making<'a> {
    complete: bool,
    nodes: usize,
    rng: &'a mut Rng,
}

impl Solver {
    /// Gives the number of cells.
    fn size(&self) -> usize {
        self.columns * self.rows
    }

    /// Says whether stones join top to bottom.
    fn joined(&self, mine: u16) -> bool {
        let mut reached: u16 = mine & ((1u16 << self.columns) - 1);
        loop {
            let mut next = reached;
            for cell in (0..self.size()).filter(|cell| reached >> cell & 1 == 1) {
                next |= self.around(cell) & mine;
            }
            if next == reached {
                return reached >> (self.columns * (self.rows - 1)) != 0;
            }
            reached = next;
        }
    }

    /// Gives the neighbours of a cell as bits.
    fn around(&self, cell: usize) -> u16 {
        let (column, row) = ((cell % self.columns) as i32, (cell / self.columns) as i32);
        let mut bits = 0;
        for (right, down) in [(1, 0), (-1, 0), (0, 1), (0, -1), (1, -1), (-1, 1)] {
            let (next, below) = (column + right, row + down);
            if (0..self.columns as i32).contains(&next) && (0..self.rows as i32).contains(&below) {
                bits |= 1 << (below as usize * self.columns + next as usize);
            }
        }
        bits
    }

    /// Lists the empty cells in a random order.
    fn empty(&self, taken: u16, rng: &mut Rng) -> Vec<usize> {
        let mut cells: Vec<usize> =
            (0..self.size()).filter(|cell| taken >> cell & 1 == 0).collect();
        rng.shuffle(&mut cells);
        cells
    }

    /// Says whether the player wins with the opponent to move.
    fn holds(&mut self, mine: u16, theirs: u16) -> bool {
        if self.joined(mine) {
            return true;
        }
        if let Some(&known) = self.known.get(&(mine, theirs)) {
            return known;
        }
        let free: Vec<usize> =
            (0..self.size()).filter(|cell| (mine | theirs) >> cell & 1 == 0).collect();
        let won = !free.is_empty()
            && free.iter().all(|&block| {
                let blocked = theirs | 1 << block;
                free.iter().any(|&reply| reply != block && self.holds(mine | 1 << reply, blocked))
            });
        self.known.insert((mine, theirs), won);
        won
    }

    /// Makes the move that wins by putting a stone on a cell, with its tree.
    fn tree(&mut self, mine: u16, theirs: u16, cell: usize, making: &mut Making) -> Step {
        let spot: Spot = ((cell % self.columns) as i32 + 1, (cell / self.columns) as i32 + 1);
        let mine = mine | 1 << cell;
        making.nodes += 1;
        if self.joined(mine) || making.nodes > 3_000 {
            return leaf(spot);
        }
        step(spot, vec![self.replies(mine, theirs, making)])
    }

    /// Makes the wait of a won position: for every opponent's cell some move without it.
    fn replies(&mut self, mine: u16, theirs: u16, making: &mut Making) -> Vec<Step> {
        let mut wait: Vec<Step> = Vec::new();
        making.nodes += 1;
        for block in self.empty(mine | theirs, making.rng) {
            let spot = ((block % self.columns) as i32 + 1, (block / self.columns) as i32 + 1);
            if !making.complete && wait.iter().any(|next| !next.spots().contains(&spot)) {
                continue;
            }
            let blocked = theirs | 1 << block;
            let replies = self.empty(mine | blocked, making.rng);
            let winning = replies.into_iter().find(|&cell| self.holds(mine | 1 << cell, blocked));
            if let Some(cell) = winning {
                add_new(&mut wait, self.tree(mine, blocked, cell, making));
            }
        }
        wait
    }
}

/// Solves a board for D and gives one plan for each of some first moves, and without one.
pub fn plans(columns: usize, rows: usize, complete: bool, rng: &mut Rng) -> Vec<Plan> {
    let mut solver = Solver { columns, rows, known: HashMap::new() };
    let mut plans = Vec::new();
    for cell in solver.empty(0, rng) {
        if solver.holds(1 << cell, 0) {
            let mut making = Making { complete, nodes: 0, rng };
            let root = solver.tree(0, 0, cell, &mut making);
            plans.push(Plan::new(columns as i32, rows as i32, root));
        }
    }
    if solver.holds(0, 0) {
        let mut making = Making { complete, nodes: 0, rng };
        let wait = solver.replies(0, 0, &mut making);
        plans.push(Plan::new(columns as i32, rows as i32, step(NONE, vec![wait])));
    }
    plans.retain(|plan| plan.root.nodes() <= 1_500);
    plans
}
