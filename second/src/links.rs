//! A small search for virtual connections, which finds and/or trees that join top to bottom.

use crate::plan::{step, Plan, Spot, Step, NONE};
use crate::rng::Rng;
use std::rc::Rc;

const TOP: usize = 0;
const BOTTOM: usize = 1;
const NODES: usize = 1_200;
const OUTCOMES: u64 = 20_000;

/// A move found by the search, with the sizes of its tree.
struct MoveNode {
    place: usize,
    waits: Vec<Rc<WaitNode>>,
    nodes: usize,
    outcomes: u64,
}

/// A wait found by the search, with the sizes of its tree.
struct WaitNode {
    moves: Vec<Rc<MoveNode>>,
    nodes: usize,
    outcomes: u64,
}

/// Two ends joined even if the opponent moves first: the cells needed and the waits.
#[derive(Clone)]
struct Full {
    cells: u128,
    waits: Vec<Rc<WaitNode>>,
}

/// Two ends joined if the player moves first: the cells needed and the move.
#[derive(Clone)]
struct Half {
    cells: u128,
    first: Rc<MoveNode>,
}

/// The connections found so far between any two ends: the two sides and all cells.
struct Search {
    columns: usize,
    ends: usize,
    fulls: Vec<Vec<Full>>,
    halves: Vec<Vec<Half>>,
    most: usize,
    rng: Rng,
}

/// Gives the bit of an end; the two sides have none.
fn bit(end: usize) -> u128 {
    if end < 2 {
        0
    } else {
        1 << (end - 2)
    }
}

impl Search {
    /// Gives the place of the connections between two ends.
    fn at(&self, one: usize, other: usize) -> usize {
        one.min(other) * self.ends + one.max(other)
    }

    /// Starts with neighbours, and the outer rows with their sides.
    fn start(columns: usize, rows: usize, most: usize, rng: Rng) -> Search {
        let ends = columns * rows + 2;
        let lists = ends * ends;
        let (fulls, halves) = (vec![Vec::new(); lists], vec![Vec::new(); lists]);
        let mut search = Search { columns, ends, fulls, halves, most, rng };
        let end = |column: usize, row: usize| 2 + row * columns + column;
        for column in 0..columns {
            search.touch(TOP, end(column, 0));
            search.touch(BOTTOM, end(column, rows - 1));
            for row in 0..rows {
                if column + 1 < columns {
                    search.touch(end(column, row), end(column + 1, row));
                }
                if row + 1 < rows {
                    search.touch(end(column, row), end(column, row + 1));
                }
                if column > 0 && row + 1 < rows {
                    search.touch(end(column, row), end(column - 1, row + 1));
                }
            }
        }
        search
    }

    /// Notes that two ends touch.
    fn touch(&mut self, one: usize, other: usize) {
        let at = self.at(one, other);
        self.fulls[at].push(Full { cells: 0, waits: vec![] });
    }

    /// Joins two full connections that meet in an empty cell, if they need unlike cells.
    fn through(&self, place: usize, ends: u128, one: &Full, other: &Full) -> Option<Half> {
        let needed = one.cells | other.cells;
        if one.cells & other.cells != 0 || needed & (ends | bit(place)) != 0 {
            return None;
        }
        let waits: Vec<Rc<WaitNode>> = one.waits.iter().chain(&other.waits).cloned().collect();
        let nodes = 1 + waits.iter().map(|wait| wait.nodes).sum::<usize>();
        let outcomes = waits.iter().map(|wait| wait.outcomes).fold(1u64, u64::saturating_mul);
        if nodes > NODES || outcomes > OUTCOMES {
            return None;
        }
        let first = Rc::new(MoveNode { place, waits, nodes, outcomes });
        Some(Half { cells: needed | bit(place), first })
    }

    /// Finds the half connections between two ends through any third cell.
    fn and_rule(&mut self, one: usize, other: usize) {
        let ends = bit(one) | bit(other);
        let at = self.at(one, other);
        let mut found = std::mem::take(&mut self.halves[at]);
        for place in (2..self.ends).filter(|&place| place != one && place != other) {
            for left in &self.fulls[self.at(one, place)] {
                for right in &self.fulls[self.at(place, other)] {
                    found.extend(self.through(place, ends, left, right));
                }
            }
        }
        self.rng.shuffle(&mut found);
        found.sort_by_key(|half| half.cells.count_ones());
        let mut kept: Vec<Half> = Vec::new();
        for half in found {
            let needless = kept.iter().any(|other| other.cells & half.cells == other.cells);
            if !needless && kept.len() < 2 * self.most {
                kept.push(half);
            }
        }
        self.halves[at] = kept;
    }

    /// Finds the full connections between two ends: half connections with no common cell.
    fn or_rule(&mut self, one: usize, other: usize) {
        let at = self.at(one, other);
        if self.fulls[at].iter().any(|full| full.cells == 0) {
            return;
        }
        let mut found = Vec::new();
        let halves = &self.halves[at];
        for first in 0..halves.len() {
            choose(halves, first, &mut vec![], u128::MAX, &mut found);
        }
        self.rng.shuffle(&mut found);
        found.sort_by_key(|full| full.cells.count_ones());
        let mut kept: Vec<Full> = Vec::new();
        for full in found {
            let needless = kept.iter().any(|other| other.cells == full.cells);
            if !needless && kept.len() < self.most {
                kept.push(full);
            }
        }
        self.fulls[at] = kept;
    }

    /// Turns a move of the search into a move of a plan.
    fn planned(&self, found: &MoveNode) -> Step {
        let cell = found.place - 2;
        let spot: Spot = ((cell % self.columns) as i32 + 1, (cell / self.columns) as i32 + 1);
        step(spot, found.waits.iter().map(|wait| self.planned_wait(wait)).collect())
    }

    /// Turns a wait of the search into a wait of a plan.
    fn planned_wait(&self, wait: &WaitNode) -> Vec<Step> {
        wait.moves.iter().map(|next| self.planned(next)).collect()
    }
}

/// Adds half connections to those chosen until no cell is common to all, four at most.
fn choose(
    halves: &[Half],
    next: usize,
    chosen: &mut Vec<usize>,
    common: u128,
    found: &mut Vec<Full>,
) {
    let rest = common & halves[next].cells;
    if rest == common || found.len() > 60 {
        return;
    }
    chosen.push(next);
    if rest == 0 {
        let moves: Vec<Rc<MoveNode>> =
            chosen.iter().map(|&place| halves[place].first.clone()).collect();
        let nodes = 1 + moves.iter().map(|first| first.nodes).sum::<usize>();
        let outcomes = moves.iter().map(|first| first.outcomes).fold(0u64, u64::saturating_add);
        let cells = chosen.iter().fold(0, |cells, &place| cells | halves[place].cells);
        found.push(Full { cells, waits: vec![Rc::new(WaitNode { moves, nodes, outcomes })] });
    } else if chosen.len() < 4 {
        for later in next + 1..halves.len() {
            choose(halves, later, chosen, rest, found);
        }
    }
    chosen.pop();
}

/// Searches a board and gives plans by which D joins, with and without a first stone.
pub fn plans(columns: usize, rows: usize, rounds: usize, most: usize, rng: &mut Rng) -> Vec<Plan> {
    let seed = Rng::new(rng.next());
    let mut search = Search::start(columns, rows, most, seed);
    for _ in 0..rounds {
        for one in 0..search.ends {
            for other in one + 1..search.ends {
                search.and_rule(one, other);
                search.or_rule(one, other);
            }
        }
    }
    let at = search.at(TOP, BOTTOM);
    let halves = search.halves[at].iter().map(|half| search.planned(&half.first));
    let fulls = search.fulls[at]
        .iter()
        .filter(|full| !full.waits.is_empty())
        .map(|full| step(NONE, full.waits.iter().map(|wait| search.planned_wait(wait)).collect()));
    halves.chain(fulls).map(|root| Plan::new(columns as i32, rows as i32, root)).collect()
}
