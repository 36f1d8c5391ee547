//! The maker of sheets: a pool of won boards and the sheets grown from it.

use crate::board::LARGEST;
use crate::entries::{judge, WORKSPACE};
use crate::grow;
use crate::joining::joins;
use crate::links;
use crate::live::every_move;
use crate::outcomes::outcomes_of_move;
use crate::plan::{Plan, NONE};
use crate::rng::Rng;
use crate::sheet;
use crate::solve;
use crate::templates;
use crate::verdict::Verdict;

/// The random state, how often the dearest recipe was used, and the boards won beforehand for D.
pub struct Maker {
    pub rng: Rng,
    pub turn: usize,
    searched: Vec<Plan>,
    solved: Vec<Plan>,
}

/// The most columns of a board.
const LAST: i32 = LARGEST as i32;

const SEARCHED: [(usize, usize, usize, usize); 20] = [
    (2, 2, 3, 6),
    (3, 2, 3, 6),
    (3, 3, 4, 6),
    (4, 3, 4, 6),
    (6, 3, 3, 5),
    (4, 4, 4, 6),
    (5, 4, 4, 6),
    (7, 4, 3, 5),
    (5, 5, 4, 6),
    (6, 5, 4, 5),
    (8, 5, 3, 4),
    (10, 5, 4, 4),
    (13, 4, 3, 3),
    (7, 6, 4, 6),
    (9, 6, 3, 3),
    (13, 6, 4, 4),
    (10, 7, 4, 6),
    (13, 7, 5, 6),
    (19, 5, 3, 4),
    (19, 6, 4, 4),
];

const SOLVED: [(usize, usize, bool); 11] = [
    (1, 1, true),
    (3, 1, true),
    (2, 2, true),
    (3, 2, true),
    (3, 3, true),
    (3, 3, false),
    (4, 2, true),
    (5, 2, true),
    (6, 2, false),
    (4, 3, false),
    (4, 3, false),
];

/// Says whether a plan is accepted.
pub fn accepted(plan: &Plan) -> bool {
    let mut work = vec![0; WORKSPACE];
    plan.fits() && judge(&plan.text(), &mut work).verdict == Verdict::Done
}

/// Says whether a plan is accepted and so many outcomes join that document 01 counts: also those of moves that are not live, which may be live in another order.
fn all_join(plan: &Plan, most: u128) -> bool {
    let joined = |sheet: sheet::Sheet| {
        let outcomes = outcomes_of_move(&sheet.root, most as usize, every_move);
        outcomes.iter().all(|cells| joins(sheet.board, sheet.player, cells))
    };
    accepted(plan) && sheet::read(&plan.text()).is_ok_and(joined)
}

impl Maker {
    /// Starts from a seed and wins the boards of the pool.
    pub fn new(seed: u64) -> Maker {
        let mut rng = Rng::new(seed);
        let mut searched = Vec::new();
        for &(columns, rows, rounds, most) in &SEARCHED {
            searched.extend(links::plans(columns, rows, rounds, most, &mut rng));
        }
        let mut solved = Vec::new();
        for &(columns, rows, complete) in &SOLVED {
            solved.extend(solve::plans(columns, rows, complete, &mut rng));
        }
        Maker { rng, turn: 0, searched, solved }
    }

    /// Picks a number of columns or rows, small ones more often, and those at the edges.
    pub fn side(&mut self) -> i32 {
        match self.rng.below(10) {
            0..=5 => self.rng.between(1, 6) as i32,
            6 | 7 => self.width(1),
            _ => *self.rng.pick(&[1, 2, 13, 14, LAST - 1, LAST]),
        }
    }

    /// Picks a number of columns or rows that is not less than this one.
    pub fn width(&mut self, least: i32) -> i32 {
        self.rng.between(least as usize, LARGEST) as i32
    }

    /// Makes a candidate of some kind, which may be no good.
    fn candidate(&mut self) -> Option<Plan> {
        let (columns, rows) = (self.side(), self.side());
        let rng = &mut self.rng;
        let plan = match rng.below(8) {
            0 | 1 => templates::edges(columns, rows, rng),
            2 | 3 => templates::ladder(columns, rows, rng),
            4 if columns > rows && rows <= 5 => templates::pairing(columns, rows, rng),
            5 => templates::one_row(columns, rng),
            6 => {
                let one = templates::edges(columns, rows, rng);
                templates::beside(one, templates::edges(LAST - columns.min(LAST - 1), rows, rng))?
            }
            _ => {
                let one = rng.pick(&self.searched).clone();
                templates::beside(one, rng.pick(&self.searched).clone())?
            }
        };
        Some(plan)
    }

    /// Makes an accepted plan for D with at most so many outcomes.
    pub fn base(&mut self, most: u128) -> Plan {
        loop {
            let small = |plan: &Plan| plan.root.outcomes() <= most && plan.root.nodes() <= 2_048;
            let found = match self.rng.below(16) {
                0..=4 => Some(self.rng.pick(&self.searched).clone()).filter(small),
                5..=7 => Some(self.rng.pick(&self.solved).clone()).filter(small),
                _ => self.candidate().filter(small).filter(|plan| all_join(plan, most)),
            };
            if let Some(plan) = found {
                return plan;
            }
        }
    }

    /// Widens and turns a plan at random, and gives it to A half the time.
    pub fn placed(&mut self, mut plan: Plan) -> Plan {
        if self.rng.chance(50) {
            let columns = if self.rng.chance(20) { LAST } else { self.width(plan.columns) };
            let left = self.rng.below((columns - plan.columns + 1) as usize) as i32;
            plan = plan.widened(columns, left);
        }
        if self.rng.chance(50) {
            plan = plan.turned();
        }
        if self.rng.chance(50) {
            plan = plan.transposed();
        }
        plan
    }

    /// Makes an accepted plan, placed and grown, with at most so many outcomes.
    pub fn plan(&mut self, most: u128) -> Plan {
        let base = self.base(most);
        let mut plan = self.placed(base);
        let changes = if self.rng.chance(30) { 0 } else { self.rng.between(1, 8) };
        grow::grow(&mut plan, changes, most, &mut self.rng);
        plan
    }

    /// Makes an accepted plan that is rather deep.
    pub fn deep_plan(&mut self, most: u128) -> Plan {
        let base = self.base(most);
        let mut plan = self.placed(base.clone().widened(base.columns.max(12), 0));
        let count = self.rng.between(3, 60);
        grow::deepen(&mut plan, count, most, &mut self.rng);
        grow::grow(&mut plan, 2, most, &mut self.rng);
        plan
    }

    /// Makes an accepted plan on two rows or more, in which play is not over at once.
    fn tall_base(&mut self, most: u128) -> Plan {
        loop {
            let plan = self.base(most);
            if plan.rows >= 2 {
                return plan;
            }
        }
    }

    /// Makes an accepted plan with many idle waits open from the start, for long games.
    pub fn idle_plan(&mut self, most: u128) -> Plan {
        let base = self.tall_base(60);
        let columns = self.width(base.columns.max(6));
        let mut plan = base.widened(columns, 0);
        for _ in 0..self.rng.between(1, 6) {
            if plan.root.outcomes() * 2 <= most {
                grow::idle_pair(&mut plan, &mut self.rng);
            }
        }
        grow::grow(&mut plan, 3, most, &mut self.rng);
        if self.rng.chance(50) {
            plan = plan.transposed();
        }
        plan
    }

    /// Makes an accepted plan whose waits begin with moves that only delay, for long games.
    pub fn slow_plan(&mut self, most: u128) -> Plan {
        let base = self.tall_base(12);
        let columns = self.width(base.columns.max(8));
        let mut plan = base.widened(columns, 0);
        for count in [24, 12] {
            let count = self.rng.between(2, count);
            grow::hinder(&mut plan, count, most, &mut self.rng);
            if plan.root.outcomes() * 2 <= most {
                grow::idle_pair(&mut plan, &mut self.rng);
            }
        }
        if self.rng.chance(50) {
            plan = plan.transposed();
        }
        plan
    }

    /// Makes a fair tree over any cells of any board, which seldom joins.
    pub fn free_plan(&mut self) -> Plan {
        let mut plan = Plan::new(self.side(), self.side(), crate::plan::leaf(NONE));
        let mut spots = plan.unused(&mut self.rng);
        spots.truncate(self.rng.between(1, 24));
        plan.root = templates::free_move(&spots, &mut self.rng);
        if self.rng.chance(20) {
            plan.root.spot = NONE;
        }
        plan
    }

    /// Makes a ladder of bridges or a straight chain that fits its board, up to 19 by 19.
    pub fn long_plan(&mut self) -> Plan {
        loop {
            let (columns, rows) = (self.width(5), self.width(3));
            let rng = &mut self.rng;
            let plan = if rng.chance(60) {
                templates::chain(columns, rows, rng)
            } else {
                templates::bridges(columns, rows, rng)
            };
            if plan.fits() && plan.root.outcomes() <= 5_000 {
                return if rng.chance(50) { plan.transposed() } else { plan };
            }
        }
    }

    /// Makes a pairing on any board with more columns than rows, with too many outcomes on large ones.
    pub fn pairing(&mut self) -> Plan {
        let most = *self.rng.pick(&[4, 4, LARGEST - 1]);
        let rows = self.rng.between(1, most) as i32;
        let columns = self.width(rows + 1);
        let plan = templates::pairing(columns, rows, &mut self.rng);
        if self.rng.chance(50) {
            plan.transposed()
        } else {
            plan
        }
    }
}
