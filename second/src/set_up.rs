//! Follow-up C-11: the stones set up between header and tree, and the refusals 19 and 20.

use crate::fault::{self, Fault};
use crate::sheet::Move;
use crate::verdict::Verdict;

/// Whose stone a set-up line puts: the player's own or the opponent's.
#[derive(Clone, Copy, PartialEq, Eq, Debug)]
pub enum Side {
    Own,
    Opp,
}

/// A stone set up: its line, its side and its cell.
#[derive(Clone, Copy, Debug)]
pub struct Stone {
    pub line: usize,
    pub side: Side,
    pub cell: usize,
}

/// The stones set up, in line order.
#[derive(Clone, Default, Debug)]
pub struct SetUp {
    stones: Vec<Stone>,
}

/// Says which side's set-up line comes next, if its first field is exactly one of the two words.
pub fn next_side(rest: &[u8], before: &SetUp) -> Option<Side> {
    let side = match rest.split(|&byte| byte == b'\t' || byte == b'\n').next()? {
        b"own" => Side::Own,
        b"opp" => Side::Opp,
        _ => return None,
    };
    if fault::on(Fault::OwnLinesFirst) && side == Side::Own {
        return before.cells(Side::Opp).next().is_none().then_some(side);
    }
    Some(side)
}

impl SetUp {
    /// Lists the cells of one side's stones in line order.
    pub fn cells(&self, side: Side) -> impl Iterator<Item = usize> + '_ {
        self.stones.iter().filter(move |stone| stone.side == side).map(|stone| stone.cell)
    }

    /// Refuses a stone whose cell was named before: 19.
    pub fn unnamed(&self, stone: Stone) -> Result<(), Verdict> {
        let alike = |other: &Stone| stone.side == other.side || !fault::on(Fault::TwiceInOneKind);
        let named = |other: &&Stone| stone.cell == other.cell && alike(other);
        if let Some(first) = self.stones.iter().find(named) {
            let line = if fault::on(Fault::TwiceFirstLine) { first.line } else { stone.line };
            return Err(Verdict::NamedTwice { line, cell: stone.cell });
        }
        Ok(())
    }

    /// Puts one more stone, if its cell was not named before.
    pub fn put(&mut self, stone: Stone) -> Result<(), Verdict> {
        if !fault::on(Fault::TwiceAfterReading) {
            self.unnamed(stone)?;
        }
        self.stones.push(stone);
        Ok(())
    }

    /// Refuses the first stone whose cell was named before; only a faulty program asks this.
    pub fn all_unnamed(&self) -> Result<(), Verdict> {
        let mut before = SetUp::default();
        for &stone in &self.stones {
            before.unnamed(stone)?;
            before.stones.push(stone);
        }
        Ok(())
    }

    /// Says whether a stone of either side is set up on a cell.
    pub fn holds(&self, cell: usize) -> bool {
        let seen = |side: Side| match side {
            Side::Own => !fault::on(Fault::OnOppOnly),
            Side::Opp => !fault::on(Fault::OnOwnOnly),
        };
        self.stones.iter().any(|stone| stone.cell == cell && seen(stone.side))
    }
}

/// Lists the lines and cells of all moves that are on a set-up stone, in line order.
fn all_on_stones(step: &Move, set_up: &SetUp, found: &mut Vec<(usize, usize)>) {
    if set_up.holds(step.cell) {
        found.push((step.line, step.cell));
    }
    step.waits
        .iter()
        .flat_map(|wait| &wait.moves)
        .for_each(|next| all_on_stones(next, set_up, found));
}

/// Refuses a tree of which a move is on a set-up stone, at the first such line: 20.
pub fn off_stones(root: &Move, set_up: &SetUp) -> Result<(), Verdict> {
    let mut found = Vec::new();
    all_on_stones(root, set_up, &mut found);
    if fault::on(Fault::OnRootUntested) {
        found.retain(|on| on.0 != root.line);
    }
    if fault::on(Fault::OnSmallestCell) {
        found.sort_by_key(|on| on.1);
    }
    match found.first() {
        Some(&(line, cell)) => Err(Verdict::OnStone { line, cell }),
        None => Ok(()),
    }
}
