//! Follow-up C-15: how many outcomes are passed over.
//!
//! Three mistakes are no faults, for they change no number. Leaving out the empty beginning: every list begins with the root, and stones join where fewer do. Holding a list against
//! the outcome just before it only: the lists with one beginning have numbers one after another. Asking whether a list has the moves of a beginning anywhere: it has them at its
//! beginning then, for it has one move of each wait.

use crate::fault::{self, Fault};
use crate::joining::joins;
use crate::live::every_move;
use crate::outcomes::{counted_stones, noted_of_move, taken, Taken};
use crate::sheet::{Move, Sheet};
use std::collections::HashSet;

/// The moves of an outcome in line order.
type List<'a> = Vec<&'a Move>;

/// Lists the moves of the first outcomes of a move, at most so many, in the numbering of the outcomes.
pub fn lists_of_move(step: &Move, most: usize, taken: Taken) -> Vec<List<'_>> {
    noted_of_move(step, most, taken, Some)
}

/// Gives the length of the shortest beginning of a list whose stones, with these, join.
pub fn shortest(sheet: &Sheet, stones: &[usize], list: &[&Move]) -> Option<usize> {
    let from = usize::from(fault::on(Fault::PassedWithoutRoot));
    let joined = |&length: &usize| {
        let cells = list[..length].iter().skip(from).map(|step| step.cell);
        let cells: Vec<usize> = cells.filter(|&cell| cell != 0).collect();
        joins(sheet.board, sheet.player, &[stones, &cells].concat())
    };
    let found = (0..=list.len()).find(joined)?;
    if fault::on(Fault::PassedOneShort) {
        return Some(found.saturating_sub(1));
    }
    if fault::on(Fault::PassedOneLong) {
        return Some((found + 1).min(list.len()));
    }
    Some(if fault::on(Fault::PassedWholeList) { list.len() } else { found })
}

/// Gives what moves are known by: their lines.
fn known_by(list: &[&Move]) -> Vec<usize> {
    if fault::on(Fault::PassedByCells) {
        return list.iter().map(|step| step.cell).collect();
    }
    list.iter().map(|step| step.line).collect()
}

/// Counts among so many outcomes those whose list begins with the shortest beginning of an outcome with a smaller number. Of an outcome that is passed over the shortest beginning is the same.
pub fn count_passed(sheet: &Sheet, count: usize) -> usize {
    let stones = counted_stones(sheet, Fault::PassedWithoutSetUp, Fault::PassedWithOpp);
    let all = fault::on(Fault::PassedAmongAll);
    let (most, over): (usize, Taken) = if all { (70_000, every_move) } else { (count, taken) };
    let mut beginnings: HashSet<Vec<usize>> = HashSet::new();
    let (mut passed, mut looked_at) = (0, 0);
    for list in lists_of_move(&sheet.root, most, over) {
        let moves = known_by(&list);
        if (0..=moves.len()).any(|length| beginnings.contains(&moves[..length])) {
            passed += 1;
            continue;
        }
        looked_at += 1;
        passed += usize::from(fault::on(Fault::PassedByOwn));
        beginnings.extend(shortest(sheet, &stones, &list).map(|length| moves[..length].to_vec()));
    }
    if fault::on(Fault::LookedAtForPassed) {
        return looked_at;
    }
    passed + usize::from(fault::on(Fault::PassedFirst) && passed > 0)
}
