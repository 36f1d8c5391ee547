//! Section "Fair sheets", second half: counting and listing outcomes, and whether all join. Since follow-up C-16 they run over live moves only.

use crate::fault::{self, Fault};
use crate::joining::joins;
use crate::live::{every_move, live_moves};
use crate::set_up::Side;
use crate::sheet::{Move, Sheet, Wait};

/// The most outcomes a sheet may have.
pub const OUTCOMES: u128 = 65_536;

/// Which moves of a wait outcomes take: the live ones, or all, as document 01 has it.
pub type Taken = for<'a> fn(&'a Wait) -> Vec<&'a Move>;

/// Lists the moves of a wait that outcomes take: the live ones.
pub fn taken(wait: &Wait) -> Vec<&Move> {
    if fault::on(Fault::DeadInOutcomes) {
        return every_move(wait);
    }
    live_moves(wait)
}

/// Keeps a count as it is; only a faulty program cuts it.
fn kept(count: u128) -> u128 {
    if fault::on(Fault::CountWraps32) {
        return count % (1 << 32);
    }
    if fault::on(Fault::CountWraps64) {
        return count % (1 << 64);
    }
    count
}

/// Counts the outcomes of a move: the product over its waits, 1 for none.
pub fn count_of_move(step: &Move, taken: Taken) -> u128 {
    let times = |count: u128, wait| kept(count.saturating_mul(count_of_wait(wait, taken)));
    step.waits.iter().fold(1, times)
}

/// Counts the outcomes of a wait: the sum over its moves that are taken.
fn count_of_wait(wait: &Wait, taken: Taken) -> u128 {
    let plus = |count: u128, step| kept(count.saturating_add(count_of_move(step, taken)));
    taken(wait).into_iter().fold(0, plus)
}

/// Says whether there are too many outcomes.
pub fn too_many(count: u128) -> bool {
    if fault::on(Fault::Outcomes65537) {
        return count > OUTCOMES + 1;
    }
    if fault::on(Fault::Outcomes65535) {
        return count >= OUTCOMES;
    }
    count > OUTCOMES
}

/// Lists the cells of the first outcomes of a move in their numbering, at most so many.
pub fn outcomes_of_move(step: &Move, most: usize, taken: Taken) -> Vec<Vec<usize>> {
    noted_of_move(step, most, taken, |step| Some(step.cell).filter(|&cell| cell != 0))
}

/// Lists what is noted of the moves of the first outcomes of a move, in line order.
pub fn noted_of_move<'a, T: Clone>(
    step: &'a Move,
    most: usize,
    taken: Taken,
    note: fn(&'a Move) -> Option<T>,
) -> Vec<Vec<T>> {
    let mut outcomes = vec![note(step).into_iter().collect()];
    for wait in &step.waits {
        outcomes = paired(&outcomes, &noted_of_wait(wait, most, taken, note), most);
    }
    outcomes
}

/// Lists the same of a wait.
fn noted_of_wait<'a, T: Clone>(
    wait: &'a Wait,
    most: usize,
    taken: Taken,
    note: fn(&'a Move) -> Option<T>,
) -> Vec<Vec<T>> {
    let mut outcomes = Vec::new();
    for step in taken(wait) {
        outcomes.extend(noted_of_move(step, most, taken, note));
        outcomes.truncate(most);
    }
    outcomes
}

/// Puts each outcome so far with each outcome of the next wait, the next wait varying fastest.
fn paired<T: Clone>(so_far: &[Vec<T>], next: &[Vec<T>], most: usize) -> Vec<Vec<T>> {
    let first_fastest = fault::on(Fault::FirstWaitFastest);
    let (slow, fast) = if first_fastest { (next, so_far) } else { (so_far, next) };
    let mut outcomes = Vec::new();
    for one in slow {
        for other in fast {
            if outcomes.len() == most {
                return outcomes;
            }
            outcomes.push([one.as_slice(), other.as_slice()].concat());
        }
    }
    outcomes
}

/// Lists the set-up stones that count in every outcome of the sheet, the own ones; one fault leaves them out, another takes the opponent's in.
pub fn counted_stones(sheet: &Sheet, own_out: Fault, opp_in: Fault) -> Vec<usize> {
    let mut stones: Vec<usize> = sheet.set_up.cells(Side::Own).collect();
    if fault::on(own_out) {
        stones.clear();
    }
    if fault::on(opp_in) {
        stones.extend(sheet.set_up.cells(Side::Opp));
    }
    stones
}

/// Gives the number that document 01 gave the outcome of a number, counting all moves; only a faulty program asks this.
fn number_among_all(step: &Move, number: u128) -> u128 {
    let mut left = number;
    let (mut among_all, mut times) = (0u128, 1u128);
    for wait in step.waits.iter().rev() {
        let count = count_of_wait(wait, live_moves);
        let more = times.saturating_mul(number_of_wait_among_all(wait, left % count));
        among_all = more.saturating_add(among_all);
        left /= count;
        times = times.saturating_mul(count_of_wait(wait, every_move));
    }
    among_all
}

/// Gives the same of an outcome of a wait.
fn number_of_wait_among_all(wait: &Wait, number: u128) -> u128 {
    let live: Vec<usize> = live_moves(wait).into_iter().map(|step| step.line).collect();
    let (mut left, mut before) = (number, 0u128);
    for step in &wait.moves {
        if live.contains(&step.line) {
            let count = count_of_move(step, live_moves);
            if left < count {
                return before.saturating_add(number_among_all(step, left));
            }
            left -= count;
        }
        before = before.saturating_add(count_of_move(step, every_move));
    }
    before
}

/// Finds the smallest number of an outcome that does not join, the own set-up stones counted in.
pub fn first_unjoined(sheet: &Sheet, count: u128) -> Option<usize> {
    let stones = counted_stones(sheet, Fault::OwnNotInOutcomes, Fault::OppInOutcomes);
    let over: Taken = if fault::on(Fault::UnjoinedAmongAll) { every_move } else { taken };
    let mut outcomes = outcomes_of_move(&sheet.root, count as usize, over);
    outcomes.iter_mut().for_each(|cells| cells.extend(&stones));
    let unjoined = |cells: &Vec<usize>| !joins(sheet.board, sheet.player, cells);
    if fault::on(Fault::UnjoinedLast) {
        return outcomes.iter().rposition(unjoined);
    }
    let found = outcomes.iter().position(unjoined);
    if fault::on(Fault::UnjoinedNumberAmongAll) {
        return found.map(|number| number_among_all(&sheet.root, number as u128) as usize);
    }
    found
}
