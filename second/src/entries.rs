//! Section "Three entries": judge, play and outcome, with the memory lent to them.

use crate::answering::Game;
use crate::fair::{first_not_apart, first_not_elusive, first_unfair};
use crate::fault::{self, Fault};
use crate::live::{count_idle, every_move, without_dead};
use crate::outcomes::{count_of_move, first_unjoined, outcomes_of_move, taken, too_many, Taken};
use crate::passing::count_passed;
use crate::set_up::{off_stones, Side};
use crate::sheet::{self, count_moves, count_waits, Sheet};
use crate::twins::no_twins;
use crate::verdict::Verdict;
use std::collections::BTreeSet;

/// How many numbers of workspace must be lent.
pub const WORKSPACE: usize = 8_192;

/// What judge replies; idle is the number of moves that are not live.
#[derive(Clone, Copy, PartialEq, Eq, Debug)]
pub struct Judged {
    pub verdict: Verdict,
    pub moves: usize,
    pub waits: usize,
    pub outcomes: usize,
    pub idle: usize,
}

/// What play replies.
#[derive(Clone, Copy, PartialEq, Eq, Debug)]
pub struct Played {
    pub verdict: Verdict,
    pub place: usize,
    pub answers: usize,
    pub over: bool,
}

/// What outcome replies.
#[derive(Clone, Copy, PartialEq, Eq, Debug)]
pub struct Listed {
    pub verdict: Verdict,
    pub cells: usize,
}

/// Refuses a short workspace untouched, and clears the numbers of any other.
fn borrow(text: &[u8], work: &mut [u32]) -> Result<(), Verdict> {
    if fault::on(Fault::LengthBeforeWorkspace) && text.len() > sheet::TEXT {
        return Err(Verdict::Length);
    }
    if work.len() < WORKSPACE {
        return Err(Verdict::Workspace);
    }
    work[..WORKSPACE].fill(0);
    Ok(())
}

/// Decides whether a tree is fair and has no branch twice: 10, 24 and 11, each over the whole tree.
fn fair(sheet: &Sheet) -> Result<(), Verdict> {
    if fault::on(Fault::UnfairPerNode) {
        return match first_unfair(&sheet.root) {
            Some((true, (line, cell))) => Err(Verdict::NotApart { line, cell }),
            Some((false, (line, cell))) => Err(Verdict::NotElusive { line, cell }),
            None => no_twins(&sheet.root),
        };
    }
    if fault::on(Fault::TwinsBeforeApart) {
        no_twins(&sheet.root)?;
    }
    if let Some((line, cell)) = first_not_apart(&sheet.root) {
        return Err(Verdict::NotApart { line, cell });
    }
    if fault::on(Fault::OnStoneAfterApart) {
        off_stones(&sheet.root, &sheet.set_up)?;
    }
    if !fault::on(Fault::TwinsAfterElusive) {
        no_twins(&sheet.root)?;
    }
    if let Some((line, cell)) = first_not_elusive(&sheet.root) {
        return Err(Verdict::NotElusive { line, cell });
    }
    if fault::on(Fault::TwinsAfterElusive) {
        no_twins(&sheet.root)?;
    }
    Ok(())
}

/// Checks the whole tree of a sheet, also where moves are not live: 20, 10, 24, 11.
fn checked(sheet: &Sheet) -> Result<(), Verdict> {
    if fault::on(Fault::TwinsBeforeStones) {
        no_twins(&sheet.root)?;
    }
    if !fault::on(Fault::OnStoneAfterApart) {
        off_stones(&sheet.root, &sheet.set_up)?;
    }
    fair(sheet)
}

/// Reads a sheet and counts its outcomes, deciding 1 to 9 and 19, then 20, 10, 24, 11, 12.
fn counted(text: &[u8], work: &mut [u32]) -> Result<(Sheet, u128), Verdict> {
    borrow(text, work)?;
    let sheet = sheet::read(text)?;
    if fault::on(Fault::DeadUnchecked) {
        checked(&Sheet { root: without_dead(&sheet.root), ..sheet.clone() })?;
    } else {
        checked(&sheet)?;
    }
    let count = count_of_move(&sheet.root, taken);
    let among_all = fault::on(Fault::LimitAmongAll);
    if too_many(if among_all { count_of_move(&sheet.root, every_move) } else { count }) {
        return Err(Verdict::TooManyOutcomes);
    }
    Ok((sheet, count))
}

/// Reads a sheet and tests its outcomes, deciding all these and then 13.
fn accepted(text: &[u8], work: &mut [u32]) -> Result<(Sheet, u128), Verdict> {
    let (sheet, count) = counted(text, work)?;
    match first_unjoined(&sheet, count) {
        Some(index) => Err(Verdict::NotJoined { index }),
        None => Ok((sheet, count)),
    }
}

/// Gives a refusal, with all counts 0.
fn refused(text: &[u8], verdict: Verdict) -> Judged {
    let idle = if fault::on(Fault::IdleOnRefusal) {
        sheet::read(text).map_or(0, |sheet| count_idle(&sheet.root))
    } else {
        0
    };
    Judged { verdict, moves: 0, waits: 0, outcomes: 0, idle }
}

/// Judges a sheet.
pub fn judge(text: &[u8], work: &mut [u32]) -> Judged {
    let (sheet, count) = match accepted(text, work) {
        Ok(found) => found,
        Err(verdict) => return refused(text, verdict),
    };
    let thin = fault::on(Fault::DeadUncounted).then(|| without_dead(&sheet.root));
    let root = thin.as_ref().unwrap_or(&sheet.root);
    let uncounted = fault::on(Fault::RootNotCounted) && root.cell == 0;
    let own = sheet.set_up.cells(Side::Own).count();
    let counted = if fault::on(Fault::OwnCountedAsMoves) { own } else { 0 };
    Judged {
        verdict: Verdict::Done,
        moves: counted + count_moves(root) - usize::from(uncounted),
        waits: count_waits(root),
        outcomes: count as usize,
        idle: count_idle(&sheet.root),
    }
}

/// Counts the outcomes of a judged sheet that are passed over, 0 on a refusal.
pub fn passed(text: &[u8], reply: &Judged) -> usize {
    let count = match reply.verdict {
        Verdict::Done => reply.outcomes,
        Verdict::NotJoined { .. } if fault::on(Fault::PassedOnRefusal) => 70_000,
        _ => return 0,
    };
    sheet::read(text).map_or(0, |sheet| count_passed(&sheet, count))
}

/// Plays a list of opponent's cells by a sheet; the room takes the answers.
pub fn play(text: &[u8], cells: &[u32], room: &mut [u32], work: &mut [u32]) -> Played {
    let refused = |(verdict, place)| Played { verdict, place, answers: 0, over: false };
    let sheet = match accepted(text, work) {
        Ok((sheet, _)) => sheet,
        Err(verdict) => return refused((verdict, 0)),
    };
    let needed = cells.len() + usize::from(fault::on(Fault::RoomOneMore));
    if room.len() < needed && !fault::on(Fault::RoomPerMove) {
        return refused((Verdict::Room, 0));
    }
    match answers(&sheet, cells, room.len()) {
        Err(refusal) => refused(refusal),
        Ok((answers, over)) => {
            write(room, &answers);
            Played { verdict: Verdict::Done, place: 0, answers: answers.len(), over }
        }
    }
}

/// Plays move by move and gives the answers and whether play is over, or the refused place.
fn answers(
    sheet: &Sheet,
    cells: &[u32],
    room: usize,
) -> Result<(Vec<usize>, bool), (Verdict, usize)> {
    let mut game = Game::start(sheet);
    let mut answers = Vec::new();
    for (before, &cell) in cells.iter().enumerate() {
        if fault::on(Fault::RoomPerMove) && before >= room {
            return Err((Verdict::Room, 0));
        }
        if let Some(verdict) = game.refusal(cell as usize) {
            let place = before + usize::from(!fault::on(Fault::PlaceFromZero));
            return Err((verdict, place));
        }
        answers.extend(game.answer(cell as usize));
    }
    Ok((answers, game.over() || game.joined()))
}

/// Lists the cells of one outcome and the own stones set up, ascending; the room takes them.
pub fn outcome(text: &[u8], number: u32, room: &mut [u32], work: &mut [u32]) -> Listed {
    match one_outcome(text, number, room.len(), work) {
        Err(verdict) => Listed { verdict, cells: 0 },
        Ok(cells) => {
            write(room, &cells);
            Listed { verdict: Verdict::Done, cells: cells.len() }
        }
    }
}

/// Finds the stones of one outcome, deciding all but 13, then 18, then 14.
fn one_outcome(
    text: &[u8],
    number: u32,
    room: usize,
    work: &mut [u32],
) -> Result<Vec<usize>, Verdict> {
    let judged = if fault::on(Fault::OutcomeGives13) { accepted } else { counted };
    let (sheet, count) = judged(text, work)?;
    let among: Taken = if fault::on(Fault::NumbersAmongAll) { every_move } else { taken };
    let mut listed = outcomes_of_move(&sheet.root, count as usize, among);
    if fault::on(Fault::NumberLimitAmongAll) {
        let all = count_of_move(&sheet.root, every_move).min(70_000) as usize;
        listed.resize(all.max(listed.len()), listed[listed.len() - 1].clone());
    }
    let nearest = listed.get(number as usize).or(listed.last());
    if fault::on(Fault::RoomBeforeNumber) && nearest.is_some_and(|cells| room < cells.len()) {
        return Err(Verdict::Room);
    }
    let found = listed.get(number as usize).ok_or(Verdict::NoSuchOutcome)?;
    let cells = stones_listed(&sheet, found);
    let fitting = if fault::on(Fault::RoomForTree) { found.len() } else { cells.len() };
    if room < fitting + usize::from(fault::on(Fault::RoomOneMore)) {
        return Err(Verdict::Room);
    }
    Ok(cells)
}

/// Lists the cells of an outcome and the own stones set up in ascending order.
fn stones_listed(sheet: &Sheet, found: &[usize]) -> Vec<usize> {
    let own: Vec<usize> = sheet.set_up.cells(Side::Own).collect();
    let sorted = |cells: &[usize]| cells.iter().copied().collect::<BTreeSet<usize>>();
    if fault::on(Fault::CellsUnsorted) {
        return [found, &own].concat();
    }
    if fault::on(Fault::OwnNotListed) {
        return sorted(found).into_iter().collect();
    }
    if fault::on(Fault::OwnListedLast) {
        return sorted(found).into_iter().chain(sorted(&own)).collect();
    }
    sorted(&[found, &own].concat()).into_iter().collect()
}

/// Writes numbers into the first places of the room.
fn write(room: &mut [u32], numbers: &[usize]) {
    for (place, number) in room.iter_mut().zip(numbers) {
        *place = *number as u32;
    }
}
