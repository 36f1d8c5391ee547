//! A corpus of requests made up from a seed.

use crate::answering::Game;
use crate::entries::{self, WORKSPACE};
use crate::live::{every_move, live_moves};
use crate::maker::Maker;
use crate::outcomes::{count_of_move, Taken};
use crate::recipes::{schedule, Recipe};
use crate::recipes::{DAMAGED, DEAR, GOOD, LIMITS, UNFAIR, UNJOINED};
use crate::recipes::{NEARLY, SET_UP, SET_UP_DAMAGED, SET_UP_UNJOINED, TWINS};
use crate::recipes::{SPARE, SPARE_REFUSED, SPARE_UNJOINED, STOPPED};
use crate::requests::{Ask, Request};
use crate::rng::Rng;
use crate::set_up::Side;
use crate::sheet::{self, Sheet};

/// The seed of a corpus and how many requests of each kind it has.
pub struct Sizes {
    pub seed: u64,
    pub judges: usize,
    pub plays: usize,
    pub outcomes: usize,
    pub counts: usize,
}

/// Makes all requests of a corpus.
pub fn requests(sizes: &Sizes) -> Vec<Request> {
    let mut maker = Maker::new(sizes.seed);
    let plain: [&[(usize, Recipe)]; 6] = [&GOOD, &DEAR, &UNJOINED, &UNFAIR, &DAMAGED, &LIMITS];
    let set_up: [&[(usize, Recipe)]; 3] = [&SET_UP, &SET_UP_UNJOINED, &SET_UP_DAMAGED];
    let twins: [&[(usize, Recipe)]; 2] = [&TWINS, &NEARLY];
    let spare: [&[(usize, Recipe)]; 3] = [&SPARE, &SPARE_UNJOINED, &SPARE_REFUSED];
    let all = schedule(&[&plain[..], &set_up, &twins, &spare].concat(), &mut maker.rng);
    let good = schedule(&[&GOOD, &SET_UP, &SPARE], &mut maker.rng);
    let fair: [&[(usize, Recipe)]; 4] = [&GOOD, &UNJOINED, &UNJOINED, &SET_UP];
    let fair = [&fair[..], &[&SET_UP_UNJOINED, &SPARE, &SPARE_UNJOINED]].concat();
    let fair = schedule(&fair, &mut maker.rng);
    let counted = schedule(&[&spare[..], &[&STOPPED, &STOPPED]].concat(), &mut maker.rng);
    let mut requests = Vec::new();
    for place in 0..sizes.judges {
        let text = all[place % all.len()](&mut maker);
        requests.push(Request { work: lent(&text, &mut maker.rng), text, ask: Ask::Judge });
    }
    for place in 0..sizes.plays {
        let recipe = chosen(&all, &good, place, 18);
        requests.push(play(&mut maker, recipe, place));
    }
    for place in 0..sizes.outcomes {
        let recipe = chosen(&all, &fair, place, 25);
        requests.push(outcome(&mut maker, recipe, place));
    }
    for place in 0..sizes.counts {
        let text = chosen(&all, &counted, place, 50)(&mut maker);
        requests.push(Request { work: lent(&text, &mut maker.rng), text, ask: Ask::Counts });
    }
    requests
}

/// Picks a recipe of any kind so many times in a hundred, else one of the usual kinds.
fn chosen(all: &[Recipe], usual: &[Recipe], place: usize, percent: usize) -> Recipe {
    if place % 100 < percent {
        all[(place / 100 * percent + place % 100) % all.len()]
    } else {
        usual[place % usual.len()]
    }
}

/// Picks how much workspace is lent, mostly enough, but often too little for a long text.
fn lent(text: &[u8], rng: &mut Rng) -> usize {
    let long = text.len() > sheet::TEXT && rng.chance(20);
    match if long { rng.below(2) } else { rng.below(50) } {
        0 => WORKSPACE - 1,
        1 => *rng.pick(&[0, 1, 2_048, 8_190]),
        2..=20 => WORKSPACE,
        21 => WORKSPACE + 1,
        22..=30 => 9_000,
        _ => rng.between(WORKSPACE, 9_000),
    }
}

/// Picks how much room is lent for so many numbers.
fn room_for(count: usize, rng: &mut Rng) -> usize {
    let room = match rng.below(10) {
        0 => count.saturating_sub(1),
        1 => rng.below(count + 1),
        2 => 0,
        3 => count + 1,
        4 => 1_000,
        _ => count,
    };
    room.min(1_000)
}

/// Reads a sheet if it is accepted.
fn accepted(text: &[u8]) -> Option<Sheet> {
    let mut work = vec![0; WORKSPACE];
    let judged = entries::judge(text, &mut work);
    (judged.verdict.numbers()[0] == 0).then(|| sheet::read(text).ok()).flatten()
}

/// Picks an opponent's cell, one in an open wait so many times in a hundred.
fn opposing(game: &Game, touching: usize, rng: &mut Rng) -> Option<usize> {
    let (empty, held) = game.empty_cells();
    if empty.is_empty() {
        return None;
    }
    let touch = held == empty.len() || (held > 0 && rng.chance(touching));
    let place = if touch { rng.below(held) } else { rng.between(held, empty.len() - 1) };
    Some(empty[place])
}

/// Makes up an opponent's cells for a whole game by a sheet, and the stones played.
fn game(sheet: &Sheet, rng: &mut Rng) -> (Vec<u32>, Vec<u32>) {
    let mut game = Game::start(sheet);
    let mut cells = Vec::new();
    let touching = *rng.pick(&[0, 30, 70, 100]);
    let tries = *rng.pick(&[1, 3, 8, 12]);
    while !game.over() {
        let before = game.clone();
        for _ in 0..tries {
            let Some(cell) = opposing(&before, touching, rng) else {
                break;
            };
            game = before.clone();
            game.answer(cell);
            if !game.over() {
                break;
            }
        }
        let (_, theirs) = game.stones();
        if theirs.len() == cells.len() {
            break;
        }
        cells.extend(theirs.last().map(|&cell| cell as u32));
    }
    let (mine, theirs) = game.stones();
    (cells, mine.iter().chain(theirs).map(|&cell| cell as u32).collect())
}

/// Lists the cells of the stones set up.
fn set_up(sheet: &Sheet) -> Vec<u32> {
    let sides = [Side::Own, Side::Opp].into_iter();
    sides.flat_map(|side| sheet.set_up.cells(side)).map(|cell| cell as u32).collect()
}

/// Picks a cell number that is not on a board of this size.
fn no_cell(size: u32, rng: &mut Rng) -> u32 {
    let inside = rng.between(1, size as usize) as u32;
    let next = size + 1;
    *rng.pick(&[0, 0, next, next, size + 2, 362, 512 + inside, 65_536 + inside, u32::MAX])
}

/// Picks any cell of a board of this size, or seldom none.
fn any_cell(size: u32, rng: &mut Rng) -> u32 {
    if rng.chance(10) {
        return no_cell(size, rng);
    }
    rng.between(1, size as usize) as u32
}

/// Spoils the cells of a game: nothing, a part, more at the end, illegal or taken ones.
fn vary(cells: &mut Vec<u32>, stones: &[u32], size: u32, kind: usize, rng: &mut Rng) {
    let part = rng.below(cells.len() + 1);
    match kind {
        0..=6 => {}
        7 | 8 => cells.truncate(part),
        9 | 10 => (0..rng.between(1, 4)).for_each(|_| cells.push(any_cell(size, rng))),
        11 => cells.push(*rng.pick(&[0, size + 1, u32::MAX])),
        12 => {
            cells.truncate(part);
            cells.push(no_cell(size, rng));
        }
        13 => cells.insert(part, no_cell(size, rng)),
        14 | 15 | 19..=22 => {
            cells.truncate(part);
            cells.extend(stones.get(rng.below(stones.len() + 1)));
        }
        16 if part > 0 => cells.insert(part, cells[rng.below(part)]),
        17 => {
            let most = if rng.chance(30) { 400 } else { 40 };
            *cells = (0..rng.below(most + 1)).map(|_| any_cell(size, rng)).collect();
        }
        _ => {
            cells.truncate(part);
            cells.push(any_cell(size, rng));
        }
    }
}

/// Makes a play request.
fn play(maker: &mut Maker, recipe: Recipe, place: usize) -> Request {
    let text = recipe(maker);
    let rng = &mut maker.rng;
    let mut cells: Vec<u32> = (0..rng.below(5)).map(|_| any_cell(9, rng)).collect();
    if let Some(sheet) = accepted(&text) {
        let (moves, stones) = game(&sheet, rng);
        cells = moves;
        let kind = place % 23;
        let taken = if kind > 18 { set_up(&sheet) } else { stones };
        vary(&mut cells, &taken, sheet.board.size() as u32, kind, rng);
    }
    cells.truncate(400);
    let room = if rng.chance(60) { cells.len() } else { room_for(cells.len(), rng) };
    Request { work: lent(&text, rng), text, ask: Ask::Play { room, cells } }
}

/// Makes an outcome request.
fn outcome(maker: &mut Maker, recipe: Recipe, place: usize) -> Request {
    let text = recipe(maker);
    let rng = &mut maker.rng;
    let counted = |taken: Taken| {
        let count = sheet::read(&text).map_or(3, |sheet| count_of_move(&sheet.root, taken));
        count.min(70_000) as u32
    };
    let (count, all) = (counted(live_moves), counted(every_move));
    let number = match place % 10 {
        0 => 0,
        1 => count - 1,
        2 => count,
        3 => *rng.pick(&[count + 1, 65_535, 65_536, 65_537, u32::MAX, 1 << 31, count + 65_536]),
        4 => *rng.pick(&[all - 1, all, count - 1, count, (count + all) / 2]),
        _ => rng.below(count as usize) as u32,
    };
    let mut work = vec![0; WORKSPACE];
    let cells = entries::outcome(&text, number, &mut [0; 400], &mut work).cells;
    let room = room_for(if cells == 0 { rng.below(20) } else { cells }, rng);
    Request { work: lent(&text, rng), text, ask: Ask::Outcome { room, number } }
}
