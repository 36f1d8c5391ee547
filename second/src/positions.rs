//! Made-up sheets that start from a position: stones of both sides set up before the tree.

use crate::maker::Maker;
use crate::plan::{leaf, spots_of, step, Plan, Spot, Step, NONE};
use crate::rng::Rng;
use crate::set_up::Side;
use crate::templates::{free_move, toward};

/// Picks a side.
fn any_side(rng: &mut Rng) -> Side {
    *rng.pick(&[Side::Own, Side::Opp])
}

/// Sets up stones of both sides on spots that the tree leaves, so many at most and in any order.
pub fn scatter(plan: &mut Plan, most: usize, rng: &mut Rng) {
    let mut free = plan.unused(rng);
    free.truncate(most);
    for spot in free {
        plan.stones.push((any_side(rng), spot));
    }
    rng.shuffle(&mut plan.stones);
}

/// Picks an opponent's spot, mostly one of an open wait.
fn opposing(plan: &Plan, rng: &mut Rng) -> Option<Spot> {
    let waited: Vec<Spot> = plan.root.waits.iter().flat_map(|wait| spots_of(wait)).collect();
    let free = plan.unused(rng);
    if free.is_empty() || rng.chance(80) {
        return (!waited.is_empty()).then(|| *rng.pick(&waited));
    }
    Some(free[0])
}

/// Plays one round: the root's stone and the opponent's are set up, and the answer is the root.
fn play_round(plan: &mut Plan, rng: &mut Rng) {
    let Some(spot) = opposing(plan, rng) else {
        return;
    };
    let mut waits = plan.root.waits.clone();
    if waits.is_empty() {
        return;
    }
    let touched = waits.iter().position(|wait| spots_of(wait).contains(&spot));
    let wait = waits.remove(touched.unwrap_or(0));
    let fitting: Vec<&Step> = wait.iter().filter(|next| !next.spots().contains(&spot)).collect();
    let answer = *rng.pick(&fitting);
    settle(plan);
    plan.stones.push((Side::Opp, spot));
    waits.extend(answer.waits.clone());
    plan.root = step(answer.spot, waits);
}

/// Sets the root's stone up, so that the opponent moves first.
fn settle(plan: &mut Plan) {
    if plan.root.spot != NONE {
        plan.stones.push((Side::Own, plan.root.spot));
        plan.root.spot = NONE;
    }
}

/// Starts an accepted plan again from the position that some rounds of play lead to.
pub fn resume(plan: &mut Plan, rng: &mut Rng) {
    for _ in 0..rng.between(1, 3) {
        play_round(plan, rng);
    }
    if rng.chance(60) {
        settle(plan);
    }
    if rng.chance(50) {
        plan.stones.retain(|stone| stone.0 == Side::Own || rng.chance(50));
    }
    rng.shuffle(&mut plan.stones);
}

/// Lists the spots of a chain that runs down from the first row to this one.
fn chain(columns: i32, rows: i32, rng: &mut Rng) -> Vec<Spot> {
    let mut spot = (rng.between(1, columns as usize) as i32, 1);
    let mut spots = vec![spot];
    while spot.1 < rows {
        spot = (spot.0 - i32::from(spot.0 > 1 && rng.chance(40)), spot.1 + 1);
        spots.push(spot);
    }
    spots
}

/// Makes a template: own stones that run down to an empty edge, and stones of both sides about it.
pub fn template(maker: &mut Maker) -> Plan {
    loop {
        let (columns, rows) = (maker.width(3), maker.width(2));
        let rng = &mut maker.rng;
        let away = rng.between(1, 2).min(rows as usize - 1) as i32;
        let mut spots = chain(columns, rows - away, rng);
        let last = spots[spots.len() - 1];
        let mut plan = Plan::new(columns, rows, leaf(NONE));
        plan.root.waits = toward(last, away, true, rng);
        if rng.chance(40) {
            plan.root.spot = spots.swap_remove(rng.below(spots.len()));
        }
        plan.stones.extend(spots.into_iter().map(|spot| (Side::Own, spot)));
        if plan.fits() {
            scatter(&mut plan, rng.below(12), rng);
            return maker.placed(plan);
        }
    }
}

/// Makes a board on which own stones join already, and nothing to play.
pub fn joined(columns: i32, rows: i32, rng: &mut Rng) -> Plan {
    let mut plan = Plan::new(columns, rows, leaf(NONE));
    let own = chain(columns, rows, rng).into_iter().map(|spot| (Side::Own, spot));
    plan.stones.extend(own);
    plan
}

/// Makes a sheet whose own stones join already, with any fair tree or none beside them.
pub fn joined_already(maker: &mut Maker) -> Plan {
    let (columns, rows) = (maker.side(), maker.side());
    let rng = &mut maker.rng;
    let mut plan = joined(columns, rows, rng);
    let mut spots = plan.unused(rng);
    spots.truncate(rng.below(12));
    if !spots.is_empty() {
        plan.root = free_move(&spots, rng);
    }
    scatter(&mut plan, rng.below(4), rng);
    maker.placed(plan)
}

/// Makes an accepted plan and sets up stones on some spots that its tree leaves.
pub fn scattered(maker: &mut Maker) -> Plan {
    let mut plan = match maker.rng.below(4) {
        0 => maker.idle_plan(300),
        1 => maker.slow_plan(300),
        _ => maker.plan(300),
    };
    let most = *maker.rng.pick(&[1, 2, 4, 8]);
    scatter(&mut plan, most, &mut maker.rng);
    plan
}

/// Makes an accepted plan and sets up stones on all spots that its tree leaves.
pub fn crowded(maker: &mut Maker) -> Plan {
    let mut plan = maker.plan(100);
    scatter(&mut plan, usize::MAX, &mut maker.rng);
    plan
}

/// Makes an accepted plan that starts from a position within a game by another.
pub fn resumed(maker: &mut Maker) -> Plan {
    let mut plan = match maker.rng.below(3) {
        0 => maker.slow_plan(300),
        _ => maker.plan(300),
    };
    resume(&mut plan, &mut maker.rng);
    plan
}

/// Leaves out an own stone, or gives it to the opponent, so that most often an outcome is not joined.
pub fn lose(plan: &mut Plan, rng: &mut Rng) {
    let own = |place: &usize| plan.stones[*place].0 == Side::Own;
    let places: Vec<usize> = (0..plan.stones.len()).filter(own).collect();
    if places.is_empty() {
        return;
    }
    let place = *rng.pick(&places);
    if rng.chance(50) {
        plan.stones.remove(place);
    } else {
        plan.stones[place].0 = Side::Opp;
    }
}

/// Sets up one more stone, or some, on cells of the tree.
pub fn cover(plan: &mut Plan, rng: &mut Rng) {
    let mut spots: Vec<Spot> = plan.root.spots().into_iter().collect();
    rng.shuffle(&mut spots);
    if plan.root.spot != NONE && rng.chance(20) {
        spots.insert(0, plan.root.spot);
        spots.truncate(1);
    }
    spots.truncate(rng.between(1, 3));
    for spot in spots {
        let place = rng.below(plan.stones.len() + 1);
        plan.stones.insert(place, (any_side(rng), spot));
    }
}

/// Names a set-up cell once more, for either side.
pub fn repeat(plan: &mut Plan, rng: &mut Rng) {
    if plan.stones.is_empty() {
        return;
    }
    for _ in 0..rng.between(1, 2) {
        let spot = rng.pick(&plan.stones).1;
        let place = rng.below(plan.stones.len() + 1);
        plan.stones.insert(place, (any_side(rng), spot));
    }
}

/// Sets up one more stone off the board, right of it, where counting on gives another stone's cell.
pub fn wrap(plan: &mut Plan, rng: &mut Rng) {
    let columns = plan.columns;
    let spots = plan.stones.iter().map(|stone| stone.1);
    let wrapped: Vec<Spot> = spots.map(|spot| (spot.0 + columns, spot.1 - 1)).collect();
    let fitting = |spot: &&Spot| spot.0 <= 26 && spot.1 > 0;
    if let Some(&spot) = wrapped.iter().find(fitting) {
        plan.stones.push((any_side(rng), spot));
    }
}
