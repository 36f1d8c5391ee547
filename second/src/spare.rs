//! Sheets with spare branches: moves that are not live, beside those that are.

use crate::grow::attempt;
use crate::live::live_moves;
use crate::outcomes::{count_of_move, OUTCOMES};
use crate::plan::{add_new, leaf, pair, spots_of, step, Plan, Spot, Step};
use crate::rng::Rng;
use crate::sheet;
use crate::unlike::singles;
use std::collections::BTreeSet;

/// Counts the outcomes of a plan that can be read, over live moves; document 01 counted `plan.root.outcomes()`.
pub fn live_outcomes(plan: &Plan) -> u128 {
    sheet::read(&plan.text()).map_or(0, |sheet| count_of_move(&sheet.root, live_moves))
}

/// Makes a fair move that names all these spots, of which there is one, or three at least.
fn naming(spots: &[Spot], rng: &mut Rng) -> Step {
    let rest = &spots[1..];
    if rest.is_empty() {
        return leaf(spots[0]);
    }
    if rest.len() >= 4 && rng.chance(30) {
        let (one, other) = rest.split_at(rng.between(2, rest.len() - 2));
        return step(spots[0], vec![naming_wait(one, rng), naming_wait(other, rng)]);
    }
    step(spots[0], vec![naming_wait(rest, rng)])
}

/// Makes a fair wait that names all these spots, of which there are two at least; past its first two moves none is live.
fn naming_wait(spots: &[Spot], rng: &mut Rng) -> Vec<Step> {
    if spots.len() < 4 || rng.chance(30) {
        return singles(spots);
    }
    let mut wait = vec![leaf(spots[0]), naming(&spots[1..], rng)];
    rng.shuffle(&mut wait);
    if rng.chance(40) {
        add_new(&mut wait, leaf(*rng.pick(spots)));
    }
    wait
}

/// Makes a move that has all spots common to these moves, some others of these spots and some that nothing names, if they are enough for a fair one.
/// It is not live after those moves.
fn spare(before: &[Step], others: &[Spot], free: &[Spot], rng: &mut Rng) -> Option<Step> {
    let sets: Vec<BTreeSet<Spot>> = before.iter().map(Step::spots).collect();
    let in_all = |spot: &Spot| sets.iter().all(|spots| spots.contains(spot));
    let mut spots: Vec<Spot> = sets[0].iter().copied().filter(in_all).collect();
    let needed = spots.len();
    let mut more: Vec<Spot> = others.iter().copied().filter(|spot| !spots.contains(spot)).collect();
    rng.shuffle(&mut more);
    more.truncate(rng.below(4));
    more.extend(free.iter().take(rng.below(4)));
    spots.extend(more);
    if spots.len() == 2 && needed < 2 {
        spots.truncate(1);
    }
    if spots.is_empty() || spots.len() == 2 {
        return None;
    }
    rng.shuffle(&mut spots);
    Some(naming(&spots, rng))
}

/// Puts a spare branch anywhere after the first move of some wait.
fn put(plan: &mut Plan, rng: &mut Rng) {
    let free = plan.unused(rng);
    let Some(wait) = plan.root.any_wait(rng) else {
        return;
    };
    let others: Vec<Spot> = spots_of(wait).into_iter().collect();
    let place = rng.between(1, wait.len());
    if let Some(next) = spare(&wait[..place], &others, &free, rng) {
        wait.insert(place, next);
    }
}

/// Adds so many spare branches, where the limits allow it and no branch is there twice then.
/// The outcomes stay as they are: a branch is left out if its cells would make another spare one live.
pub fn add(plan: &mut Plan, count: usize, most: u128, rng: &mut Rng) {
    let outcomes = live_outcomes(plan);
    for _ in 0..count {
        let before = plan.clone();
        attempt(plan, most, |plan| put(plan, rng));
        if live_outcomes(plan) != outcomes {
            *plan = before;
        }
    }
}

/// Adds spare branches with many idle waits to a wait of the root, until document 01 counts too many outcomes, if unused spots allow it.
pub fn add_heavy(plan: &mut Plan, rng: &mut Rng) {
    let free = plan.unused(rng);
    let pairs = free.chunks_exact(2).take(17).map(|two| pair(two[0], two[1]));
    let pairs: Vec<Vec<Step>> = pairs.collect();
    if plan.root.waits.is_empty() {
        return;
    }
    let chosen = rng.below(plan.root.waits.len());
    let others: Vec<Spot> = spots_of(&plan.root.waits[chosen]).into_iter().collect();
    for _ in 0..8 {
        if plan.root.outcomes() > OUTCOMES {
            return;
        }
        attempt(plan, u128::MAX, |plan| {
            let wait = &mut plan.root.waits[chosen];
            let place = rng.between(1, wait.len());
            if let Some(mut next) = spare(&wait[..place], &others, &[], rng) {
                next.waits.extend(pairs.clone());
                rng.shuffle(&mut next.waits);
                wait.insert(place, next);
            }
        });
    }
}
