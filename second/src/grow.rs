//! Changes that keep a sheet fair and joined.

use crate::plan::{leaf, pair, Plan, Spot, Step};
use crate::rng::Rng;
use crate::spare::live_outcomes;
use crate::templates::{free_move, free_wait};
use crate::unlike::{add_nodes, IDLE};

/// Tries a change and takes it only while the sheet stays inside its limits and has no branch twice.
pub fn attempt(plan: &mut Plan, most: u128, change: impl FnOnce(&mut Plan)) {
    let mut changed = plan.clone();
    change(&mut changed);
    let root = &changed.root;
    let inside = root.outcomes() <= most && root.nodes() <= 2_048 && root.depth() <= 127;
    if inside && !root.doubled() {
        *plan = changed;
    }
}

/// Repeats a move of a wait in the same wait with something else: an idle wait under it, or the order of its lines.
fn repeat(plan: &mut Plan, rng: &mut Rng) {
    let free = plan.unused(rng);
    if let Some(wait) = plan.root.any_wait(rng) {
        let mut again = rng.pick(wait).clone();
        again.shuffle(rng);
        if free.len() >= 2 && rng.chance(70) {
            again.waits.push(pair(free[0], free[1]));
        }
        let place = rng.below(wait.len() + 1);
        wait.insert(place, again);
    }
}

/// Adds a wait over unused cells somewhere.
fn idle(plan: &mut Plan, rng: &mut Rng) {
    let free = plan.unused(rng);
    if free.len() < 2 {
        return;
    }
    let count = rng.between(2, free.len().min(8));
    let wait = free_wait(&free[..count], rng);
    let at_root = rng.chance(60);
    let under = if at_root { &mut plan.root } else { plan.root.any_move(rng) };
    let place = rng.below(under.waits.len() + 1);
    under.waits.insert(place, wait);
}

/// Adds a wait of two unused cells to the root.
pub fn idle_pair(plan: &mut Plan, rng: &mut Rng) {
    let free = plan.unused(rng);
    if free.len() >= 2 {
        let place = rng.below(plan.root.waits.len() + 1);
        plan.root.waits.insert(place, vec![leaf(free[0]), leaf(free[1])]);
    }
}

/// Adds after all waits of the root some of two unused cells, which nothing waits for where the stones join before.
pub fn idle_last(plan: &mut Plan, count: usize, rng: &mut Rng) {
    let free = plan.unused(rng);
    let pairs = free.chunks_exact(2).take(count);
    plan.root.waits.extend(pairs.map(|two| pair(two[0], two[1])));
}

/// Puts before the first move of some wait the same move with a wait of two unused cells more: two live moves with one cell.
pub fn one_cell(plan: &mut Plan, rng: &mut Rng) {
    let free = plan.unused(rng);
    let Some(wait) = plan.root.any_wait(rng).filter(|_| free.len() >= 2) else {
        return;
    };
    let mut again = wait[0].clone();
    again.waits.push(pair(free[0], free[1]));
    wait.insert(0, again);
}

/// Adds to a wait a move on an unused cell with the same wait under it, again and again.
fn delay_wait(wait: &mut Vec<Step>, spots: &[Spot], first: bool, rng: &mut Rng) {
    let original = wait.clone();
    for &spot in spots {
        let mut next = original.clone();
        let place = if first { 0 } else { rng.below(next.len() + 1) };
        next.insert(place, Step { spot, waits: vec![std::mem::take(wait)] });
        *wait = next;
    }
}

/// Delays some wait by so many moves on unused cells, put anywhere, or put first and leaving cells unused.
fn delay(plan: &mut Plan, count: usize, first: bool, rng: &mut Rng) {
    let mut free = plan.unused(rng);
    free.truncate(if first { count.min(free.len() / 3) } else { count });
    if let Some(wait) = plan.root.any_wait(rng) {
        delay_wait(wait, &free, first, rng);
    }
}

/// Adds to a wait a move whose cells are unused but which carries the same wait and an idle one.
fn detour(plan: &mut Plan, rng: &mut Rng) {
    let free = plan.unused(rng);
    if free.len() < 4 {
        return;
    }
    if let Some(wait) = plan.root.any_wait(rng) {
        let mut next = free_move(&free[..free.len().min(5)], rng);
        let place = rng.below(next.waits.len() + 1);
        next.waits.insert(place, wait.clone());
        let place = rng.below(wait.len() + 1);
        wait.insert(place, next);
    }
}

/// Grows a plan by some random changes, with at most so many outcomes.
pub fn grow(plan: &mut Plan, changes: usize, most: u128, rng: &mut Rng) {
    for _ in 0..changes {
        match rng.below(8) {
            0 | 1 => attempt(plan, most, |plan| repeat(plan, rng)),
            2..=4 => attempt(plan, most, |plan| idle(plan, rng)),
            5 => attempt(plan, most, |plan| delay(plan, rng.between(1, 3), false, rng)),
            6 => attempt(plan, most, |plan| detour(plan, rng)),
            _ => attempt(plan, most, |plan| plan.root.shuffle(rng)),
        }
    }
}

/// Deepens a plan as far as its unused cells and the limits allow.
pub fn deepen(plan: &mut Plan, count: usize, most: u128, rng: &mut Rng) {
    attempt(plan, most, |plan| delay(plan, count, false, rng));
}

/// Delays a wait with moves put first, as far as the limits allow.
pub fn hinder(plan: &mut Plan, count: usize, most: u128, rng: &mut Rng) {
    attempt(plan, most, |plan| delay(plan, count, true, rng));
}

/// Adds idle waits of two while the outcomes stay at or below a number.
pub fn double(plan: &mut Plan, most: u128, rng: &mut Rng) {
    while live_outcomes(plan) * 2 <= most && plan.unused(rng).len() >= 2 {
        idle_pair(plan, rng);
    }
}

/// Adds unlike branches to one wait until the tree has exactly so many nodes, where single moves and unused cells allow it.
pub fn pad(plan: &mut Plan, nodes: usize, rng: &mut Rng) {
    let missing = nodes.saturating_sub(plan.root.nodes());
    let mut idle = plan.unused(rng);
    idle.truncate(2 * IDLE);
    let Some(wait) = plan.root.any_wait(rng) else {
        return;
    };
    let single = wait.iter().any(|next| next.waits.is_empty());
    if single && idle.len() >= IDLE && missing >= 4 {
        add_nodes(wait, missing, &idle, rng);
        rng.shuffle(wait);
    }
}
