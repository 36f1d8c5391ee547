//! Sheets with the same branch twice under a wait, and with branches that are nearly the same.

use crate::board::LARGEST;
use crate::limits;
use crate::plan::{leaf, pair, step, Plan, Spot, Step, NONE};
use crate::positions;
use crate::rng::Rng;
use crate::unlike::singles;

/// Puts a move anywhere into a wait.
fn put(wait: &mut Vec<Step>, next: Step, rng: &mut Rng) {
    let place = rng.below(wait.len() + 1);
    wait.insert(place, next);
}

/// Picks a move of a wait, one with lines under it if there is any.
fn long_branch(wait: &[Step], rng: &mut Rng) -> usize {
    let long: Vec<usize> = (0..wait.len()).filter(|&at| !wait[at].waits.is_empty()).collect();
    if long.is_empty() {
        return rng.below(wait.len());
    }
    *rng.pick(&long)
}

/// Repeats a branch of some wait there, beside it or with others between.
pub fn once(plan: &mut Plan, rng: &mut Rng) {
    if let Some(wait) = plan.root.any_wait(rng) {
        let long = rng.chance(50);
        let from = if long { long_branch(wait, rng) } else { rng.below(wait.len()) };
        put(wait, wait[from].clone(), rng);
    }
}

/// Repeats branches of two waits, or of one.
pub fn twice(plan: &mut Plan, rng: &mut Rng) {
    once(plan, rng);
    once(plan, rng);
}

/// Repeats a branch, and before that one within it, if any wait has a branch with lines under it.
pub fn nested(plan: &mut Plan, rng: &mut Rng) {
    for _ in 0..20 {
        let Some(wait) = plan.root.any_wait(rng) else {
            return;
        };
        let from = long_branch(wait, rng);
        if let Some(inner) = wait[from].any_wait(rng) {
            put(inner, rng.pick(inner).clone(), rng);
            return put(wait, wait[from].clone(), rng);
        }
    }
    once(plan, rng);
}

/// Leaves a wait one of its moves, twice: not elusive, and the same branch.
pub fn alone(plan: &mut Plan, rng: &mut Rng) {
    if let Some(wait) = plan.root.any_wait(rng) {
        let kept = rng.pick(wait).clone();
        *wait = vec![kept.clone(), kept];
    }
}

/// Repeats a branch of some wait with an unused cell on its last line, or on any line.
pub fn other_cell(plan: &mut Plan, rng: &mut Rng) {
    let free = plan.unused(rng);
    if let (Some(&spot), Some(wait)) = (free.first(), plan.root.any_wait(rng)) {
        let mut next = wait[long_branch(wait, rng)].clone();
        let last = next.moves() - 1;
        let mut place = if rng.chance(70) { last } else { rng.between(0, last) };
        next.nth_move(&mut place).expect("the place is one of its moves").spot = spot;
        put(wait, next, rng);
    }
}

/// Adds to a wait two of its branches that name the same cells line by line and differ in the counts of two waits.
pub fn other_counts(plan: &mut Plan, rng: &mut Rng) {
    let free = plan.unused(rng);
    if let (&[a, b, c, d, e, ..], Some(wait)) = (&free[..], plan.root.any_wait(rng)) {
        let low = vec![step(a, vec![pair(b, c)]), leaf(d), leaf(e)];
        let high = vec![step(a, vec![singles(&[b, c, d])]), leaf(e)];
        let branch = rng.pick(wait).clone();
        for idle in [low, high] {
            let mut next = branch.clone();
            next.waits.push(idle);
            put(wait, next, rng);
        }
    }
}

/// Repeats a branch of some wait with its lines in another order, if one is found.
pub fn other_order(plan: &mut Plan, rng: &mut Rng) {
    for _ in 0..20 {
        let Some(wait) = plan.root.any_wait(rng) else {
            return;
        };
        let mut next = wait[long_branch(wait, rng)].clone();
        next.shuffle(rng);
        if !wait.contains(&next) {
            return put(wait, next, rng);
        }
    }
}

/// Repeats the last line of a tree under its wait.
fn repeat_last(step: &mut Step) {
    let Some(wait) = step.waits.last_mut() else {
        return;
    };
    match wait.last_mut() {
        Some(next) if !next.waits.is_empty() => repeat_last(next),
        _ => wait.extend(wait.last().cloned()),
    }
}

/// Makes a large board with nothing to play, on which own stones join half the time, and gives its empty cells in any order.
fn large(rng: &mut Rng) -> (Plan, Vec<Spot>) {
    let side = |rng: &mut Rng| rng.between(LARGEST - 2, LARGEST) as i32;
    let (columns, rows) = (side(rng), side(rng));
    let joined = rng.chance(50);
    let plan = if joined {
        positions::joined(columns, rows, rng)
    } else {
        Plan::new(columns, rows, leaf(NONE))
    };
    let spots = plan.unused(rng);
    (plan, spots)
}

/// Makes a wait of single moves on nearly all empty cells of a large board, none of them twice.
pub fn all_cells(rng: &mut Rng) -> Plan {
    let (mut plan, mut spots) = large(rng);
    spots.truncate(spots.len() - rng.below(3));
    plan.root.waits = vec![singles(&spots)];
    plan
}

/// Makes the same with its first move again as the last, or one of its moves again anywhere.
pub fn all_cells_and_one(rng: &mut Rng) -> Plan {
    let mut plan = all_cells(rng);
    let wait = &mut plan.root.waits[0];
    if rng.chance(50) {
        wait.push(wait[0].clone());
    } else {
        put(wait, rng.pick(wait).clone(), rng);
    }
    plan
}

/// Makes a wait of about as many moves as are allowed, all single, which takes turns over some cells.
pub fn widest(rng: &mut Rng) -> Plan {
    let (mut plan, spots) = large(rng);
    let turns = *rng.pick(&[2, 3, 100, spots.len() - 1, spots.len()]);
    let moves = rng.between(2_045, 2_046);
    plan.root.waits = vec![spots[..turns].iter().cycle().take(moves).map(|&at| leaf(at)).collect()];
    plan
}

/// Makes a tree of about as many nodes as are allowed whose last two lines are the same, or its first line under a wait and its last.
pub fn full(rng: &mut Rng) -> Plan {
    let mut plan = limits::many_nodes(rng.between(2_045, 2_047), rng);
    if rng.chance(50) {
        repeat_last(&mut plan.root);
    } else if let Some(wait) = plan.root.waits.last_mut() {
        wait.push(wait[0].clone());
    }
    plan
}
