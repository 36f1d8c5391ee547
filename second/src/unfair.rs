//! Changes that make a sheet unfair or leave an outcome unjoined.

use crate::plan::{leaf, spots_of, Plan, Spot, Step, NONE};
use crate::rng::Rng;

/// Puts a move with this spot somewhere into a wait or the waits below it.
fn graft(wait: &mut Vec<Step>, spot: Spot, rng: &mut Rng) {
    let chosen = rng.below(wait.len());
    if rng.chance(60) && !wait[chosen].waits.is_empty() {
        let waits = &mut wait[chosen].waits;
        let next = rng.below(waits.len());
        return graft(&mut waits[next], spot, rng);
    }
    let place = rng.below(wait.len() + 1);
    wait.insert(place, leaf(spot));
}

/// Repeats the own cell of a move below it.
pub fn own_below(plan: &mut Plan, rng: &mut Rng) {
    for _ in 0..10 {
        let step = plan.root.any_move(rng);
        if step.spot != NONE && !step.waits.is_empty() {
            let chosen = rng.below(step.waits.len());
            return graft(&mut step.waits[chosen], step.spot, rng);
        }
    }
}

/// Lets two waits of one move share a cell, not next to each other if that can be.
pub fn shared(plan: &mut Plan, apart: bool, rng: &mut Rng) {
    let free = plan.unused(rng);
    let with_two = |step: &&mut Step| step.waits.len() >= 2;
    let step = match Some(plan.root.any_move(rng)).filter(with_two) {
        Some(step) => step,
        None => &mut plan.root,
    };
    for two in free.chunks_exact(2) {
        if step.waits.len() < if apart { 3 } else { 2 } {
            let place = rng.below(step.waits.len() + 1);
            step.waits.insert(place, vec![leaf(two[0]), leaf(two[1])]);
        }
    }
    let last = step.waits.len().wrapping_sub(1);
    if step.waits.len() < 2 {
        return;
    }
    let cells: Vec<Spot> = spots_of(&step.waits[0]).into_iter().collect();
    for _ in 0..rng.between(1, 3) {
        let cell = *rng.pick(&cells);
        graft(&mut step.waits[last], cell, rng);
    }
}

/// Leaves a wait only one of its moves.
pub fn single(plan: &mut Plan, rng: &mut Rng) {
    if let Some(wait) = plan.root.any_wait(rng) {
        let kept = rng.pick(wait).clone();
        *wait = vec![kept];
    }
}

/// Puts one or more cells deep into every branch of a wait.
pub fn common(plan: &mut Plan, rng: &mut Rng) {
    let free = plan.unused(rng);
    if free.len() < 3 {
        return single(plan, rng);
    }
    let cells = rng.between(1, free.len().min(4) - 2);
    let Some(wait) = plan.root.any_wait(rng) else {
        return;
    };
    for (place, step) in wait.iter_mut().enumerate() {
        for &cell in &free[..cells] {
            let partner = free[cells + place % (free.len() - cells)];
            if step.waits.is_empty() {
                step.waits.push(vec![leaf(cell), leaf(partner)]);
            } else {
                let chosen = rng.below(step.waits.len());
                graft(&mut step.waits[chosen], cell, rng);
            }
        }
    }
}

/// Makes the first wait not elusive and a move below or after it not apart.
pub fn both(plan: &mut Plan, rng: &mut Rng) {
    let free = plan.unused(rng);
    let Some(&cell) = free.first() else {
        return own_below(plan, rng);
    };
    let Some(wait) = plan.root.nth_wait(&mut 0) else {
        return;
    };
    for step in wait.iter_mut() {
        let own = step.spot;
        match step.waits.first_mut() {
            Some(first) => first.push(leaf(cell)),
            None => step.waits.push(vec![leaf(cell), leaf(own)]),
        }
    }
    if rng.chance(50) {
        own_below(plan, rng);
    }
}

/// Moves a leaf to an unused cell.
pub fn astray(plan: &mut Plan, rng: &mut Rng) {
    let free = plan.unused(rng);
    let Some(&cell) = free.first() else {
        return drop_wait(plan, rng);
    };
    for _ in 0..20 {
        let step = plan.root.any_move(rng);
        if step.waits.is_empty() && step.spot != NONE {
            step.spot = cell;
            return;
        }
    }
    plan.root.spot = cell;
}

/// Takes one wait away.
pub fn drop_wait(plan: &mut Plan, rng: &mut Rng) {
    for _ in 0..20 {
        let step = plan.root.any_move(rng);
        if !step.waits.is_empty() {
            let place = rng.below(step.waits.len());
            step.waits.remove(place);
            return;
        }
    }
}

/// Gives the sheet to the other player.
pub fn other_player(plan: &mut Plan) {
    plan.player = if plan.player == 'D' { 'A' } else { 'D' };
}
