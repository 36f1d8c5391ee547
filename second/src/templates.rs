//! Sheets of known kinds: bridges, edge templates, ladders, pairings and free trees.

use crate::board::LARGEST;
use crate::plan::{add_new, leaf, pair, step, Plan, Spot, Step, NONE};
use crate::rng::Rng;

/// Gives the waits that join a stone to the side so many rows away, at most two, up or down.
pub fn toward(stone: Spot, away: i32, down: bool, rng: &mut Rng) -> Vec<Vec<Step>> {
    let at = |right: i32, below: i32| {
        if down {
            (stone.0 + right, stone.1 + below)
        } else {
            (stone.0 - right, stone.1 - below)
        }
    };
    if away == 0 {
        return vec![];
    }
    if away == 1 {
        return vec![pair(at(0, 1), at(-1, 1))];
    }
    let near = step(at(-1, 1), vec![pair(at(-1, 2), at(-2, 2))]);
    let bridge = pair(at(1, 0), at(0, 1));
    let far = step(at(1, 1), vec![bridge, pair(at(1, 2), at(0, 2))]);
    let mirror = step(at(0, 1), vec![pair(at(0, 2), at(-1, 2))]);
    let bridge = pair(at(-1, 0), at(-1, 1));
    let back = step(at(-2, 1), vec![bridge, pair(at(-2, 2), at(-3, 2))]);
    let edge = step(at(-1, 2), vec![pair(at(-1, 1), at(0, 1))]);
    let mut wait = if rng.chance(70) { vec![near, far] } else { vec![mirror, back] };
    if rng.chance(30) {
        wait.push(edge);
    }
    vec![wait]
}

/// Makes a stone joined to both sides by bridges and edge templates, on one to five rows.
pub fn edges(columns: i32, rows: i32, rng: &mut Rng) -> Plan {
    let rows = rows.min(5);
    let first = (rows - 2).max(1);
    let last = rows.min(3);
    let row = rng.between(first as usize, last as usize) as i32;
    let stone = (rng.between(1, columns as usize) as i32, row);
    let mut waits = toward(stone, row - 1, false, rng);
    waits.extend(toward(stone, rows - row, true, rng));
    Plan::new(columns, rows, step(stone, waits))
}

/// Gives the wait of a stone on the last row but one that may run on to the right.
fn run(column: i32, row: i32, steps: usize) -> Vec<Step> {
    let drop = leaf((column - 1, row + 1));
    if steps == 0 {
        return vec![drop, leaf((column, row + 1))];
    }
    vec![drop, step((column + 1, row), vec![run(column + 1, row, steps - 1)])]
}

/// Makes a ladder: a stone joined up, running right along the last row but one.
pub fn ladder(columns: i32, rows: i32, rng: &mut Rng) -> Plan {
    let rows = rows.clamp(2, 4);
    let column = rng.between(1, columns as usize) as i32;
    let steps = rng.below((columns - column + 1).max(1) as usize);
    let stone = (column, rows - 1);
    let mut waits = toward(stone, rows - 2, false, rng);
    waits.push(run(column, rows - 1, steps));
    Plan::new(columns, rows, step(stone, waits))
}

/// Makes a ladder of bridges down a board of any size; D's root stone touches the top.
pub fn bridges(columns: i32, rows: i32, rng: &mut Rng) -> Plan {
    let mut spot = (rng.between(1, columns as usize) as i32, rows);
    let mut next = leaf(spot);
    while spot.1 > 2 {
        let above = (spot.0 + 1, spot.1 - 2);
        let bridge = pair((spot.0, spot.1 - 1), (spot.0 + 1, spot.1 - 1));
        let other = leaf((spot.0 - 1, spot.1));
        let mut wait = vec![next, other];
        rng.shuffle(&mut wait);
        next = step(above, vec![wait, bridge]);
        rng.shuffle(&mut next.waits);
        spot = above;
    }
    Plan::new(columns, rows, next)
}

/// Makes the pairing strategy of D, who moves second on a board with more columns than rows.
pub fn pairing(columns: i32, rows: i32, rng: &mut Rng) -> Plan {
    let left = rng.below((columns - rows) as usize) as i32;
    let mut waits = Vec::new();
    for row in 1..=rows {
        for column in 1..=rows + 1 - row {
            let other = (rows + 2 - row, rows + 1 - column);
            waits.push(pair((column + left, row), (other.0 + left, other.1)));
        }
    }
    let mut root = step(NONE, waits);
    root.shuffle(rng);
    Plan::new(columns, rows, root)
}

/// Makes a straight chain of single cells down a board of four columns or more that joins only in its first outcomes.
pub fn chain(columns: i32, rows: i32, rng: &mut Rng) -> Plan {
    let mut spot = (rng.between(1, columns as usize) as i32, 1);
    let root = spot;
    let mut waits = Vec::new();
    for row in 2..=rows {
        let left = spot.0 > 1 && rng.chance(50);
        let good = (spot.0 - i32::from(left), row);
        let mut others: Vec<Spot> = (1..=columns).map(|column| (column, row)).collect();
        others.retain(|&other| other != good);
        rng.shuffle(&mut others);
        let mut wait = vec![leaf(good), leaf(others[0])];
        if rng.chance(20) {
            wait.insert(1, step(good, vec![pair(others[1], others[2])]));
        }
        waits.push(wait);
        spot = good;
    }
    Plan::new(columns, rows, step(root, waits))
}

/// Makes a wait that is fair, over some of these spots (two at least).
pub fn free_wait(spots: &[Spot], rng: &mut Rng) -> Vec<Step> {
    let cut = rng.between(1, spots.len() - 1);
    let mut wait = vec![free_move(&spots[..cut], rng), free_move(&spots[cut..], rng)];
    for _ in 0..rng.below(3) {
        let mut some = spots.to_vec();
        rng.shuffle(&mut some);
        some.truncate(rng.between(1, some.len().min(6)));
        add_new(&mut wait, free_move(&some, rng));
    }
    rng.shuffle(&mut wait);
    wait
}

/// Makes a move that is fair, over some of these spots (one at least).
pub fn free_move(spots: &[Spot], rng: &mut Rng) -> Step {
    let mut rest = &spots[1..];
    let mut waits = Vec::new();
    while rest.len() >= 2 && rng.chance(60) {
        let cut = rng.between(2, rest.len());
        waits.push(free_wait(&rest[..cut], rng));
        rest = &rest[cut..];
    }
    rng.shuffle(&mut waits);
    step(spots[0], waits)
}

/// Makes a tree on a one-row board, where any stone joins for D.
pub fn one_row(columns: i32, rng: &mut Rng) -> Plan {
    let mut plan = Plan::new(columns, 1, leaf(NONE));
    let spots = plan.unused(rng);
    plan.root = free_move(&spots, rng);
    if spots.len() >= 2 && rng.chance(40) {
        plan.root = step(NONE, vec![free_wait(&spots, rng)]);
    }
    plan
}

/// Puts two plans side by side, so that D wins as second: either plan when the other is touched.
pub fn beside(one: Plan, other: Plan) -> Option<Plan> {
    let columns = one.columns + other.columns;
    if columns > LARGEST as i32
        || one.rows != other.rows
        || one.root.spot == NONE
        || other.root.spot == NONE
    {
        return None;
    }
    let right = other.widened(columns, one.columns);
    Some(Plan::new(columns, right.rows, step(NONE, vec![vec![one.root, right.root]])))
}
