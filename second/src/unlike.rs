//! Waits of many moves of which no two have the same branch.

use crate::plan::{leaf, Spot, Step};
use crate::rng::Rng;

/// How many idle spots are enough for some thousand nodes of unlike branches.
pub const IDLE: usize = 6;

/// Gives a wait of single moves on these spots.
pub fn singles(spots: &[Spot]) -> Vec<Step> {
    spots.iter().map(|&spot| leaf(spot)).collect()
}

/// Makes one or two waits of two to four single moves on some of these spots (two at least).
fn idle_waits(spots: &[Spot], rng: &mut Rng) -> Vec<Vec<Step>> {
    let mut spots = spots.to_vec();
    rng.shuffle(&mut spots);
    let (first, rest) = spots.split_at(rng.between(2, spots.len().min(4)));
    let mut waits = vec![singles(first)];
    if rest.len() >= 2 && rng.chance(40) {
        waits.push(singles(&rest[..rng.between(2, rest.len().min(4))]));
    }
    waits
}

/// Adds unlike branches to a wait, each one of its moves with idle waits under it, until they have just so many nodes (four at least, or none). One of its moves is single.
/// Where a branch does not fit, now and then the last one is taken back, since what is left may have no branch of its size.
pub fn add_nodes(wait: &mut Vec<Step>, nodes: usize, idle: &[Spot], rng: &mut Rng) {
    let (mut left, least) = (nodes, 4);
    assert!(left == 0 || left >= least, "no branch is so small");
    let moves = wait.clone();
    while left > 0 {
        let mut next = rng.pick(&moves).clone();
        next.waits.extend(idle_waits(idle, rng));
        let size = next.nodes();
        if (size == left || size + least <= left) && !wait.contains(&next) {
            wait.push(next);
            left -= size;
        } else if wait.len() > moves.len() && rng.chance(5) {
            left += wait.pop().map_or(0, |last| last.nodes());
        }
    }
}
