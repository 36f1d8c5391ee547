//! The kinds of sheets in a corpus and how often each is made.

use crate::board::LARGEST;
use crate::damage;
use crate::doubled;
use crate::grow;
use crate::limits;
use crate::maker::Maker;
use crate::plan::Plan;
use crate::positions;
use crate::requests::BYTES;
use crate::rng::Rng;
use crate::spare;
use crate::templates;
use crate::unfair;

/// A way of making a sheet.
pub type Recipe = fn(&mut Maker) -> Vec<u8>;

/// Sheets that are accepted.
pub const GOOD: [(usize, Recipe); 6] = [
    (18, |maker| maker.plan(300).text()),
    (1, |maker| maker.plan(3_000).text()),
    (4, |maker| maker.deep_plan(500).text()),
    (7, |maker| maker.idle_plan(600).text()),
    (8, |maker| maker.slow_plan(800).text()),
    (2, |maker| maker.pairing().text()),
];

/// Accepted sheets that are dear to test: as many nodes or outcomes as are allowed.
pub const DEAR: [(usize, Recipe); 2] = [(2, padded), (2, full)];

/// Fair sheets of which most have an outcome that does not join, or too many outcomes.
pub const UNJOINED: [(usize, Recipe); 7] = [
    (3, |maker| maker.free_plan().text()),
    (5, |maker| maker.long_plan().text()),
    (6, |maker| spoiled(maker, unfair::astray)),
    (3, |maker| spoiled(maker, unfair::drop_wait)),
    (1, |maker| spoiled(maker, |plan, _| unfair::other_player(plan))),
    (2, |maker| limits::deep(125 + 2 * maker.rng.below(2), &mut maker.rng).text()),
    (4, |maker| limits::over_outcomes(&mut maker.rng).text()),
];

/// Sheets that are not apart or not elusive.
pub const UNFAIR: [(usize, Recipe); 8] = [
    (4, |maker| spoiled(maker, unfair::own_below)),
    (5, |maker| spoiled(maker, |plan, rng| unfair::shared(plan, true, rng))),
    (2, |maker| spoiled(maker, |plan, rng| unfair::shared(plan, false, rng))),
    (3, |maker| spoiled(maker, unfair::single)),
    (5, |maker| spoiled(maker, unfair::common)),
    (3, |maker| spoiled(maker, unfair::both)),
    (2, twice_spoiled),
    (4, spoiled_large),
];

/// Damaged texts.
pub const DAMAGED: [(usize, Recipe); 11] = [
    (10, |maker| damaged(maker, damage::line)),
    (3, twice_damaged),
    (4, |maker| damaged(maker, damage::header)),
    (4, |maker| damaged(maker, damage::zero)),
    (3, |maker| damaged(maker, damage::off_board)),
    (2, |maker| damaged(maker, damage::early)),
    (3, |maker| damaged(maker, damage::end)),
    (3, |maker| damaged(maker, damage::tail)),
    (8, |maker| damaged(maker, damage::bytes)),
    (2, |maker| damage::soup(&mut maker.rng)),
    (1, |_| Vec::new()),
];

/// Texts at the limits of reading.
pub const LIMITS: [(usize, Recipe); 8] = [
    (8, |maker| {
        let base = maker.plan(100).text();
        limits::long_text(&base, &mut maker.rng)
    }),
    (5, |maker| limits::overfull(&mut maker.rng)),
    (2, |maker| limits::just_full(&mut maker.rng)),
    (2, |maker| limits::deep(129, &mut maker.rng).text()),
    (5, |maker| limits::deep_text(&mut maker.rng)),
    (2, |maker| limits::counts(&mut maker.rng)),
    (5, |maker| limits::edge_board(&mut maker.rng)),
    (1, |maker| limits::one_more(&mut maker.rng).text()),
];

/// Accepted sheets with set-up stones.
pub const SET_UP: [(usize, Recipe); 5] = [
    (6, |maker| positions::scattered(maker).text()),
    (8, |maker| positions::resumed(maker).text()),
    (4, |maker| positions::template(maker).text()),
    (2, |maker| positions::joined_already(maker).text()),
    (2, |maker| positions::crowded(maker).text()),
];

/// Fair sheets with set-up stones of which most have an outcome that does not join.
pub const SET_UP_UNJOINED: [(usize, Recipe); 3] = [
    (4, |maker| lost(maker, positions::resumed)),
    (3, |maker| lost(maker, positions::template)),
    (2, |maker| lost(maker, positions::joined_already)),
];

/// Texts with set-up lines that are refused, or may be.
pub const SET_UP_DAMAGED: [(usize, Recipe); 15] = [
    (4, |maker| positioned(maker, positions::cover).text()),
    (4, |maker| positioned(maker, positions::repeat).text()),
    (2, |maker| positioned(maker, positions::wrap).text()),
    (3, covered_and_unfair),
    (2, repeated_and_damaged),
    (5, |maker| position_damaged(maker, damage::stone)),
    (3, |maker| position_damaged(maker, damage::misplaced)),
    (2, |maker| position_damaged(maker, damage::off_board)),
    (2, |maker| position_damaged(maker, damage::line)),
    (3, |maker| position_damaged(maker, damage::bytes)),
    (1, |maker| position_damaged(maker, damage::tail)),
    (4, |maker| beset(maker, &UNFAIR)),
    (4, |maker| beset(maker, &DAMAGED)),
    (3, |maker| beset(maker, &LIMITS)),
    (2, full_and_set_up),
];

/// Sheets with the same branch twice under a wait, some of them refused for something else before that.
pub const TWINS: [(usize, Recipe); 14] = [
    (6, |maker| spoiled(maker, doubled::once)),
    (2, |maker| spoiled(maker, doubled::twice)),
    (4, |maker| spoiled(maker, doubled::nested)),
    (3, |maker| spoiled(maker, doubled::alone)),
    (3, deep_twins),
    (5, twins_and_unfair),
    (2, twins_unjoined),
    (1, |maker| twins_of(limits::over_outcomes(&mut maker.rng), maker)),
    (2, |maker| twins_of(few_stones(maker), maker)),
    (2, |maker| twins_of(positioned(maker, positions::cover), maker)),
    (1, |maker| doubled::all_cells_and_one(&mut maker.rng).text()),
    (1, |maker| doubled::widest(&mut maker.rng).text()),
    (2, |maker| doubled::full(&mut maker.rng).text()),
    (2, twins_damaged),
];

/// Sheets with branches under a wait that are nearly the same.
pub const NEARLY: [(usize, Recipe); 4] = [
    (5, |maker| spoiled(maker, doubled::other_cell)),
    (3, |maker| spoiled(maker, doubled::other_counts)),
    (3, |maker| spoiled(maker, doubled::other_order)),
    (1, |maker| doubled::all_cells(&mut maker.rng).text()),
];

/// Accepted sheets with spare branches, which are not live and need not join; some of them with too many outcomes by document 01's count.
pub const SPARE: [(usize, Recipe); 5] = [
    (8, |maker| spared(maker.plan(60), maker).text()),
    (3, |maker| spared(maker.slow_plan(60), maker).text()),
    (3, |maker| spared(maker.deep_plan(60), maker).text()),
    (3, |maker| spared(few_stones(maker), maker).text()),
    (4, |maker| heavy(maker).text()),
];

/// Fair sheets with spare branches of which most have an outcome that does not join, or too many.
pub const SPARE_UNJOINED: [(usize, Recipe); 5] = [
    (4, |maker| spared(maker.long_plan(), maker).text()),
    (3, |maker| spared(maker.free_plan(), maker).text()),
    (4, |maker| astray(maker).text()),
    (2, |maker| lost_and_spared(maker).text()),
    (2, |maker| spared(limits::over_outcomes(&mut maker.rng), maker).text()),
];

/// Sheets with spare branches that are refused, some of them for what stands in such a branch alone.
pub const SPARE_REFUSED: [(usize, Recipe); 6] = [
    (6, |maker| refused(maker, spoil)),
    (2, |maker| refused(maker, |plan, rng| unfair::shared(plan, true, rng))),
    (2, |maker| refused(maker, unfair::common)),
    (3, |maker| refused(maker, doubled::once)),
    (3, |maker| refused(maker, positions::cover)),
    (1, |maker| damage::line(&spared(maker.plan(60), maker).text(), &mut maker.rng)),
];

/// Sheets of which many outcomes are passed over, some with two live moves of one cell under a wait; the last ones have mostly an outcome that does not join.
pub const STOPPED: [(usize, Recipe); 7] = [
    (3, |maker| stopped(maker.plan(60), maker).text()),
    (4, |maker| stopped(few_stones(maker), maker).text()),
    (3, |maker| stopped(positions::crowded(maker), maker).text()),
    (1, |maker| stopped(positions::joined_already(maker), maker).text()),
    (1, |maker| spared(stopped(maker.plan(30), maker), maker).text()),
    (2, |maker| stopped_astray(maker).text()),
    (1, |maker| stopped(maker.long_plan(), maker).text()),
];

/// Lists all recipes, each as often as it weighs, in a random order.
pub fn schedule(groups: &[&[(usize, Recipe)]], rng: &mut Rng) -> Vec<Recipe> {
    let mut all: Vec<Recipe> = Vec::new();
    for &(weight, recipe) in groups.iter().flat_map(|group| group.iter()) {
        all.extend(std::iter::repeat_n(recipe, weight));
    }
    rng.shuffle(&mut all);
    all
}

/// Makes an accepted plan and spoils it.
fn spoiled(maker: &mut Maker, spoil: fn(&mut Plan, &mut Rng)) -> Vec<u8> {
    let mut plan = maker.plan(300);
    spoil(&mut plan, &mut maker.rng);
    plan.text()
}

/// Makes a plan unfair in one of four ways.
fn spoil(plan: &mut Plan, rng: &mut Rng) {
    match rng.below(4) {
        0 => unfair::own_below(plan, rng),
        1 => unfair::shared(plan, false, rng),
        2 => unfair::single(plan, rng),
        _ => unfair::common(plan, rng),
    }
}

/// Makes an accepted plan and makes it unfair in two places.
fn twice_spoiled(maker: &mut Maker) -> Vec<u8> {
    let mut plan = maker.plan(300);
    spoil(&mut plan, &mut maker.rng);
    spoil(&mut plan, &mut maker.rng);
    plan.text()
}

/// Makes a fair plan on any board up to 19 by 19 and makes it unfair.
fn spoiled_large(maker: &mut Maker) -> Vec<u8> {
    let mut plan = match maker.rng.below(4) {
        0 => limits::deep(2 * maker.rng.between(3, 63) + 1, &mut maker.rng),
        1 => maker.long_plan(),
        _ => maker.free_plan(),
    };
    spoil(&mut plan, &mut maker.rng);
    plan.text()
}

/// Makes a sheet, mostly accepted, and damages its text.
fn damaged(maker: &mut Maker, damage: fn(&[u8], &mut Rng) -> Vec<u8>) -> Vec<u8> {
    let text = maker.plan(60).text();
    damage(&text, &mut maker.rng)
}

/// Makes a sheet and damages its text in two places.
fn twice_damaged(maker: &mut Maker) -> Vec<u8> {
    let once = damaged(maker, damage::line);
    if maker.rng.chance(70) {
        damage::line(&once, &mut maker.rng)
    } else {
        damage::end(&once, &mut maker.rng)
    }
}

/// Makes a sheet with about as many nodes as are allowed.
fn padded(maker: &mut Maker) -> Vec<u8> {
    let nodes = maker.rng.between(2_046, 2_048);
    if maker.rng.chance(50) {
        return limits::many_nodes(nodes, &mut maker.rng).text();
    }
    let mut plan = maker.base(8).widened(LARGEST as i32, 0);
    grow::pad(&mut plan, nodes, &mut maker.rng);
    maker.placed(plan).text()
}

/// Makes by turns a plan with as many outcomes as are allowed, one fewer and one more.
fn at_limit(maker: &mut Maker) -> Plan {
    maker.turn += 1;
    match maker.turn % 8 {
        1 | 5 => limits::full_outcomes(&mut maker.rng),
        2 | 4 | 7 => limits::one_more(&mut maker.rng),
        3 => limits::one_fewer(&mut maker.rng),
        6 => {
            let mut plan = maker.plan(16);
            grow::double(&mut plan, 65_536, &mut maker.rng);
            plan
        }
        _ => {
            let plan = templates::pairing(7, 5, &mut maker.rng);
            let mut plan = maker.placed(plan);
            grow::idle_pair(&mut plan, &mut maker.rng);
            plan
        }
    }
}

/// Makes such a sheet, half the time with spare branches, which leave its outcomes as many as they are.
fn full(maker: &mut Maker) -> Vec<u8> {
    let mut plan = at_limit(maker);
    if maker.rng.chance(50) {
        spare::add(&mut plan, 3, u128::MAX, &mut maker.rng);
    }
    plan.text()
}

/// Adds some spare branches to a plan.
fn spared(mut plan: Plan, maker: &mut Maker) -> Plan {
    let count = maker.rng.between(1, 6);
    let most = plan.root.outcomes().saturating_mul(1_000);
    spare::add(&mut plan, count, most, &mut maker.rng);
    plan
}

/// Gives a plan waits that are passed over, and now and then a wait two live moves of one cell.
fn stopped(mut plan: Plan, maker: &mut Maker) -> Plan {
    let most = plan.root.outcomes().saturating_mul(40);
    let rng = &mut maker.rng;
    let count = rng.between(0, 3);
    grow::attempt(&mut plan, most, |plan| grow::idle_last(plan, count, rng));
    for _ in 0..rng.below(3) {
        grow::attempt(&mut plan, most, |plan| grow::one_cell(plan, rng));
    }
    plan
}

/// Makes such a plan and moves a leaf to an unused cell.
fn stopped_astray(maker: &mut Maker) -> Plan {
    let mut plan = stopped(maker.plan(60), maker);
    unfair::astray(&mut plan, &mut maker.rng);
    plan
}

/// Makes an accepted plan on a large board with spare branches of many outcomes.
fn heavy(maker: &mut Maker) -> Plan {
    let base = maker.base(60);
    let columns = maker.width(base.columns.max(12));
    let mut plan = base.widened(columns, 0);
    spare::add_heavy(&mut plan, &mut maker.rng);
    maker.placed(plan)
}

/// Makes an accepted plan with spare branches and moves a leaf to an unused cell, one of a spare branch or not.
fn astray(maker: &mut Maker) -> Plan {
    let mut plan = spared(maker.plan(60), maker);
    unfair::astray(&mut plan, &mut maker.rng);
    plan
}

/// Makes a plan with set-up stones and spare branches and leaves an own stone out.
fn lost_and_spared(maker: &mut Maker) -> Plan {
    let mut plan = spared(positions::resumed(maker), maker);
    positions::lose(&mut plan, &mut maker.rng);
    plan
}

/// Makes an accepted plan with spare branches and spoils it.
fn refused(maker: &mut Maker, spoil: fn(&mut Plan, &mut Rng)) -> Vec<u8> {
    let mut plan = spared(few_or_no_stones(maker), maker);
    spoil(&mut plan, &mut maker.rng);
    plan.text()
}

/// Makes an accepted plan with set-up stones that are few.
fn few_stones(maker: &mut Maker) -> Plan {
    match maker.rng.below(3) {
        0 => positions::scattered(maker),
        _ => positions::resumed(maker),
    }
}

/// Makes an accepted plan with set-up stones or without.
fn few_or_no_stones(maker: &mut Maker) -> Plan {
    if maker.rng.chance(20) {
        return few_stones(maker);
    }
    maker.plan(60)
}

/// Makes a plan with set-up stones and leaves an own one out.
fn lost(maker: &mut Maker, make: fn(&mut Maker) -> Plan) -> Vec<u8> {
    let mut plan = make(maker);
    positions::lose(&mut plan, &mut maker.rng);
    plan.text()
}

/// Makes an accepted plan with set-up stones and changes these.
fn positioned(maker: &mut Maker, change: fn(&mut Plan, &mut Rng)) -> Plan {
    let mut plan = few_stones(maker);
    change(&mut plan, &mut maker.rng);
    plan
}

/// Makes a plan with stones on its tree and makes it unfair too.
fn covered_and_unfair(maker: &mut Maker) -> Vec<u8> {
    let mut plan = positioned(maker, positions::cover);
    spoil(&mut plan, &mut maker.rng);
    plan.text()
}

/// Makes a plan that names a set-up cell twice and damages its text too.
fn repeated_and_damaged(maker: &mut Maker) -> Vec<u8> {
    let text = positioned(maker, positions::repeat).text();
    match maker.rng.below(3) {
        0 => damage::early(&text, &mut maker.rng),
        1 => damage::stone(&text, &mut maker.rng),
        _ => damage::line(&text, &mut maker.rng),
    }
}

/// Makes a sheet with set-up stones, mostly accepted, and damages its text.
fn position_damaged(maker: &mut Maker, damage: fn(&[u8], &mut Rng) -> Vec<u8>) -> Vec<u8> {
    let text = few_stones(maker).text();
    damage(&text, &mut maker.rng)
}

/// Makes a sheet of one of these kinds and sets stones up on any cells before its tree, cut to what a request can send.
fn beset(maker: &mut Maker, kinds: &[(usize, Recipe)]) -> Vec<u8> {
    let recipe = maker.rng.pick(kinds).1;
    let text = recipe(maker);
    let mut text = damage::set_up(&text, &mut maker.rng);
    text.truncate(BYTES as usize);
    text
}

/// Makes a sheet with set-up stones and about as many nodes as are allowed.
fn full_and_set_up(maker: &mut Maker) -> Vec<u8> {
    let rng = &mut maker.rng;
    let mut plan = limits::many_nodes(rng.between(2_046, 2_049), rng);
    positions::scatter(&mut plan, rng.between(1, 3), rng);
    plan.text()
}

/// Repeats a branch of a plan, at one place or within another that is repeated.
fn twins_of(mut plan: Plan, maker: &mut Maker) -> Vec<u8> {
    let double = *maker.rng.pick(&[doubled::once, doubled::nested]);
    double(&mut plan, &mut maker.rng);
    plan.text()
}

/// Makes a deep plan and repeats a branch of it.
fn deep_twins(maker: &mut Maker) -> Vec<u8> {
    let plan = match maker.rng.below(3) {
        0 => maker.slow_plan(300),
        1 => maker.deep_plan(300),
        _ => limits::deep(2 * maker.rng.between(3, 63) + 1, &mut maker.rng),
    };
    twins_of(plan, maker)
}

/// Makes an unfair plan and repeats a branch of it.
fn twins_and_unfair(maker: &mut Maker) -> Vec<u8> {
    let mut plan = maker.plan(300);
    spoil(&mut plan, &mut maker.rng);
    twins_of(plan, maker)
}

/// Makes a plan with an outcome that does not join, most often, and repeats a branch of it.
fn twins_unjoined(maker: &mut Maker) -> Vec<u8> {
    let plan = if maker.rng.chance(50) { maker.long_plan() } else { maker.free_plan() };
    twins_of(plan, maker)
}

/// Makes an accepted plan, repeats a branch of it and damages its text.
fn twins_damaged(maker: &mut Maker) -> Vec<u8> {
    let text = spoiled(maker, doubled::once);
    damage::line(&text, &mut maker.rng)
}
