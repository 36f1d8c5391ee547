//! Sheets at, below and above every limit.

use crate::board::LARGEST;
use crate::plan::{leaf, name, pair, spots_of, step, Plan, Spot, Step, NONE};
use crate::positions;
use crate::rng::Rng;
use crate::unlike::{add_nodes, singles, IDLE};

/// The most columns and rows of a board, and those of one that is smaller.
const SIDES: [i32; 2] = [13, LARGEST as i32];

/// Pads a text to a length around the limit with bytes of one kind.
pub fn long_text(base: &[u8], rng: &mut Rng) -> Vec<u8> {
    let lengths =
        [32_767, 32_768, 32_768, 32_768, 32_769, 32_769, 32_769, 32_769, 32_770, 40_000, 65_536];
    let length = *rng.pick(&lengths);
    let fillers: [&[u8]; 6] = [b"\n", b"x", b"\0", b"m\ta1\t0\n", b"w\t2\n", b"0"];
    let filler = rng.pick(&fillers);
    let cut = if rng.chance(30) { rng.below(base.len() + 1) } else { base.len() };
    let mut text = base[..cut].to_vec();
    while text.len() < length {
        text.extend(*filler);
    }
    text.truncate(length);
    text
}

/// Makes a finished tree of exactly so many nodes on a small board, with no branch twice and some cells left.
pub fn many_nodes(nodes: usize, rng: &mut Rng) -> Plan {
    let rows = rng.between(1, 2) as i32;
    let columns = rng.between(13, LARGEST) as i32;
    let mut plan = Plan::new(columns, rows, leaf((2, 1)));
    let first = if rows == 1 { [(1, 1), (3, 1)] } else { [(1, 2), (2, 2)] };
    let mut spots: Vec<Spot> = plan.unused(rng);
    spots.retain(|spot| !first.contains(spot));
    spots.truncate(2 + IDLE);
    let mut waits = vec![singles(&first)];
    if rng.chance(50) {
        add_nodes(&mut waits[0], nodes - 4, &spots, rng);
    } else {
        let (second, idle) = spots.split_at(2);
        waits.push(singles(second));
        add_nodes(&mut waits[1], nodes - 7, idle, rng);
    }
    if rng.chance(50) {
        waits.iter_mut().for_each(|wait| rng.shuffle(wait));
    }
    plan.root.waits = waits;
    plan
}

/// Makes a text whose node lines run up to the limit and end there in some way.
pub fn overfull(rng: &mut Rng) -> Vec<u8> {
    let nodes = *rng.pick(&[2_047, 2_048, 2_048, 2_049]);
    let side = *rng.pick(&SIDES);
    let mut text = format!("hex\t{side}\t{side}\tD\nm\tg7\t2047\n").into_bytes();
    let mut written = 1;
    let size = rng.between(1, 3);
    while written < nodes {
        let left = (nodes - written - 1).min(size);
        text.extend(format!("w\t{size}\n").bytes());
        for _ in 0..left {
            text.extend(b"m\ta1\t0\n");
        }
        written += 1 + left;
    }
    let ends: [&[u8]; 10] = [
        b"",
        b"x",
        b"\n",
        b"w\t2\n",
        b"m\ta2\t0\n",
        b"m\tt1\t0\n",
        b"w\t1",
        b"\0",
        b"w\t0\nm\n",
        b"own\ta2\n",
    ];
    text.extend(*rng.pick(&ends));
    text
}

/// Makes a wait that has exactly the nodes left before the limit, then strange text.
pub fn just_full(rng: &mut Rng) -> Vec<u8> {
    let mut text = many_nodes(rng.between(2_047, 2_049), rng).text();
    if rng.chance(40) {
        let ends: [&[u8]; 4] = [b"x", b"\n", b"m\ta1\t0\n", b"\xff"];
        text.extend(*rng.pick(&ends));
    } else if rng.chance(20) {
        text.pop();
    }
    text
}

/// Makes a move of a chain with so many moves below it on unlike cells, fair all the way.
fn nested(spots: &[Spot], exits: (Spot, Spot)) -> Step {
    let mut wait = pair(exits.0, exits.1);
    for &spot in spots.iter().skip(1).rev() {
        wait = vec![step(spot, vec![wait]), leaf(exits.0), leaf(exits.1)];
    }
    step(spots[0], vec![wait])
}

/// Makes a chain of an odd depth on a large board; past the limit its cells repeat.
pub fn deep(depth: usize, rng: &mut Rng) -> Plan {
    let (columns, rows) = (rng.between(13, LARGEST), rng.between(11, LARGEST));
    let plan = Plan::new(columns as i32, rows as i32, leaf(NONE));
    let board = plan.unused(rng);
    let spots = &board[2..2 + depth / 2];
    Plan { root: nested(spots, (board[0], board[1])), ..plan }
}

/// Makes a text that runs straight down to about the depth limit and ends there in some way.
pub fn deep_text(rng: &mut Rng) -> Vec<u8> {
    let side = *rng.pick(&SIDES);
    let mut text = format!("hex\t{side}\t{side}\tA\n").into_bytes();
    let depth = if rng.chance(60) { 128 } else { rng.between(126, 130) };
    for level in 1..=depth as i32 {
        let spot = (level % side + 1, level / side + 1);
        let line = if level % 2 == 1 { format!("m\t{}\t1\n", name(spot)) } else { "w\t2\n".into() };
        text.extend(line.bytes());
    }
    let ends: [&[u8]; 12] = [
        b"",
        b"m\ta1\t0\n",
        b"w\t2\n",
        b"m\tt1\t0\n",
        b"m\tz99\t1\n",
        b"m\t-\t0\n",
        b"m\ta1\t2048\n",
        b"m\tt1\t01\n",
        b"m\ta1\t0",
        b"x\n",
        b"\n",
        b"m\ta20\t2\n",
    ];
    text.extend(*rng.pick(&ends));
    text
}

/// Makes a sheet of one move on a board at or past the largest, on a cell at an edge or past it.
pub fn edge_board(rng: &mut Rng) -> Vec<u8> {
    let most = LARGEST as i32;
    let sides = [1, 13, 14, most - 1, most, most, most + 1, most + 1, most + 2];
    let (columns, rows) = (*rng.pick(&sides), *rng.pick(&sides));
    let spot =
        (*rng.pick(&[1, columns, columns, columns + 1]), *rng.pick(&[1, rows, rows, rows + 1]));
    let mut plan = Plan::new(columns, rows, leaf(spot));
    if rng.chance(50) {
        plan.player = 'A';
    }
    plan.text()
}

/// Makes a line with a count at or past its limit.
pub fn counts(rng: &mut Rng) -> Vec<u8> {
    let root = ["m\ta1\t2047\n", "m\ta1\t2048\n", "m\t-\t2047\n", "m\t-\t2048\n", "m\ta1\t1\n"];
    let wait = ["w\t2047\n", "w\t2048\n", "w\t2046\n", "w\t1\n", "w\t0\n", "w\t4294967298\n"];
    let mut text = b"hex\t5\t1\tD\n".to_vec();
    text.extend(rng.pick(&root).bytes());
    text.extend(rng.pick(&wait).bytes());
    for place in 0..*rng.pick(&[0, 1, 2, 2045, 2046, 2047, 2048]) {
        text.extend(format!("m\t{}1\t0\n", ["b", "c", "d"][place % 3]).bytes());
    }
    text
}

/// Spots that are numbered from 1 as they are taken, until a board is found for all of them.
struct Numbered(i32);

impl Numbered {
    /// Takes the next spot.
    fn next(&mut self) -> Spot {
        self.0 += 1;
        (self.0, 0)
    }
}

/// Makes a wait of so many outcomes, two at least, of which all moves are live and no branch is there twice.
fn counting(count: usize, spots: &mut Numbered, rng: &mut Rng) -> Vec<Step> {
    if count == 2 {
        return pair(spots.next(), spots.next());
    }
    let own = spots.next();
    if count.is_multiple_of(2) {
        let waits = product(count - 2, spots, rng);
        let below: Vec<Spot> = spots_of(&waits[0]).into_iter().collect();
        return vec![step(own, waits), leaf(below[0]), leaf(below[1])];
    }
    let other = spots.next();
    if count >= 5 && rng.chance(50) {
        let one = step(own, product((count - 1) / 2, spots, rng));
        let mut two = Step { spot: other, ..one.clone() };
        rng.shuffle(&mut two.waits);
        return vec![one, two, leaf(spots.next())];
    }
    vec![step(own, product(count - 1, spots, rng)), leaf(other)]
}

/// Makes waits whose outcomes, multiplied, are so many.
fn product(count: usize, spots: &mut Numbered, rng: &mut Rng) -> Vec<Vec<Step>> {
    let mut waits = Vec::new();
    let mut left = count;
    while left > 1 {
        let parts: Vec<usize> = [2, 3, 4, 5, 8, 15, 16, 17]
            .into_iter()
            .filter(|part| left.is_multiple_of(*part))
            .collect();
        let part = if parts.is_empty() { left } else { *rng.pick(&parts) };
        waits.push(counting(part, spots, rng));
        left /= part;
    }
    waits
}

/// Puts a tree of numbered spots on a board so that all its outcomes join: on one row, on two where the moves of its first wait are on the second spot and the third,
/// or beside own stones that join.
fn on_board(mut root: Step, count: i32, rng: &mut Rng) -> Plan {
    let columns = if count > 2 * SIDES[0] { SIDES[1] } else { *rng.pick(&SIDES) };
    let below = root.waits[0].iter().all(|next| [2, 3].contains(&next.spot.0));
    let rows = (count + columns - 1) / columns;
    let bare = rows == 1 || (rows == 2 && below);
    let mut plan = if bare {
        Plan::new(columns, rows, leaf(NONE))
    } else {
        positions::joined(columns, (count + columns - 2) / (columns - 1), rng)
    };
    let mut spots = plan.unused(rng);
    if bare && rows == 2 {
        let column = rng.between(2, columns as usize) as i32;
        let first = [(column, 1), (column - 1, 2), (column, 2)];
        spots.retain(|spot| !first.contains(spot));
        spots.splice(0..0, first);
    }
    root.change(&|spot| spots[spot.0 as usize - 1]);
    if !(bare && rows == 2) && rng.chance(40) {
        root.spot = NONE;
    }
    plan.root = root;
    plan
}

/// Makes a plan whose outcomes, over live moves, are the product of these factors, or one more; they all join.
fn counted(factors: &[usize], one_more: bool, rng: &mut Rng) -> Plan {
    let mut spots = Numbered(0);
    let own = spots.next();
    let two = one_more.then(|| (spots.next(), spots.next()));
    let waits = factors.iter().map(|&factor| counting(factor, &mut spots, rng)).collect();
    let root = match two {
        Some((one, other)) => step(own, vec![vec![step(one, waits), leaf(other)]]),
        None => step(own, waits),
    };
    on_board(root, spots.0, rng)
}

/// Makes a plan with just as many outcomes as are allowed, which all join.
pub fn full_outcomes(rng: &mut Rng) -> Plan {
    let factors: [&[usize]; 6] = [
        &[2; 16],
        &[2, 4, 4, 4, 4, 4, 4, 4, 2],
        &[256, 256],
        &[16, 16, 16, 16],
        &[2, 4, 8, 2, 4, 8, 16],
        &[32, 2, 1024],
    ];
    let chosen = *rng.pick(&factors);
    counted(chosen, false, rng)
}

/// Makes a plan with one outcome fewer than is allowed, which all join.
pub fn one_fewer(rng: &mut Rng) -> Plan {
    let factors: [&[usize]; 3] = [&[255, 257], &[5, 3, 17, 257], &[15, 17, 257]];
    let chosen = *rng.pick(&factors);
    counted(chosen, false, rng)
}

/// Makes a plan with one outcome more than is allowed.
pub fn one_more(rng: &mut Rng) -> Plan {
    let factors: [&[usize]; 3] = [&[2; 16], &[256, 256], &[16, 16, 16, 16]];
    let chosen = *rng.pick(&factors);
    counted(chosen, true, rng)
}

/// Makes a plan with more outcomes than are allowed, among them counts that wrap; half the time without the stones that join.
pub fn over_outcomes(rng: &mut Rng) -> Plan {
    let over: [(Vec<usize>, bool); 13] = [
        (vec![2; 17], false),
        (vec![257, 256], false),
        (vec![256; 4], false),
        (vec![2; 32], false),
        (vec![4; 16], false),
        (vec![4; 16], true),
        (vec![256; 4], true),
        (vec![2; 64], false),
        (vec![2; 64], true),
        (vec![4; 32], true),
        (vec![4; 32], false),
        (vec![4; 64], true),
        (vec![4; 64], false),
    ];
    let (factors, one_more) = rng.pick(&over);
    let mut plan = counted(factors, *one_more, rng);
    if rng.chance(50) {
        plan.stones.clear();
    }
    plan
}
