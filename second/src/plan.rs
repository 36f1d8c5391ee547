//! Made-up sheets as trees, and the text they are written as.

use crate::board::LARGEST;
use crate::rng::Rng;
use crate::set_up::Side;
use std::collections::BTreeSet;

/// A column and a row from 1; (0, 0) is no cell.
pub type Spot = (i32, i32);

/// No cell.
pub const NONE: Spot = (0, 0);

/// A move with the waits under it, each a list of moves.
#[derive(Clone, PartialEq, Debug)]
pub struct Step {
    pub spot: Spot,
    pub waits: Vec<Vec<Step>>,
}

/// A board, a player, the stones set up in the order of their lines and the first move.
#[derive(Clone, PartialEq, Debug)]
pub struct Plan {
    pub columns: i32,
    pub rows: i32,
    pub player: char,
    pub stones: Vec<(Side, Spot)>,
    pub root: Step,
}

/// Makes a move with nothing under it.
pub fn leaf(spot: Spot) -> Step {
    Step { spot, waits: vec![] }
}

/// Makes a move with waits under it.
pub fn step(spot: Spot, waits: Vec<Vec<Step>>) -> Step {
    Step { spot, waits }
}

/// Makes a wait of two moves with nothing under them.
pub fn pair(one: Spot, other: Spot) -> Vec<Step> {
    vec![leaf(one), leaf(other)]
}

/// Adds a move to a wait, if none there has the same branch.
pub fn add_new(wait: &mut Vec<Step>, next: Step) {
    if !wait.contains(&next) {
        wait.push(next);
    }
}

/// Gives the spots named in a wait.
pub fn spots_of(wait: &[Step]) -> BTreeSet<Spot> {
    wait.iter().flat_map(Step::spots).collect()
}

impl Step {
    /// Counts the moves at and under this one.
    pub fn moves(&self) -> usize {
        1 + self.waits.iter().flatten().map(Step::moves).sum::<usize>()
    }

    /// Counts the waits under this move.
    pub fn waits_below(&self) -> usize {
        self.waits.len() + self.waits.iter().flatten().map(Step::waits_below).sum::<usize>()
    }

    /// Counts all nodes at and under this move.
    pub fn nodes(&self) -> usize {
        self.moves() + self.waits_below()
    }

    /// Counts the outcomes.
    pub fn outcomes(&self) -> u128 {
        let sum = |wait: &Vec<Step>| {
            wait.iter().fold(0u128, |count, next| count.saturating_add(next.outcomes()))
        };
        self.waits.iter().fold(1, |count: u128, wait| count.saturating_mul(sum(wait)))
    }

    /// Gives the greatest depth at or under this move, itself at depth 1.
    pub fn depth(&self) -> usize {
        let below =
            self.waits.iter().map(|wait| 1 + wait.iter().map(Step::depth).max().unwrap_or(0));
        1 + below.max().unwrap_or(0)
    }

    /// Gives the spots named at or under this move.
    pub fn spots(&self) -> BTreeSet<Spot> {
        let mut spots: BTreeSet<Spot> = self.waits.iter().flat_map(|wait| spots_of(wait)).collect();
        if self.spot != NONE {
            spots.insert(self.spot);
        }
        spots
    }

    /// Changes every spot at or under this move.
    pub fn change(&mut self, to: &dyn Fn(Spot) -> Spot) {
        if self.spot != NONE {
            self.spot = to(self.spot);
        }
        self.waits.iter_mut().flatten().for_each(|next| next.change(to));
    }

    /// Finds the move of a place in preorder, counting down.
    pub fn nth_move(&mut self, place: &mut usize) -> Option<&mut Step> {
        if *place == 0 {
            return Some(self);
        }
        *place -= 1;
        self.waits.iter_mut().flatten().find_map(|next| next.nth_move(place))
    }

    /// Finds the wait of a place in preorder, counting down.
    pub fn nth_wait(&mut self, place: &mut usize) -> Option<&mut Vec<Step>> {
        for wait in &mut self.waits {
            if *place == 0 {
                return Some(wait);
            }
            *place -= 1;
            if let Some(found) = wait.iter_mut().find_map(|next| next.nth_wait(place)) {
                return Some(found);
            }
        }
        None
    }

    /// Picks any move at or under this one.
    pub fn any_move(&mut self, rng: &mut Rng) -> &mut Step {
        let mut place = rng.below(self.moves());
        self.nth_move(&mut place).expect("the place is below the number of moves")
    }

    /// Picks any wait under this move, if there is one.
    pub fn any_wait(&mut self, rng: &mut Rng) -> Option<&mut Vec<Step>> {
        let count = self.waits_below();
        if count == 0 {
            return None;
        }
        self.nth_wait(&mut rng.below(count))
    }

    /// Says whether some wait under this move has the same branch twice.
    pub fn doubled(&self) -> bool {
        let twice =
            |wait: &Vec<Step>| (1..wait.len()).any(|place| wait[..place].contains(&wait[place]));
        self.waits.iter().any(twice) || self.waits.iter().flatten().any(Step::doubled)
    }

    /// Puts the waits of each move and the moves of each wait in a random order.
    pub fn shuffle(&mut self, rng: &mut Rng) {
        rng.shuffle(&mut self.waits);
        for wait in &mut self.waits {
            rng.shuffle(wait);
            wait.iter_mut().for_each(|next| next.shuffle(rng));
        }
    }

    /// Writes the lines of this move and everything under it.
    fn write(&self, text: &mut Vec<u8>) {
        text.extend(format!("m\t{}\t{}\n", name(self.spot), self.waits.len()).bytes());
        for wait in &self.waits {
            text.extend(format!("w\t{}\n", wait.len()).bytes());
            wait.iter().for_each(|next| next.write(text));
        }
    }
}

/// Writes a set-up line.
pub fn set_up_line(side: Side, spot: Spot) -> String {
    let word = if side == Side::Own { "own" } else { "opp" };
    format!("{word}\t{}\n", name(spot))
}

/// Writes a spot as a sheet does.
pub fn name(spot: Spot) -> String {
    if spot == NONE {
        return "-".to_string();
    }
    format!("{}{}", char::from(b'a' + (spot.0 - 1) as u8), spot.1)
}

impl Plan {
    /// Makes a plan for player D.
    pub fn new(columns: i32, rows: i32, root: Step) -> Plan {
        Plan { columns, rows, player: 'D', stones: vec![], root }
    }

    /// Writes the header line.
    pub fn header(&self) -> Vec<u8> {
        format!("hex\t{}\t{}\t{}\n", self.columns, self.rows, self.player).into_bytes()
    }

    /// Writes the whole sheet.
    pub fn text(&self) -> Vec<u8> {
        let mut text = self.header();
        for &(side, spot) in &self.stones {
            text.extend(set_up_line(side, spot).bytes());
        }
        self.root.write(&mut text);
        text
    }

    /// Lists all spots of the board.
    pub fn board(&self) -> Vec<Spot> {
        (1..=self.rows)
            .flat_map(|row| (1..=self.columns).map(move |column| (column, row)))
            .collect()
    }

    /// Lists the spots of all stones set up and of the tree.
    fn spots(&self) -> BTreeSet<Spot> {
        self.stones.iter().map(|stone| stone.1).chain(self.root.spots()).collect()
    }

    /// Lists the spots of the board that no line names, in a random order.
    pub fn unused(&self, rng: &mut Rng) -> Vec<Spot> {
        let used = self.spots();
        let mut free: Vec<Spot> =
            self.board().into_iter().filter(|spot| !used.contains(spot)).collect();
        rng.shuffle(&mut free);
        free
    }

    /// Says whether every spot is on the board.
    pub fn fits(&self) -> bool {
        let inside =
            |spot: &Spot| (1..=self.columns).contains(&spot.0) && (1..=self.rows).contains(&spot.1);
        let sizes = 1..=LARGEST as i32;
        sizes.contains(&self.columns)
            && sizes.contains(&self.rows)
            && self.spots().iter().all(inside)
    }

    /// Changes every spot of the stones set up and of the tree.
    fn change(&mut self, to: &dyn Fn(Spot) -> Spot) {
        self.stones.iter_mut().for_each(|stone| stone.1 = to(stone.1));
        self.root.change(to);
    }

    /// Exchanges columns and rows, and with them the players.
    pub fn transposed(mut self) -> Plan {
        self.change(&|spot| (spot.1, spot.0));
        let player = if self.player == 'D' { 'A' } else { 'D' };
        Plan { columns: self.rows, rows: self.columns, player, ..self }
    }

    /// Turns the board half around.
    pub fn turned(mut self) -> Plan {
        let (columns, rows) = (self.columns, self.rows);
        self.change(&|spot| (columns + 1 - spot.0, rows + 1 - spot.1));
        self
    }

    /// Puts the plan on a board with more columns, so many of them on the left.
    pub fn widened(mut self, columns: i32, left: i32) -> Plan {
        self.change(&|spot| (spot.0 + left, spot.1));
        self.columns = columns;
        self
    }
}
