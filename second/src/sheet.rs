//! Section "The sheet": from text to the stones set up and a tree of moves and waits.

use crate::board::{Board, Player, LARGEST};
use crate::fault::{self, Fault};
use crate::set_up::{next_side, off_stones, SetUp, Stone};
use crate::verdict::Verdict;

/// The longest text that is read.
pub const TEXT: usize = 32_768;
const NODES: usize = 2_048;
const DEPTH: usize = 128;
const CHILDREN: u128 = 2_047;

/// A move: its line, its cell (0 for none) and the waits under it.
#[derive(Clone, Debug)]
pub struct Move {
    pub line: usize,
    pub cell: usize,
    pub waits: Vec<Wait>,
}

/// A wait: its line and the moves under it.
#[derive(Clone, Debug)]
pub struct Wait {
    pub line: usize,
    pub moves: Vec<Move>,
}

/// A sheet that has been read: the board, the player, the stones set up and the first move.
#[derive(Clone, Debug)]
pub struct Sheet {
    pub board: Board,
    pub player: Player,
    pub set_up: SetUp,
    pub root: Move,
}

/// The kind of node that has to stand on a line.
#[derive(Clone, Copy, PartialEq)]
enum Kind {
    Move,
    Wait,
}

/// What one node line says: a column and row (0 and 0 for none) and a count.
struct Node {
    column: usize,
    row: usize,
    count: usize,
}

/// The text still to be read, the number of its first line, and the nodes and stones before it.
struct Reader<'a> {
    rest: &'a [u8],
    line: usize,
    nodes: usize,
    set_up: SetUp,
    board: Board,
}

/// Reads a whole sheet, or says which line is at fault.
pub fn read(text: &[u8]) -> Result<Sheet, Verdict> {
    let longest = if fault::on(Fault::Text32769) { TEXT + 1 } else { TEXT };
    if text.len() > longest {
        return Err(Verdict::Length);
    }
    let end = text.iter().position(|&byte| byte == b'\n').ok_or(Verdict::Header)?;
    let (board, player) = header(&text[..end]).ok_or(Verdict::Header)?;
    let rest = &text[end + 1..];
    let mut reader = Reader { rest, line: 2, nodes: 0, set_up: SetUp::default(), board };
    reader.read_set_up()?;
    if fault::on(Fault::SetUpNoLines) {
        reader.line = 2;
    }
    let root = reader.read_move(1)?;
    if !reader.rest.is_empty() {
        return Err(Verdict::Remains { line: reader.line });
    }
    if fault::on(Fault::TwiceAfterReading) {
        reader.set_up.all_unnamed()?;
    }
    Ok(Sheet { board, player, set_up: reader.set_up, root })
}

/// Parts a line into its fields.
fn fields(line: &[u8]) -> Vec<&[u8]> {
    line.split(|&byte| byte == b'\t').collect()
}

/// Reads a decimal number without leading zeros that lies in a range.
fn number(digits: &[u8], least: u128, most: u128) -> Option<usize> {
    let zero_first = digits.first() == Some(&b'0') && digits.len() > 1;
    if digits.is_empty() || (zero_first && !fault::on(Fault::LeadingZeros)) {
        return None;
    }
    if !digits.iter().all(u8::is_ascii_digit) {
        return None;
    }
    let mut value: u128 = 0;
    for digit in digits {
        value = value.saturating_mul(10).saturating_add(u128::from(digit - b'0'));
        if fault::on(Fault::DigitsWrap32) {
            value %= 1 << 32;
        }
    }
    (least..=most).contains(&value).then_some(value as usize)
}

/// Reads the header line without its line feed.
fn header(line: &[u8]) -> Option<(Board, Player)> {
    let fields = fields(line);
    if fields.len() != 4 || fields[0] != b"hex" {
        return None;
    }
    let most = if fault::on(Fault::Boards13) {
        13
    } else if fault::on(Fault::Boards20) {
        20
    } else {
        LARGEST as u128
    };
    let board = Board { columns: number(fields[1], 1, most)?, rows: number(fields[2], 1, most)? };
    match fields[3] {
        b"D" => Some((board, Player::D)),
        b"A" => Some((board, Player::A)),
        _ => None,
    }
}

/// Reads a cell, a lower-case letter and a number 1 to 99, as column and row.
fn cell(field: &[u8]) -> Option<(usize, usize)> {
    let (&letter, digits) = field.split_first()?;
    let last = if fault::on(Fault::LettersToS) { b's' } else { b'z' };
    if !(b'a'..=last).contains(&letter) {
        return None;
    }
    Some((usize::from(letter - b'a') + 1, number(digits, 1, 99)?))
}

/// Reads a set-up line, whose first field has been looked at, as column and row.
fn set_up_line(line: &[u8]) -> Option<(usize, usize)> {
    match fields(line)[..] {
        [_, named] => cell(named),
        _ => None,
    }
}

/// Reads a node line of the wanted kind; only the first node may have no cell.
fn node(line: &[u8], kind: Kind, first: bool) -> Option<Node> {
    let fields = fields(line);
    if kind == Kind::Wait {
        if fields.len() != 2 || fields[0] != b"w" {
            return None;
        }
        return Some(Node { column: 0, row: 0, count: number(fields[1], 1, CHILDREN)? });
    }
    if fields.len() != 3 || fields[0] != b"m" {
        return None;
    }
    let count = number(fields[2], 0, CHILDREN)?;
    if fields[1] == b"-" && (first || fault::on(Fault::DashAnywhere)) {
        return Some(Node { column: 0, row: 0, count });
    }
    let (column, row) = cell(fields[1])?;
    Some(Node { column, row, count })
}

/// Says whether a move line names a cell that is off the board, whatever else is wrong with it.
fn names_off_board(line: &[u8], kind: Kind, board: Board) -> bool {
    let fields = fields(line);
    if kind == Kind::Wait || fields.len() < 2 || fields[0] != b"m" {
        return false;
    }
    cell(fields[1]).is_some_and(|place| !board.holds(place.0 as i64, place.1 as i64))
}

/// Gives the order in which the faults of one line are looked for.
fn order() -> [usize; 4] {
    if fault::on(Fault::MalformedBeforeNodes) {
        return [4, 6, 7, 5];
    }
    if fault::on(Fault::CellBeforeDepth) {
        return [6, 4, 5, 7];
    }
    if fault::on(Fault::CellBeforeMalformed) {
        return [6, 5, 4, 7];
    }
    if fault::on(Fault::DepthBeforeMalformed) {
        return [6, 7, 4, 5];
    }
    [6, 4, 7, 5]
}

/// Gives the deepest depth a node may have.
fn deepest() -> usize {
    if fault::on(Fault::Depth129) {
        DEPTH + 1
    } else if fault::on(Fault::Depth127) {
        DEPTH - 1
    } else {
        DEPTH
    }
}

impl<'a> Reader<'a> {
    /// Parts the next line from the rest and says whether it had its line feed.
    fn take_line(&mut self) -> (&'a [u8], bool) {
        match self.rest.iter().position(|&byte| byte == b'\n') {
            Some(end) => {
                let line = &self.rest[..end];
                self.rest = &self.rest[end + 1..];
                (line, true)
            }
            None => {
                let line = self.rest;
                self.rest = &[];
                (line, fault::on(Fault::LastFeedMissing))
            }
        }
    }

    /// Reads the set-up part, all lines from here that begin with `own` or `opp`: 4, 5, 19.
    fn read_set_up(&mut self) -> Result<(), Verdict> {
        while let Some(side) = next_side(self.rest, &self.set_up) {
            let line = self.line;
            let (bytes, ended) = self.take_line();
            self.line += 1;
            self.nodes += usize::from(fault::on(Fault::SetUpNodes));
            if fault::on(Fault::DashStone) && bytes.ends_with(b"\t-") {
                continue;
            }
            let place = if ended { set_up_line(bytes) } else { None };
            let (column, row) = place.ok_or(Verdict::Malformed { line })?;
            let stone = Stone { line, side, cell: self.board.number(column, row) };
            if fault::on(Fault::TwiceBeforeBoard) {
                self.set_up.unnamed(stone)?;
            }
            if !self.board.holds(column as i64, row as i64) {
                return Err(Verdict::OffBoard { line });
            }
            self.set_up.put(stone)?;
        }
        Ok(())
    }

    /// Reads the next line as a node at a depth, or refuses the line.
    fn read_node(&mut self, kind: Kind, depth: usize) -> Result<Node, Verdict> {
        if fault::on(Fault::SetUpInTree) {
            self.read_set_up()?;
        }
        let line = self.line;
        if self.rest.is_empty() {
            return Err(Verdict::Missing { line });
        }
        let (bytes, ended) = self.take_line();
        let first = if fault::on(Fault::DashOnLineTwo) { line == 2 } else { depth == 1 };
        let node = if ended { node(bytes, kind, first) } else { None };
        let most = if fault::on(Fault::Nodes2049) { NODES + 1 } else { NODES };
        for number in order() {
            match number {
                6 if self.nodes == most => return Err(Verdict::TooManyNodes { line }),
                4 if !ended && fault::on(Fault::EndConfused) => {
                    return Err(Verdict::Missing { line })
                }
                4 if node.is_none() => return Err(Verdict::Malformed { line }),
                7 if depth > deepest() => return Err(Verdict::TooDeep { line }),
                5 if names_off_board(bytes, kind, self.board) => {
                    return Err(Verdict::OffBoard { line })
                }
                _ => {}
            }
        }
        self.line += 1;
        self.nodes += 1;
        node.ok_or(Verdict::Malformed { line })
    }

    /// Reads a move and everything under it.
    fn read_move(&mut self, depth: usize) -> Result<Move, Verdict> {
        let line = self.line;
        let node = self.read_node(Kind::Move, depth)?;
        let cell = if node.row == 0 { 0 } else { self.board.number(node.column, node.row) };
        if fault::on(Fault::OnStoneInReading) {
            off_stones(&Move { line, cell, waits: vec![] }, &self.set_up)?;
        }
        let mut waits = Vec::new();
        for _ in 0..node.count {
            waits.push(self.read_wait(depth + 1)?);
        }
        Ok(Move { line, cell, waits })
    }

    /// Reads a wait and everything under it.
    fn read_wait(&mut self, depth: usize) -> Result<Wait, Verdict> {
        let line = self.line;
        let node = self.read_node(Kind::Wait, depth)?;
        let mut moves = Vec::new();
        for _ in 0..node.count {
            moves.push(self.read_move(depth + 1)?);
        }
        Ok(Wait { line, moves })
    }
}

/// Counts the moves at and under a move.
pub fn count_moves(root: &Move) -> usize {
    let below = |wait: &Wait| wait.moves.iter().map(count_moves).sum::<usize>();
    1 + root.waits.iter().map(below).sum::<usize>()
}

/// Counts the waits under a move.
pub fn count_waits(root: &Move) -> usize {
    let below = |wait: &Wait| 1 + wait.moves.iter().map(count_waits).sum::<usize>();
    root.waits.iter().map(below).sum()
}
