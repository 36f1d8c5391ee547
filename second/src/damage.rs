//! Damage to the text of a sheet: to single lines and to bytes.

use crate::plan::set_up_line;
use crate::rng::Rng;
use crate::set_up::Side;

const COUNTS: [&str; 22] = [
    "0",
    "1",
    "2",
    "3",
    "2046",
    "2047",
    "2048",
    "2049",
    "65536",
    "65537",
    "99999",
    "4294967295",
    "4294967296",
    "4294967297",
    "18446744073709551615",
    "18446744073709551616",
    "18446744073709551617",
    "99999999999999999999",
    "340282366920938463463374607431768211458",
    "-1",
    "+1",
    "",
];

const CELLS: [&str; 28] = [
    "t1",
    "z99",
    "a20",
    "a99",
    "z1",
    "s19",
    "a19",
    "s1",
    "t20",
    "n1",
    "a14",
    "m13",
    "a100",
    "a0",
    "a00",
    "a01",
    "A1",
    "aa1",
    "1a",
    "a",
    "1",
    "",
    "-",
    "--",
    "a-1",
    "a+1",
    "a4294967297",
    "`1",
];

const HEADERS: [&str; 44] = [
    "",
    "hex",
    "hex\t",
    "hex\t2\t2",
    "hex\t2\t2\t",
    "hex\t2\t2\td",
    "hex\t2\t2\tB",
    "hex\t2\t2\tDA",
    "hex\t2\t2\tD\t",
    "hex\t2\t2\tD\tD",
    "hex\t2\t2\tD ",
    "hex\t2\t2\tD\r",
    " hex\t2\t2\tD",
    "\thex\t2\t2\tD",
    "Hex\t2\t2\tD",
    "HEX\t2\t2\tD",
    "hex 2 2 D",
    "hex\t\t2\t2\tD",
    "hex\t0\t2\tD",
    "hex\t2\t0\tD",
    "hex\t14\t2\tD",
    "hex\t2\t14\tD",
    "hex\t19\t19\tD",
    "hex\t20\t2\tD",
    "hex\t2\t20\tD",
    "hex\t20\t20\tA",
    "hex\t02\t2\tD",
    "hex\t2\t02\tD",
    "hex\t+2\t2\tD",
    "hex\t-2\t2\tD",
    "hex\t2.\t2\tD",
    "hex\t258\t2\tD",
    "hex\t2\t258\tD",
    "hex\t65538\t2\tD",
    "hex\t4294967298\t2\tD",
    "hex\t2\t4294967298\tA",
    "hex\t18446744073709551618\t2\tD",
    "hex\t2\t18446744073709551618\tA",
    "hex\t99999999999999999999\t2\tD",
    "hex\t\u{0}2\t2\tD",
    "hex\t2\t2\t-",
    "hey\t2\t2\tD",
    "m\ta1\t0",
    "hexx\t2\t2\tD",
];

const WORDS: [&str; 14] =
    ["", "Own", "OPP", "ow", "op", "owns", "oppo", "own ", " opp", "o", "m", "w", "own\r", "opp\0"];

/// Parts a text into lines without their line feeds, the last one perhaps empty.
fn lines(text: &[u8]) -> Vec<Vec<u8>> {
    text.split(|&byte| byte == b'\n').map(<[u8]>::to_vec).collect()
}

/// Puts lines together again.
fn joined(lines: &[Vec<u8>]) -> Vec<u8> {
    lines.join(&b'\n')
}

/// Exchanges the fields of a line.
fn with_fields(line: &mut Vec<u8>, change: impl FnOnce(&mut Vec<Vec<u8>>)) {
    let mut fields: Vec<Vec<u8>> = line.split(|&byte| byte == b'\t').map(<[u8]>::to_vec).collect();
    change(&mut fields);
    *line = fields.join(&b'\t');
}

/// Adds one of some large powers of two to the number in a field.
fn add_power(field: &mut Vec<u8>, rng: &mut Rng) {
    let power = *rng.pick(&[8u32, 12, 16, 32, 64]);
    let text = String::from_utf8_lossy(field).into_owned();
    if let Ok(value) = text.parse::<u128>() {
        *field = (value + (1u128 << power)).to_string().into_bytes();
    }
}

/// Puts a zero before the number that ends a field.
fn lead_zero(field: &mut Vec<u8>) {
    let start = field.iter().position(u8::is_ascii_digit).unwrap_or(field.len());
    field.insert(start, b'0');
}

/// Changes the count at the end of a line.
fn damage_count(line: &mut Vec<u8>, rng: &mut Rng) {
    let kind = rng.below(6);
    with_fields(line, |fields| {
        let Some(count) = fields.last_mut() else {
            return;
        };
        let value = String::from_utf8_lossy(count).parse::<u128>().unwrap_or(1);
        match kind {
            0 => *count = value.saturating_add(1).to_string().into_bytes(),
            1 => *count = value.saturating_sub(1).to_string().into_bytes(),
            2 => lead_zero(count),
            3 => add_power(count, rng),
            _ => *count = rng.pick(&COUNTS).as_bytes().to_vec(),
        }
    });
}

/// Changes the second field of a line, the cell of a move.
fn damage_cell(line: &mut Vec<u8>, rng: &mut Rng) {
    let kind = rng.below(6);
    with_fields(line, |fields| {
        let both = kind == 0;
        if both {
            let last = fields.len() - 1;
            fields[last] = rng.pick(&COUNTS[6..]).as_bytes().to_vec();
        }
        match fields.get_mut(1) {
            Some(cell) if kind == 1 => lead_zero(cell),
            Some(cell) if kind == 2 => *cell = b"-".to_vec(),
            Some(cell) if both => *cell = rng.pick(&CELLS[..5]).as_bytes().to_vec(),
            Some(cell) => *cell = rng.pick(&CELLS).as_bytes().to_vec(),
            None => {}
        }
    });
}

/// Changes the number or the order of the fields of a line.
fn damage_fields(line: &mut Vec<u8>, rng: &mut Rng) {
    let kind = rng.below(7);
    with_fields(line, |fields| {
        let place = rng.below(fields.len());
        match kind {
            0 => drop(fields.remove(place)),
            1 => fields.insert(place, vec![]),
            2 => fields.push(rng.pick(&["", "0", "x", "a1"]).as_bytes().to_vec()),
            3 if fields[0] == b"m" => fields[0] = b"w".to_vec(),
            3 => fields[0] = b"m".to_vec(),
            4 => fields.reverse(),
            5 => fields[0] = rng.pick(&["", "M", "W", "mm", "x", " m", "w "]).as_bytes().to_vec(),
            _ => fields[place].push(b' '),
        }
    });
}

/// Puts strange bytes into a line or takes some out.
fn damage_bytes_of(line: &mut Vec<u8>, rng: &mut Rng) {
    let place = rng.below(line.len() + 1);
    match rng.below(8) {
        0 => line.push(b'\r'),
        1 => line.insert(place, 0),
        2 => line.insert(place, rng.between(128, 255) as u8),
        3 => line.make_ascii_uppercase(),
        4 => line.iter_mut().filter(|byte| **byte == b'\t').for_each(|byte| *byte = b' '),
        5 => line.push(b'\t'),
        6 => line.insert(0, b' '),
        _ => line.truncate(place),
    }
}

/// Damages the order or the number of the lines.
fn damage_order(lines: &mut Vec<Vec<u8>>, place: usize, rng: &mut Rng) {
    let other = rng.below(lines.len());
    match rng.below(6) {
        0 => drop(lines.remove(place)),
        1 => lines.insert(place, lines[place].clone()),
        2 => lines.swap(place, other),
        3 => lines.insert(place, vec![]),
        4 if place + 1 < lines.len() => {
            let next = lines.remove(place + 1);
            lines[place].extend(next);
        }
        _ => lines.truncate(place),
    }
}

/// Damages one node line in one way.
pub fn line(text: &[u8], rng: &mut Rng) -> Vec<u8> {
    let mut lines = lines(text);
    if lines.len() < 3 {
        return text.to_vec();
    }
    let last = lines.len() - 2;
    let place = if rng.chance(30) { last } else { rng.between(1, last) };
    match rng.below(6) {
        0 => damage_count(&mut lines[place], rng),
        1 | 2 => damage_cell(&mut lines[place], rng),
        3 => damage_fields(&mut lines[place], rng),
        4 => damage_bytes_of(&mut lines[place], rng),
        _ => damage_order(&mut lines, place, rng),
    }
    joined(&lines)
}

/// Damages the header line, leaving the rest.
pub fn header(text: &[u8], rng: &mut Rng) -> Vec<u8> {
    let mut lines = lines(text);
    match rng.below(5) {
        0 => damage_bytes_of(&mut lines[0], rng),
        1 => with_fields(&mut lines[0], |fields| {
            let place = rng.below(fields.len());
            add_power(&mut fields[place], rng);
        }),
        2 => with_fields(&mut lines[0], |fields| {
            let place = rng.below(fields.len());
            lead_zero(&mut fields[place]);
        }),
        3 => lines.truncate(1),
        _ => lines[0] = rng.pick(&HEADERS).as_bytes().to_vec(),
    }
    joined(&lines)
}

/// Puts a leading zero before some count or cell, so that only the zero is wrong.
pub fn zero(text: &[u8], rng: &mut Rng) -> Vec<u8> {
    let mut lines = lines(text);
    let place = rng.below(lines.len().saturating_sub(1).max(1));
    with_fields(&mut lines[place], |fields| {
        let last = fields.len() - 1;
        let most = if place == 0 { 2.min(last) } else { last };
        let chosen = rng.between(1.min(last), most);
        if fields[chosen].iter().any(u8::is_ascii_digit) {
            lead_zero(&mut fields[chosen]);
        }
    });
    joined(&lines)
}

/// Reads the columns and rows of a header, 2 and 2 where there are none.
fn sides(header: &[u8]) -> (u8, u8) {
    let header = String::from_utf8_lossy(header).into_owned();
    let sides: Vec<u8> = header.split('\t').filter_map(|field| field.parse().ok()).collect();
    match sides[..] {
        [columns @ 1..=19, rows @ 1..=19, ..] => (columns, rows),
        _ => (2, 2),
    }
}

/// Names a well-formed cell off the board in some move or set-up line, now and then without its line feed.
pub fn off_board(text: &[u8], rng: &mut Rng) -> Vec<u8> {
    let mut lines = lines(text);
    let named = |line: &[u8]| line.starts_with(b"m") || line.starts_with(b"o");
    let cells_at: Vec<usize> = (1..lines.len()).filter(|&at| named(&lines[at])).collect();
    let (columns, rows) = sides(&lines[0]);
    let right = format!("{}{}", char::from(b'a' + columns), rng.between(1, usize::from(rows)));
    let below = format!("{}{}", char::from(b'a' + rng.below(usize::from(columns)) as u8), rows + 1);
    let cells = [right, below, "t1".into(), "z99".into(), "a20".into(), "a99".into()];
    let place = *rng.pick(&cells_at);
    with_fields(&mut lines[place], |fields| fields[1] = rng.pick(&cells).as_bytes().to_vec());
    if rng.chance(15) {
        lines.truncate(place + 1);
    }
    joined(&lines)
}

/// Ends the text after some whole line.
pub fn early(text: &[u8], rng: &mut Rng) -> Vec<u8> {
    let mut lines = lines(text);
    lines.truncate(rng.between(1, lines.len() - 1));
    lines.push(vec![]);
    joined(&lines)
}

/// Takes the last line feed away, or a few bytes more.
pub fn end(text: &[u8], rng: &mut Rng) -> Vec<u8> {
    let cut = if rng.chance(60) { 1 } else { rng.between(1, 12) };
    text[..text.len().saturating_sub(cut)].to_vec()
}

/// Puts something after a finished tree.
pub fn tail(text: &[u8], rng: &mut Rng) -> Vec<u8> {
    let tails: [&[u8]; 11] = [
        b"\n",
        b"\0",
        b"m",
        b"m\ta1\t0\n",
        b"w\t1\n",
        b"\r\n",
        b" ",
        b"\xff\xfe",
        b"x\ny\nz",
        b"own\ta1\n",
        b"opp",
    ];
    let mut text = text.to_vec();
    text.extend(*rng.pick(&tails));
    text
}

/// Damages bytes anywhere: flips, truncations, insertions, removals and copies.
pub fn bytes(text: &[u8], rng: &mut Rng) -> Vec<u8> {
    let mut text = text.to_vec();
    for _ in 0..rng.between(1, 3) {
        let place = rng.below(text.len() + 1);
        let inside = place.min(text.len().saturating_sub(1));
        let length = rng.between(1, 6).min(text.len() - inside.min(text.len()));
        match rng.below(7) {
            0 if !text.is_empty() => text[inside] ^= 1 << rng.below(8),
            1 if !text.is_empty() => text[inside] = rng.below(256) as u8,
            2 => text.insert(place, rng.below(256) as u8),
            3 => text.insert(place, *rng.pick(b"\t\n\t\n-mw012a\r \0")),
            4 => drop(text.drain(inside..inside + length)),
            5 => text.truncate(place),
            _ => {
                let piece = text[inside..inside + length].to_vec();
                text.splice(place..place, piece);
            }
        }
    }
    text
}

/// Makes a text of random bytes, or of bytes that sheets use.
pub fn soup(rng: &mut Rng) -> Vec<u8> {
    let length = rng.below(60);
    let any = rng.chance(30);
    let mut text = if rng.chance(50) { b"hex\t3\t3\tA\n".to_vec() } else { vec![] };
    for _ in 0..length {
        text.push(if any { rng.below(256) as u8 } else { *rng.pick(b"mw\t\n\t\n0123abc-hexDA") });
    }
    text
}

/// Lists the places of the set-up lines.
fn set_up_places(lines: &[Vec<u8>]) -> Vec<usize> {
    (1..lines.len()).filter(|&at| lines[at].starts_with(b"o")).collect()
}

/// Damages one set-up line in one way.
pub fn stone(text: &[u8], rng: &mut Rng) -> Vec<u8> {
    let mut lines = lines(text);
    let places = set_up_places(&lines);
    if places.is_empty() {
        return line(text, rng);
    }
    let place = *rng.pick(&places);
    match rng.below(9) {
        0..=2 => damage_cell(&mut lines[place], rng),
        3 => damage_fields(&mut lines[place], rng),
        4 => damage_bytes_of(&mut lines[place], rng),
        5 => with_fields(&mut lines[place], |fields| {
            fields[0] = rng.pick(&WORDS).as_bytes().to_vec();
        }),
        6 => lines.truncate(place + 1),
        7 => with_fields(&mut lines[place], |fields| fields[1] = b"-".to_vec()),
        _ => with_fields(&mut lines[place], |fields| fields.truncate(1)),
    }
    joined(&lines)
}

/// Puts a set-up line into the tree or after it, as another or in place of one before the tree.
pub fn misplaced(text: &[u8], rng: &mut Rng) -> Vec<u8> {
    let mut lines = lines(text);
    let places = set_up_places(&lines);
    let Some(&last) = places.last() else {
        return line(text, rng);
    };
    let from = *rng.pick(&places);
    let stray = if rng.chance(50) { lines.remove(from) } else { b"own\ta1".to_vec() };
    let end = lines.len() - 1;
    let to = if rng.chance(30) { end } else { rng.between(last.min(end), end) };
    lines.insert(to, stray);
    joined(&lines)
}

/// Puts some set-up lines on any cells of the board after the header.
pub fn set_up(text: &[u8], rng: &mut Rng) -> Vec<u8> {
    let end = text.iter().position(|&byte| byte == b'\n').map_or(text.len(), |feed| feed + 1);
    let (columns, rows) = sides(&text[..end.saturating_sub(1)]);
    let mut set_up = String::new();
    let most = *rng.pick(&[1, 2, 6]);
    for _ in 0..rng.between(1, most) {
        let spot = (rng.between(1, columns.into()) as i32, rng.between(1, rows.into()) as i32);
        set_up += &set_up_line(*rng.pick(&[Side::Own, Side::Opp]), spot);
    }
    [&text[..end], set_up.as_bytes(), &text[end..]].concat()
}
