//! Requests: their form on standard input, read and written.

use std::io::{BufRead, Read, Result, Write};

/// The most workspace that can be lent.
const WORK: u64 = 9_000;
/// The most room that can be lent.
const ROOM: u64 = 1_000;
/// The longest sheet that can be sent.
pub const BYTES: u64 = 65_536;
/// The most cells a play can list.
const CELLS: usize = 400;

/// What is asked of a sheet.
#[derive(Clone, PartialEq, Debug)]
pub enum Ask {
    Judge,
    Counts,
    Play { room: usize, cells: Vec<u32> },
    Outcome { room: usize, number: u32 },
}

/// One request: the workspace lent, the sheet and what is asked.
#[derive(Clone, PartialEq, Debug)]
pub struct Request {
    pub work: usize,
    pub text: Vec<u8>,
    pub ask: Ask,
}

/// What the next piece of input holds.
#[derive(PartialEq, Debug)]
pub enum Next {
    Request(Request),
    Malformed,
    End,
}

/// Reads a decimal number without leading zeros, at most so large.
fn number(field: &[u8], most: u64) -> Option<u64> {
    let plain = !field.is_empty() && field.len() <= 10 && field.iter().all(u8::is_ascii_digit);
    if !plain || (field.len() > 1 && field[0] == b'0') {
        return None;
    }
    let value = field.iter().fold(0, |value, digit| value * 10 + u64::from(digit - b'0'));
    (value <= most).then_some(value)
}

/// Reads the fields of a request line as workspace, number of bytes and what is asked.
fn line(bytes: &[u8]) -> Option<(usize, usize, Ask)> {
    let fields: Vec<&[u8]> = bytes.split(|&byte| byte == b'\t').collect();
    let large = u64::from(u32::MAX);
    let work = number(fields.get(1)?, WORK)? as usize;
    let length = number(fields.get(2)?, BYTES)? as usize;
    let ask = match (fields[0], fields.len()) {
        (b"judge", 3) => Ask::Judge,
        (b"counts", 3) => Ask::Counts,
        (b"outcome", 5) => Ask::Outcome {
            room: number(fields[3], ROOM)? as usize,
            number: number(fields[4], large)? as u32,
        },
        (b"play", 4..) if fields.len() - 4 <= CELLS => {
            let cell = |field: &&[u8]| number(field, large).map(|cell| cell as u32);
            let cells = fields[4..].iter().map(cell).collect::<Option<Vec<u32>>>()?;
            Ask::Play { room: number(fields[3], ROOM)? as usize, cells }
        }
        _ => return None,
    };
    Some((work, length, ask))
}

/// Reads the next request.
pub fn next(input: &mut impl BufRead) -> Result<Next> {
    let mut bytes = Vec::new();
    if input.read_until(b'\n', &mut bytes)? == 0 {
        return Ok(Next::End);
    }
    if bytes.pop() != Some(b'\n') {
        return Ok(Next::Malformed);
    }
    let Some((work, length, ask)) = line(&bytes) else {
        return Ok(Next::Malformed);
    };
    let mut text = Vec::new();
    input.by_ref().take(length as u64).read_to_end(&mut text)?;
    if text.len() < length {
        return Ok(Next::Malformed);
    }
    Ok(Next::Request(Request { work, text, ask }))
}

/// Writes a request as it is read.
pub fn write(request: &Request, output: &mut impl Write) -> Result<()> {
    let (work, bytes) = (request.work, request.text.len());
    match &request.ask {
        Ask::Judge => write!(output, "judge\t{work}\t{bytes}")?,
        Ask::Counts => write!(output, "counts\t{work}\t{bytes}")?,
        Ask::Outcome { room, number } => {
            write!(output, "outcome\t{work}\t{bytes}\t{room}\t{number}")?
        }
        Ask::Play { room, cells } => {
            write!(output, "play\t{work}\t{bytes}\t{room}")?;
            for cell in cells {
                write!(output, "\t{cell}")?;
            }
        }
    }
    output.write_all(b"\n")?;
    output.write_all(&request.text)
}
