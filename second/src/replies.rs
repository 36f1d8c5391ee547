//! Replies: one line for each request.

use crate::entries::{judge, outcome, passed, play, Judged};
use crate::fault::{self, Fault};
use crate::requests::{self, Ask, Next, Request};
use std::io::{BufRead, Result, Write};

/// Puts numbers on one line, parted by tabs.
fn tabbed(numbers: impl Iterator<Item = usize>) -> String {
    numbers.map(|number| number.to_string()).collect::<Vec<String>>().join("\t")
}

/// Gives the verdict's numbers and the counts of moves, waits and outcomes.
fn judged(reply: &Judged) -> Vec<usize> {
    let counts = [reply.moves, reply.waits, reply.outcomes];
    reply.verdict.numbers().into_iter().chain(counts).collect()
}

/// Gives the two numbers that counts adds: the outcomes passed over and the moves that are not live.
fn added(text: &[u8], reply: &Judged) -> [usize; 2] {
    let passed = passed(text, reply);
    if fault::on(Fault::IdleForPassed) {
        return [reply.idle, passed];
    }
    [passed, reply.idle]
}

/// Answers one request with the numbers of its reply.
pub fn numbers(request: &Request) -> Vec<usize> {
    let mut work = vec![0u32; request.work];
    match &request.ask {
        Ask::Judge => judged(&judge(&request.text, &mut work)),
        Ask::Counts => {
            let reply = judge(&request.text, &mut work);
            judged(&reply).into_iter().chain(added(&request.text, &reply)).collect()
        }
        Ask::Play { room, cells } => {
            let mut room = vec![0u32; *room];
            let reply = play(&request.text, cells, &mut room, &mut work);
            let counts = [reply.place, reply.answers, usize::from(reply.over)];
            let written = room.iter().take(reply.answers).map(|&cell| cell as usize);
            reply.verdict.numbers().into_iter().chain(counts).chain(written).collect()
        }
        Ask::Outcome { room, number } => {
            let mut room = vec![0u32; *room];
            let reply = outcome(&request.text, *number, &mut room, &mut work);
            let written = room.iter().take(reply.cells).map(|&cell| cell as usize);
            let counts = [reply.cells].into_iter();
            reply.verdict.numbers().into_iter().chain(counts).chain(written).collect()
        }
    }
}

/// Answers one request with its line, without the line feed.
pub fn line(request: &Request) -> String {
    tabbed(numbers(request).into_iter())
}

/// Answers requests until the input ends or one is malformed.
pub fn answer_all(input: &mut impl BufRead, output: &mut impl Write) -> Result<()> {
    loop {
        match requests::next(input)? {
            Next::Request(request) => writeln!(output, "{}", line(&request))?,
            Next::Malformed => {
                writeln!(output, "request")?;
                break;
            }
            Next::End => break,
        }
    }
    output.flush()
}
