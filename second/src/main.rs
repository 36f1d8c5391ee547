//! A second program written from the paper, with made-up requests to compare it by.

mod answering;
mod board;
mod corpus;
mod damage;
mod doubled;
mod entries;
mod fair;
mod fault;
mod grow;
mod joining;
mod limits;
mod links;
mod live;
mod maker;
mod outcomes;
mod passing;
mod plan;
mod positions;
mod recipes;
mod replies;
mod requests;
mod rng;
mod set_up;
mod sheet;
mod solve;
mod spare;
mod tell;
mod templates;
#[cfg(test)]
mod tests_made;
#[cfg(test)]
mod tests_paper;
mod twins;
mod unfair;
mod unlike;
mod verdict;

use std::io::{self, BufWriter, Write};
use std::process::ExitCode;

const USAGE: &str =
    "second replies [--fault NAME] | faults | make|tell|histogram SEED JUDGES PLAYS OUTCOMES COUNTS";

/// Reads the five numbers that make a corpus.
fn sizes(words: &[String]) -> Option<corpus::Sizes> {
    let numbers: Vec<u64> = words.iter().filter_map(|word| word.parse().ok()).collect();
    match (numbers.as_slice(), words.len()) {
        (&[seed, judges, plays, outcomes, counts], 5) => Some(corpus::Sizes {
            seed,
            judges: judges as usize,
            plays: plays as usize,
            outcomes: outcomes as usize,
            counts: counts as usize,
        }),
        _ => None,
    }
}

/// Answers requests from standard input.
fn replies() -> io::Result<bool> {
    let mut output = BufWriter::new(io::stdout().lock());
    replies::answer_all(&mut io::stdin().lock(), &mut output)?;
    Ok(true)
}

/// Writes made-up requests to standard output.
fn make(sizes: &corpus::Sizes) -> io::Result<bool> {
    let mut output = BufWriter::new(io::stdout().lock());
    for request in corpus::requests(sizes) {
        requests::write(&request, &mut output)?;
    }
    output.flush()?;
    Ok(true)
}

/// Prints the names of the faults.
fn names() -> io::Result<bool> {
    fault::ALL.iter().for_each(|entry| println!("{}", entry.1));
    Ok(true)
}

/// Does what the words ask, and says whether all went well, or nothing for words unknown.
fn run(words: &[String]) -> Option<io::Result<bool>> {
    let first = words.first()?.as_str();
    match (first, words.len()) {
        ("replies", 1) => Some(replies()),
        ("replies", 3) if words[1] == "--fault" => {
            fault::set(Some(fault::named(&words[2])?));
            Some(replies())
        }
        ("faults", 1) => Some(names()),
        ("make", 6) => Some(make(&sizes(&words[1..])?)),
        ("tell", 6) => Some(Ok(tell::tell(&sizes(&words[1..])?))),
        ("histogram", 6) => Some(Ok(tell::histogram(&sizes(&words[1..])?))),
        _ => None,
    }
}

/// Starts the program.
fn main() -> ExitCode {
    let words: Vec<String> = std::env::args().skip(1).collect();
    match run(&words) {
        Some(Ok(true)) => ExitCode::SUCCESS,
        Some(Ok(false)) => ExitCode::FAILURE,
        Some(Err(error)) => {
            eprintln!("{error}");
            ExitCode::FAILURE
        }
        None => {
            eprintln!("{USAGE}");
            ExitCode::from(2)
        }
    }
}
