//! Checks of a corpus: that it tells every fault, and that it meets every verdict.

use crate::corpus::{requests, Sizes};
use crate::fault::{self, Fault};
use crate::replies;
use crate::requests::{Ask, Request};

/// The fewest replies by which a fault counts as told.
const TOLD: usize = 3;
/// The fewest times each verdict has to be met.
const MET: usize = 20;
/// One more than the largest number of a verdict, and the numbers that no verdict has.
const NUMBERS: usize = 25;
const NOT_GIVEN: [usize; 3] = [21, 22, 23];

/// Answers all requests with a fault, or with none.
fn answered(requests: &[Request], fault: Option<Fault>) -> Vec<String> {
    fault::set(fault);
    let replies = requests.iter().map(replies::line).collect();
    fault::set(None);
    replies
}

/// Prints for every fault how many replies differ, and says whether all faults are told.
pub fn tell(sizes: &Sizes) -> bool {
    let requests = requests(sizes);
    let right = answered(&requests, None);
    let mut all_told = true;
    for (fault, name) in fault::ALL {
        let wrong = answered(&requests, Some(fault));
        let differ = |place: &usize| right[*place] != wrong[*place];
        let count = (0..right.len()).filter(differ).count();
        all_told &= count >= TOLD;
        println!("{name}\t{count}{}", if count >= TOLD { "" } else { "\tnot told" });
    }
    all_told
}

/// Prints how often each verdict is met by judge, play, outcome and counts and in all, and says whether often enough.
pub fn histogram(sizes: &Sizes) -> bool {
    let mut met = [[0usize; 5]; NUMBERS];
    for request in requests(sizes) {
        let kind = match request.ask {
            Ask::Judge => 0,
            Ask::Play { .. } => 1,
            Ask::Outcome { .. } => 2,
            Ask::Counts => 3,
        };
        let verdict = replies::numbers(&request)[0];
        met[verdict][kind] += 1;
        met[verdict][4] += 1;
    }
    println!("verdict\tjudge\tplay\toutcome\tcounts\tall");
    let mut often_enough = true;
    for verdict in (0..NUMBERS).filter(|verdict| !NOT_GIVEN.contains(verdict)) {
        let counts = met[verdict];
        println!("{verdict}\t{}", counts.map(|count| count.to_string()).join("\t"));
        often_enough &= counts[4] >= MET;
    }
    often_enough
}
