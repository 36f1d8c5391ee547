//! The samples of the paper and the readings of its open places.

use crate::answering::Game;
use crate::board::{Board, Player};
use crate::entries::{judge, outcome, passed, play, Judged, Listed, Played, WORKSPACE};
use crate::joining::joins;
use crate::replies;
use crate::requests::{Ask, Request};
use crate::sheet;
use crate::verdict::Verdict;
use std::io::Cursor;

const P1: &str = "hex 2 2 D / m b1 1 / w 2 / m a2 0 / m b2 0";
/// P1 in the corner of 19 by 2.
const WIDE: &str = "hex 19 2 D / m b1 1 / w 2 / m a2 0 / m b2 0";
const P6: &str = "hex 1 1 D / m a1 0";
const P8: &str =
    "hex 3 2 D / m - 3 / w 2 / m b1 0 / m c1 0 / w 2 / m a2 0 / m b2 0 / w 2 / m a1 0 / m c2 0";

/// A wait whose third move is not live, nor is the third one under that.
const SPARE: &str =
    "hex 9 1 D / m - 1 / w 3 / m a1 0 / m b1 0 / m c1 1 / w 3 / m d1 0 / m e1 0 / m f1 0";

/// Writes a sample as text, with its last line feed.
fn text(sample: &str) -> Vec<u8> {
    let mut text = half(sample);
    text.push(b'\n');
    text
}

/// Writes a sample as text, without its last line feed.
fn half(sample: &str) -> Vec<u8> {
    sample.replace(" / ", "\n").replace(' ', "\t").into_bytes()
}

/// Judges a text with enough workspace.
fn judged(text: &[u8]) -> Judged {
    judge(text, &mut vec![7; WORKSPACE])
}

/// Gives the verdict of a text as its four numbers.
fn verdict(text: &[u8]) -> [usize; 4] {
    let judged = judged(text);
    if judged.verdict != Verdict::Done {
        let counts = (judged.moves, judged.waits, judged.outcomes, judged.idle);
        assert_eq!(counts, (0, 0, 0, 0));
    }
    judged.verdict.numbers()
}

/// Gives the verdict of a sample as its four numbers.
fn sample(sample: &str) -> [usize; 4] {
    verdict(&text(sample))
}

/// Gives the counts of an accepted sample.
fn counts(sample: &str) -> (usize, usize, usize) {
    let judged = judged(&text(sample));
    assert_eq!(judged.verdict, Verdict::Done);
    (judged.moves, judged.waits, judged.outcomes)
}

/// Plays a sample with just enough room and gives the reply and the answers.
fn played(sample: &str, cells: &[u32]) -> (Played, Vec<u32>) {
    let mut room = vec![0; cells.len()];
    let reply = play(&text(sample), cells, &mut room, &mut vec![7; WORKSPACE]);
    room.truncate(reply.answers);
    (reply, room)
}

/// Gives the verdict number, place and whether play is over.
fn refused(sample: &str, cells: &[u32]) -> (usize, usize, bool) {
    let (reply, answers) = played(sample, cells);
    assert!(answers.is_empty());
    (reply.verdict.numbers()[0], reply.place, reply.over)
}

/// Asks for an outcome of a sample with so much room.
fn listed(sample: &str, number: u32, room: usize) -> (usize, Vec<u32>) {
    let mut room = vec![99; room];
    let reply: Listed = outcome(&text(sample), number, &mut room, &mut vec![7; WORKSPACE]);
    room.truncate(reply.cells);
    (reply.verdict.numbers()[0], room)
}

/// Writes a sheet of so many waits of two moves on unlike cells under one root without a stone.
fn twos(waits: usize) -> String {
    let cell =
        |place: usize| format!("{}{}", char::from(b'a' + (place % 13) as u8), place / 13 + 1);
    let mut sample = format!("hex 13 13 D / m - {waits}");
    for place in 0..waits {
        sample += &format!(" / w 2 / m {} 0 / m {} 0", cell(2 * place), cell(2 * place + 1));
    }
    sample
}

/// The sample sheets P1 to P9.
#[test]
fn sample_sheets() {
    assert_eq!(counts(P1), (3, 1, 2));
    assert_eq!(sample(&P1.replace("b1", "a1")), [13, 0, 0, 1]);
    assert_eq!(sample("hex 2 2 D / m b1 1 / w 1 / m a2 0"), [11, 3, 3, 0]);
    assert_eq!(sample(&P1.replace("b2", "b1")), [10, 2, 2, 0]);
    let p5 = "hex 2 2 D / m b1 2 / w 2 / m a2 0 / m b2 0 / w 2 / m a1 0 / m a2 0";
    assert_eq!(sample(p5), [10, 2, 3, 0]);
    assert_eq!(counts(P6), (1, 0, 1));
    assert_eq!(sample("hex 1 1 D / m - 0"), [13, 0, 0, 0]);
    assert_eq!(counts(P8), (7, 3, 8));
    let p9 = P8.replace("m - 3", "m - 2").replace(" / w 2 / m a1 0 / m c2 0", "");
    assert_eq!(sample(&p9), [13, 0, 0, 2]);
}

/// The sample plays P10 to P12 and the others.
#[test]
fn sample_plays() {
    let done = |answers, over| Played { verdict: Verdict::Done, place: 0, answers, over };
    assert_eq!(played(P1, &[3]), (done(1, true), vec![4]));
    assert_eq!(refused(P1, &[3, 1]), (15, 2, false));
    assert_eq!(played(P8, &[2, 5, 1]), (done(3, true), vec![3, 4, 6]));
    assert_eq!(played(P1, &[1]), (done(1, true), vec![3]));
    assert_eq!(refused(P1, &[2]), (17, 1, false));
    assert_eq!(refused(P1, &[5]), (16, 1, false));
    assert_eq!(played(P6, &[]), (done(0, true), vec![]));
}

/// Seventeen waits of two are too many outcomes, sixteen are not.
#[test]
fn sample_counts() {
    assert_eq!(sample(&twos(17)), [12, 0, 0, 0]);
    assert_eq!(sample(&twos(16)), [13, 0, 0, 0]);
    assert_eq!(sample(&twos(64)), [12, 0, 0, 0]);
    assert_eq!(sample(&twos(84)), [12, 0, 0, 0]);
}

/// The line printed for P8, and reply lines of the other entries.
#[test]
fn printed_lines() {
    let line =
        |sample: &str, ask| replies::line(&Request { work: WORKSPACE, text: text(sample), ask });
    assert_eq!(line(P8, Ask::Judge), "0\t0\t0\t0\t7\t3\t8");
    assert_eq!(line(P8, Ask::Counts), "0\t0\t0\t0\t7\t3\t8\t3\t0");
    assert_eq!(line(SPARE, Ask::Judge), "0\t0\t0\t0\t7\t2\t2");
    assert_eq!(line(SPARE, Ask::Counts), "0\t0\t0\t0\t7\t2\t2\t0\t2");
    assert_eq!(line(&SPARE.replace("9 1", "9 2"), Ask::Counts), "13\t0\t0\t0\t0\t0\t0\t0\t0");
    let play = Ask::Play { room: 3, cells: vec![2, 5, 1] };
    assert_eq!(line(P8, play), "0\t0\t0\t0\t0\t3\t1\t3\t4\t6");
    let play = Ask::Play { room: 2, cells: vec![3, 1] };
    assert_eq!(line(P1, play), "15\t0\t0\t0\t2\t0\t0");
    assert_eq!(line(P8, Ask::Outcome { room: 3, number: 5 }), "0\t0\t0\t0\t3\t3\t4\t6");
    assert_eq!(line(P8, Ask::Outcome { room: 3, number: 8 }), "18\t0\t0\t0\t0");
}

/// The board: neighbours, numbers and the sides of the players.
#[test]
fn board() {
    let two = Board { columns: 2, rows: 2 };
    assert_eq!(two.number(2, 1), 2);
    assert!(two.neighbours(2).any(|cell| cell == 3));
    assert!(!two.neighbours(1).any(|cell| cell == 4));
    let three = Board { columns: 3, rows: 3 };
    let mut around: Vec<usize> = three.neighbours(5).collect();
    around.sort_unstable();
    assert_eq!(around, [2, 3, 4, 6, 7, 8]);
    assert!(joins(three, Player::D, &[3, 5, 7]) && joins(three, Player::A, &[3, 5, 7]));
    assert!(!joins(three, Player::D, &[1, 5, 9]) && !joins(three, Player::A, &[1, 5, 9]));
    assert!(joins(three, Player::A, &[4, 5, 6]) && !joins(three, Player::D, &[4, 5, 6]));
    assert!(joins(Board { columns: 5, rows: 1 }, Player::D, &[4]));
    assert!(!joins(Board { columns: 5, rows: 1 }, Player::A, &[4]));
    assert!(joins(Board { columns: 1, rows: 5 }, Player::A, &[4]));
    assert!(!joins(Board { columns: 1, rows: 1 }, Player::D, &[]));
}

/// Outcomes are numbered with the last wait fastest, listed ascending, 18 before 14.
#[test]
fn outcome_entry() {
    assert_eq!(listed(P8, 0, 3), (0, vec![1, 2, 4]));
    assert_eq!(listed(P8, 1, 3), (0, vec![2, 4, 6]));
    assert_eq!(listed(P8, 2, 3), (0, vec![1, 2, 5]));
    assert_eq!(listed(P8, 4, 9), (0, vec![1, 3, 4]));
    assert_eq!(listed(P8, 7, 3), (0, vec![3, 5, 6]));
    assert_eq!(listed(P8, 8, 0), (18, vec![]));
    assert_eq!(listed(P8, 7, 2), (14, vec![]));
    assert_eq!(listed("hex 1 1 D / m - 0", 0, 0), (0, vec![]));
    assert_eq!(listed(&P1.replace("b1", "a1"), 1, 2), (0, vec![1, 4]));
    assert_eq!(listed(&twos(17), 0, 999).0, 12);
    assert_eq!(listed(P1, u32::MAX, 999).0, 18);
}

/// The traps: first and third wait, all cells of a branch, a free move.
#[test]
fn traps() {
    let first_third = "hex 4 2 D / m b1 3 / w 2 / m a2 0 / m b2 0 / w 2 / m c1 0 / m d1 0 / w 2 / m a1 0 / m b2 0";
    assert_eq!(sample(first_third), [10, 2, 6, 0]);
    let deep = "hex 4 2 D / m b1 1 / w 2 / m a2 0 / m b2 1 / w 2 / m a2 0 / m c2 0";
    assert_eq!(sample(deep), [11, 3, 5, 0]);
    assert_eq!(played(P1, &[1]).1, vec![3]);
    let own_deep = "hex 4 2 D / m - 1 / w 2 / m a2 0 / m b2 1 / w 2 / m a1 0 / m b2 0";
    assert_eq!(sample(own_deep), [10, 5, 6, 0]);
}

/// Readings 1 and 2: missing line feeds.
#[test]
fn readings_line_feeds() {
    assert_eq!(verdict(b"hex\t2\t2\tD"), [3, 1, 0, 0]);
    assert_eq!(verdict(b"hex\t2\t2\tD\n"), [8, 2, 0, 0]);
    assert_eq!(verdict(b""), [3, 1, 0, 0]);
    assert_eq!(verdict(b"\n"), [3, 1, 0, 0]);
    assert_eq!(verdict(&half(P6)), [4, 2, 0, 0]);
    assert_eq!(verdict(&half("hex 1 1 D / m b1 0")), [4, 2, 0, 0]);
    assert_eq!(verdict(&half("hex 2 2 D / m b1 1 / w 2 / m a2 0 / m")), [4, 5, 0, 0]);
    assert_eq!(sample("hex 2 2 D / m b1 1 / w 2 / m a2 0"), [8, 5, 0, 0]);
}

/// Readings 3, 5, 6, 7 and 8: one line at a time.
#[test]
fn readings_lines() {
    assert_eq!(sample("hex 1 1 D / m b1 1 / x"), [5, 2, 0, 0]);
    for line in ["m a1 2048", "w 1", "m a0 0", "m a01 0", "m a100 0", "m A1 0", "m a1 00", "m a1"] {
        assert_eq!(sample(&format!("hex 1 1 D / {line}")), [4, 2, 0, 0]);
    }
    for count in ["0", "2048", "18446744073709551617", "01", "+1", ""] {
        assert_eq!(sample(&format!("hex 1 1 D / m a1 1 / w {count}")), [4, 3, 0, 0]);
    }
    for cell in ["n1", "z99", "a14", "b1", "a2"] {
        assert_eq!(sample(&format!("hex 1 1 D / m {cell} 0")), [5, 2, 0, 0]);
    }
    assert_eq!(sample("hex 1 1 D / m n1 2048"), [4, 2, 0, 0]);
    assert_eq!(sample("hex 2 1 D / m a1 1 / w 2 / m - 0"), [4, 4, 0, 0]);
    for tail in [&b"\n"[..], b"\0", b"m", b"\xff", b"m\ta1\t0\n"] {
        assert_eq!(verdict(&[&text(P6), tail].concat()), [9, 3, 0, 0]);
    }
    for strange in [&b"\r"[..], b"\0", b"\xc3"] {
        assert_eq!(verdict(&[b"hex\t1\t1\tD", strange, b"\nm\ta1\t0\n"].concat()), [3, 1, 0, 0]);
        assert_eq!(verdict(&[b"hex\t1\t1\tD\nm\ta1\t0", strange, b"\n"].concat()), [4, 2, 0, 0]);
    }
}

/// Reading 4: the 2,049th node line.
#[test]
fn readings_nodes() {
    let with = |moves: usize, tail: &str| {
        let mut text = text(&format!("hex 13 1 D / m a1 1 / w {moves}"));
        for place in 0..moves.min(2_046) {
            text.extend(if place % 2 == 0 { b"m\tb1\t0\n" } else { b"m\tc1\t0\n" });
        }
        text.extend(tail.bytes());
        text
    };
    assert_eq!(verdict(&with(2_046, "")), [24, 3, 0, 0]);
    assert_eq!(verdict(&with(2_046, "x")), [9, 2_050, 0, 0]);
    assert_eq!(verdict(&with(2_047, "")), [8, 2_050, 0, 0]);
    for tail in ["m\tb1\t0\n", "x", "\n", "\0", "m\tz1\t0\n"] {
        assert_eq!(verdict(&with(2_047, tail)), [6, 2_050, 0, 0]);
    }
}

/// Depth: 7 at depth 129, after 4 and before 5; readings 6 and 9.
#[test]
fn readings_depth() {
    let down = |depth: usize, tail: &str| {
        let mut text = b"hex\t2\t1\tD\n".to_vec();
        for level in 1..=depth {
            text.extend(if level % 2 == 1 { &b"m\ta1\t1\n"[..] } else { b"w\t1\n" });
        }
        text.extend(tail.bytes());
        text
    };
    assert_eq!(verdict(&down(128, "m\ta1\t0\n")), [7, 130, 0, 0]);
    assert_eq!(verdict(&down(128, "m\tz1\t0\n")), [7, 130, 0, 0]);
    assert_eq!(verdict(&down(128, "m\t-\t0\n")), [4, 130, 0, 0]);
    assert_eq!(verdict(&down(128, "m\ta1\t0")), [4, 130, 0, 0]);
    assert_eq!(verdict(&down(128, "")), [8, 130, 0, 0]);
    assert_eq!(verdict(&down(126, "m\ta1\t0\n"))[0], 10);
}

/// Texts at the length limit, and the order of 1, 2 and 3.
#[test]
fn lengths() {
    let mut long = text(P6);
    long.resize(32_768, b'x');
    assert_eq!(verdict(&long), [9, 3, 0, 0]);
    long.push(b'x');
    assert_eq!(verdict(&long), [2, 0, 0, 0]);
    assert_eq!(verdict(&vec![b'x'; 32_769]), [2, 0, 0, 0]);
    assert_eq!(judge(&long, &mut vec![0; 8_191]).verdict, Verdict::Workspace);
}

/// Readings 10, 11, 12: outcomes are choices, 12 by count alone, 10 and 11 over the whole tree.
#[test]
fn readings_fair() {
    let choices = "hex 4 1 D / m - 1 / w 3 / m a1 1 / w 2 / m b1 0 / m c1 0 / m b1 1 / w 2 / m a1 0 / m d1 0 / m c1 0";
    assert_eq!(counts(choices), (8, 3, 5));
    assert_eq!((listed(choices, 0, 2).1, listed(choices, 2, 2).1), (vec![1, 2], vec![1, 2]));
    let both = "hex 5 1 D / m - 1 / w 1 / m a1 1 / w 2 / m a1 0 / m b1 0";
    assert_eq!(sample(both), [10, 4, 1, 0]);
    let two = "hex 5 1 D / m - 2 / w 2 / m d1 0 / m b1 0 / w 2 / m d1 0 / m b1 0";
    assert_eq!(sample(two), [10, 2, 2, 0]);
}

/// Reading 13: the order of refusals in play.
#[test]
fn readings_play() {
    let short = |sample: &str, cells: &[u32], room: usize| {
        let mut room = vec![5; room];
        let reply = play(&text(sample), cells, &mut room, &mut vec![7; WORKSPACE]);
        assert!(room.iter().all(|&number| number == 5));
        (reply.verdict.numbers()[0], reply.place, reply.over)
    };
    assert_eq!(short(P1, &[2, 3], 1), (14, 0, false));
    assert_eq!(short(P1, &[0, 3], 2), (16, 1, false));
    assert_eq!(short(P1, &[3, 0], 2), (15, 2, false));
    assert_eq!(short(P1, &[3, 99], 9), (15, 2, false));
    assert_eq!(short(&P1.replace("b1", "a1"), &[0, 0], 0), (13, 0, false));
    assert_eq!(short(P8, &[2, 2], 2), (17, 2, false));
    assert_eq!(short(P8, &[2, 3], 2), (17, 2, false));
    assert_eq!(short(P6, &[1], 1), (15, 1, false));
}

/// Reading 14: cells of closed waits are free, and the smallest line number goes first.
#[test]
fn readings_open_waits() {
    let nested = "hex 9 2 D / m b1 2 / w 2 / m c1 1 / w 2 / m d1 0 / m e1 0 / m f1 0 / w 2 / m a2 0 / m b2 0";
    assert_eq!(counts(nested), (7, 3, 6));
    assert_eq!(played(nested, &[9, 8]).1, vec![3, 4]);
    assert_eq!(played(nested, &[6, 18]).1, vec![3, 4]);
    assert_eq!(played(nested, &[4, 5]).1, vec![6, 10]);
    assert_eq!(played(nested, &[9, 4, 11]).1, vec![3, 5, 10]);
}

/// The memory lent: the workspace is cleared except on 1, the room changes only on 0.
#[test]
fn memory() {
    let mut work = vec![7; 8_191];
    assert_eq!(judge(&text(P1), &mut work).verdict, Verdict::Workspace);
    assert!(work.iter().all(|&number| number == 7));
    for sheet in [text(P1), b"".to_vec(), vec![b'x'; 40_000], text("hex 1 1 D / m - 0")] {
        let mut work = vec![7; 9_000];
        judge(&sheet, &mut work);
        assert!(work[..WORKSPACE].iter().all(|&number| number == 0));
        assert!(work[WORKSPACE..].iter().all(|&number| number == 7));
    }
    let mut room = [5; 4];
    play(&text(P1), &[3], &mut room, &mut vec![7; WORKSPACE]);
    assert_eq!(room, [4, 5, 5, 5]);
    let mut room = [9; 4];
    outcome(&text(P8), 0, &mut room, &mut vec![7; WORKSPACE]);
    assert_eq!(room, [1, 2, 4, 9]);
}

/// Reading 16: the root counts as a move even without a stone.
#[test]
fn readings_root() {
    assert_eq!(counts("hex 2 1 D / m - 1 / w 2 / m a1 0 / m b1 0"), (3, 1, 2));
}

/// Answers some input and gives the lines.
fn answered(input: &[u8]) -> String {
    let mut output = Vec::new();
    replies::answer_all(&mut Cursor::new(input), &mut output).expect("memory never fails");
    String::from_utf8(output).expect("only digits, tabs, line feeds and one word")
}

/// Says what a good request, a bad one and another good one are answered, the last only where the bad one ends.
fn after_good(bad: &[u8]) -> String {
    let good = b"judge\t8192\t0\n";
    let last = if bad.ends_with(b"\n") { &good[..] } else { b"" };
    answered(&[good, bad, last].concat())
}

/// Requests: the quiet end, and the word for each malformed request.
#[test]
fn request_lines() {
    assert_eq!(answered(b""), "");
    let good = b"judge\t8192\t0\n".to_vec();
    assert_eq!(answered(&good), "3\t1\t0\t0\t0\t0\t0\n");
    assert_eq!(answered(&[good.clone(), good].concat()), "3\t1\t0\t0\t0\t0\t0\n".repeat(2));
    let bad: [&[u8]; 17] = [
        b"\n",
        b"judge\t8192\t0",
        b"judge\t8192\n",
        b"judge\t8192\t0\t\n",
        b"jug\t8192\t0\n",
        b"judge\t08192\t0\n",
        b"judge\t9001\t0\n",
        b"judge\t1\t65537\n",
        b"judge\t1\t3\nab",
        b"play\t1\t0\n",
        b"play\t1\t0\t1001\n",
        b"play\t1\t0\t1\t4294967296\n",
        b"play\t1\t0\t1\t\n",
        b"outcome\t1\t0\t1\n",
        b"outcome\t1\t0\t1\t1\t1\n",
        b"outcome\t1\t0\t1\t-1\n",
        b"judge 1 0\n",
    ];
    for request in bad {
        assert_eq!(after_good(request), "3\t1\t0\t0\t0\t0\t0\nrequest\n", "{request:?}");
    }
    let cells = |count: usize| format!("play\t1\t0\t0{}\n", "\t1".repeat(count));
    assert_eq!(answered(cells(400).as_bytes()), "1\t0\t0\t0\t0\t0\t0\n");
    assert_eq!(answered(cells(401).as_bytes()), "request\n");
    assert_eq!(answered(b"outcome\t9000\t0\t1000\t4294967295\n"), "3\t1\t0\t0\t0\n");
}

/// The request counts: nine numbers, malformed in the ways of judge.
#[test]
fn counts_request() {
    assert_eq!(answered(b"counts\t8192\t0\n"), "3\t1\t0\t0\t0\t0\t0\t0\t0\n");
    assert_eq!(answered(b"counts\t0\t2\nab"), "1\t0\t0\t0\t0\t0\t0\t0\t0\n");
    let bad: [&[u8]; 10] = [
        b"counts\t8192\n",
        b"counts\t8192\t0",
        b"counts\t8192\t0\t\n",
        b"counts\t8192\t0\t0\n",
        b"counts\t08192\t0\n",
        b"count\t8192\t0\n",
        b"Counts\t8192\t0\n",
        b"counts\t9001\t0\n",
        b"counts\t1\t65537\n",
        b"counts\t1\t3\nab",
    ];
    for request in bad {
        assert_eq!(after_good(request), "3\t1\t0\t0\t0\t0\t0\nrequest\n", "{request:?}");
    }
}

/// Follow-up C-17: boards to 19 by 19, columns a to s, cells to 361.
#[test]
fn boards_to_nineteen() {
    for (columns, rows, wanted) in [(19, 1, 0), (14, 1, 0), (20, 1, 3), (21, 1, 3), (1, 20, 3)] {
        assert_eq!(
            sample(&format!("hex {columns} {rows} D / m a1 0"))[0],
            wanted,
            "{columns} by {rows}"
        );
    }
    assert_eq!(counts("hex 1 19 A / m a19 0"), (1, 0, 1));
    assert_eq!(counts("hex 19 1 D / m s1 0"), (1, 0, 1));
    assert_eq!(sample("hex 19 1 D / m t1 0"), [5, 2, 0, 0]);
    assert_eq!(sample("hex 1 19 A / m a20 0"), [5, 2, 0, 0]);
    assert_eq!(sample("hex 19 19 D / m s19 0"), [13, 0, 0, 0]);
    assert_eq!(sample("hex 19 19 D / m t19 0"), [5, 2, 0, 0]);
    assert_eq!(sample("hex 19 19 D / m s20 0"), [5, 2, 0, 0]);
    assert_eq!(sample("hex 19 19 D / m s100 0"), [4, 2, 0, 0]);
    assert_eq!(sample("hex 19 19 D / m { 0"), [4, 2, 0, 0]);
    assert_eq!(listed("hex 19 19 D / m s19 1 / w 2 / m a1 0 / m b1 0", 1, 2), (0, vec![2, 361]));
    assert_eq!(played(WIDE, &[38]).1, vec![20]);
    assert_eq!(refused(WIDE, &[39]), (16, 1, false));
    let tall = sheet::read(&text("hex 19 19 D / m - 1 / w 2 / m a1 0 / m b1 0")).expect("a sheet");
    assert_eq!((tall.board.size(), tall.board.number(19, 19)), (361, 361));
    let mut game = Game::start(&tall);
    assert_eq!((game.refusal(361), game.refusal(362)), (None, Some(Verdict::NoSuchCell)));
    game.answer(361);
    assert_eq!(game.stones(), (&[1][..], &[361][..]));
}

/// Follow-up C-11, reading 1: the set-up part is a run of lines, and later ones are node lines.
#[test]
fn set_up_part() {
    assert_eq!(counts("hex 2 2 D / own b1 / m - 1 / w 2 / m a2 0 / m b2 0"), (3, 1, 2));
    assert_eq!(counts("hex 2 2 D / opp a1 / own b1 / m - 1 / w 2 / m a2 0 / m b2 0"), (3, 1, 2));
    assert_eq!(counts("hex 3 1 D / own a1 / opp b1 / own c1 / m - 0"), (1, 0, 1));
    for line in ["own", "own ", "own -", "own a", "own a0", "own a01", "own a100", "own A1"] {
        assert_eq!(sample(&format!("hex 2 2 D / {line} / m b1 0")), [4, 2, 0, 0], "{line}");
        let opp = line.replace("own", "opp");
        assert_eq!(sample(&format!("hex 2 2 D / opp a1 / {opp}")), [4, 3, 0, 0], "{opp}");
    }
    for line in ["own a1 0", "own a1 ", "owns a1", "Own a1", "ow a1", "opp: a1", "own\r a1"] {
        assert_eq!(sample(&format!("hex 2 2 D / own b1 / {line} / x")), [4, 3, 0, 0], "{line}");
    }
    for cell in ["c1", "a3", "z99", "t1", "a20"] {
        assert_eq!(sample(&format!("hex 2 2 D / opp {cell} / x")), [5, 2, 0, 0]);
        assert_eq!(verdict(&half(&format!("hex 2 2 D / opp {cell}"))), [4, 2, 0, 0]);
    }
    for end in ["own", "opp a1", "own c1", "own b2"] {
        assert_eq!(verdict(&half(&format!("hex 2 2 D / own b2 / {end}"))), [4, 3, 0, 0], "{end}");
    }
    assert_eq!(sample("hex 2 2 D / own a1 / opp b1"), [8, 4, 0, 0]);
    assert_eq!(verdict(b"own\ta1\nhex\t2\t2\tD\n"), [3, 1, 0, 0]);
}

/// Reading 1, further: set-up lines in the tree, after it and in the 2,049th place.
#[test]
fn set_up_lines_elsewhere() {
    assert_eq!(sample("hex 2 2 D / m b1 1 / own a1 / w 2"), [4, 3, 0, 0]);
    assert_eq!(sample("hex 2 2 D / m b1 1 / w 2 / m a2 0 / opp a1 / m b2 0"), [4, 5, 0, 0]);
    assert_eq!(sample("hex 2 2 D / own a1 / m b1 1 / opp c1 / w 2"), [4, 4, 0, 0]);
    assert_eq!(sample(&format!("{P1} / own a1")), [9, 6, 0, 0]);
    assert_eq!(sample(&format!("{P1} / opp")), [9, 6, 0, 0]);
    let with = |set_up: &str, moves: usize, tail: &str| {
        let mut text = text(&format!("hex 13 1 D / {set_up}m a1 1 / w {moves}"));
        (0..2_046).for_each(|place| text.extend([&b"m\tb1\t0\n"[..], b"m\tc1\t0\n"][place % 2]));
        text.extend(tail.bytes());
        verdict(&text)
    };
    assert_eq!(with("", 2_047, "own\td1\n"), [6, 2_050, 0, 0]);
    assert_eq!(with("", 2_047, "opp"), [6, 2_050, 0, 0]);
    assert_eq!(with("", 2_046, "own\td1\n"), [9, 2_050, 0, 0]);
    assert_eq!(with("own d1 / opp e1 / ", 2_046, ""), [24, 5, 0, 0]);
    assert_eq!(with("own d1 / opp e1 / ", 2_047, ""), [8, 2_052, 0, 0]);
    assert_eq!(with("own d1 / opp e1 / ", 2_047, "x"), [6, 2_052, 0, 0]);
}

/// Reading 2, first half: 19 at the second line with the cell, after 4 and 5 of that line.
#[test]
fn set_up_cells_twice() {
    assert_eq!(sample("hex 2 2 D / own a1 / own a1 / zz"), [19, 3, 1, 0]);
    assert_eq!(sample("hex 2 2 D / own a1 / opp a1"), [19, 3, 1, 0]);
    assert_eq!(sample("hex 2 2 D / opp b2 / own a1 / own b2 / own a1 / m - 0"), [19, 4, 4, 0]);
    assert_eq!(sample("hex 2 2 D / opp b1 / opp b1"), [19, 3, 2, 0]);
    assert_eq!(sample("hex 2 2 D / own a1 / own c1 / own a1"), [5, 3, 0, 0]);
    assert_eq!(sample("hex 2 2 D / own a1 / own c1 / own c1"), [5, 3, 0, 0]);
    assert_eq!(sample("hex 2 2 D / own a1 / own a01"), [4, 3, 0, 0]);
    assert_eq!(verdict(&half("hex 2 2 D / own a1 / own a1")), [4, 3, 0, 0]);
    assert_eq!(sample("hex 2 2 D / own a1 / own a1 / m a1 0"), [19, 3, 1, 0]);
    let cell =
        |place: usize| format!("{}{}", char::from(b'a' + (place % 19) as u8), place / 19 + 1);
    let lines = |count: usize| -> String {
        let word = |place: usize| if place % 3 == 0 { "opp" } else { "own" };
        (0..count).map(|place| format!(" / {} {}", word(place), cell(place % 361))).collect()
    };
    assert_eq!(sample(&format!("hex 19 19 D{}", lines(361))), [8, 363, 0, 0]);
    assert_eq!(sample(&format!("hex 19 19 D{}", lines(400))), [19, 363, 1, 0]);
    assert_eq!(sample(&format!("hex 19 19 D{} / m s19 0", lines(361))), [20, 363, 361, 0]);
    let own = lines(361).replace("opp", "own");
    assert_eq!(counts(&format!("hex 19 19 D{own} / m - 0")), (1, 0, 1));
}

/// Reading 2, second half: 20 at the first move on a stone of either side, after the reading, before 10.
#[test]
fn tree_on_set_up_stones() {
    for side in ["own", "opp"] {
        assert_eq!(sample(&P1.replace("D /", &format!("D / {side} b2 /"))), [20, 6, 4, 0]);
        assert_eq!(sample(&P1.replace("D /", &format!("D / {side} b1 /"))), [20, 3, 2, 0]);
        let p4 = P1.replace("b2", "b1");
        assert_eq!(sample(&p4.replace("D /", &format!("D / {side} a1 /"))), [10, 3, 2, 0]);
        assert_eq!(sample(&p4.replace("D /", &format!("D / {side} a2 /"))), [20, 5, 3, 0]);
    }
    assert_eq!(sample(&P1.replace("D /", "D / own b2 / opp a2 /")), [20, 6, 3, 0]);
    let later = "hex 3 1 D / opp a1 / own c1 / m - 1 / w 2 / m c1 0 / m a1 0";
    assert_eq!(sample(later), [20, 6, 3, 0]);
    assert_eq!(sample("hex 2 2 D / own b1 / m b1 1 / w 1 / m a2 0"), [20, 3, 2, 0]);
    assert_eq!(sample("hex 2 2 D / own b1 / m b1 1 / x"), [4, 4, 0, 0]);
    assert_eq!(sample("hex 2 2 D / own b1 / m b1 1 / w 2"), [8, 5, 0, 0]);
    assert_eq!(sample("hex 2 2 D / own b1 / m b1 0 / "), [9, 4, 0, 0]);
    let on = "hex 2 2 D / own b1 / m b1 0";
    assert_eq!((listed(on, 9, 0).0, refused(on, &[0])), (20, (20, 0, false)));
    let many = twos(17).replace("D /", "D / opp m13 /");
    assert_eq!(sample(&many), [12, 0, 0, 0]);
    assert_eq!(sample(&many.replace("m13", "a1")), [20, 5, 1, 0]);
}

/// Reading 3: set-up lines count as lines, not as nodes.
#[test]
fn set_up_lines_and_nodes() {
    assert_eq!(sample("hex 2 2 D / own a1 / opp a2 / m c1 0"), [5, 4, 0, 0]);
    assert_eq!(sample("hex 2 2 D / own a1 / opp a2 / m - 1 / w 1 / m b1 0"), [11, 5, 2, 0]);
    let p5 = "hex 3 2 D / own c1 / m b1 2 / w 2 / m a2 0 / m b2 0 / w 2 / m a1 0 / m a2 0";
    assert_eq!(sample(p5), [10, 3, 4, 0]);
    let mut deep = b"hex\t3\t1\tD\nown\tb1\nopp\tc1\n".to_vec();
    for level in 1..=128 {
        deep.extend(if level % 2 == 1 { &b"m\ta1\t1\n"[..] } else { b"w\t1\n" });
    }
    assert_eq!(verdict(&deep), [8, 132, 0, 0]);
    deep.extend(b"m\ta1\t0\n");
    assert_eq!(verdict(&deep), [7, 132, 0, 0]);
}

/// Reading 4: own stones count in outcomes and in play, opponent stones are taken from the start.
#[test]
fn play_from_set_up_stones() {
    let done = |answers, over| Played { verdict: Verdict::Done, place: 0, answers, over };
    let joined = "hex 2 2 D / own b1 / own b2 / m - 0";
    assert_eq!(counts(joined), (1, 0, 1));
    assert_eq!(played(joined, &[]), (done(0, true), vec![]));
    assert_eq!(refused(joined, &[1]), (15, 1, false));
    assert_eq!(refused(joined, &[0]), (15, 1, false));
    let unfair = "hex 2 2 D / own b1 / own b2 / m - 1 / w 1 / m a1 0";
    assert_eq!(sample(unfair), [11, 5, 1, 0]);
    assert_eq!(sample("hex 2 2 D / opp b1 / opp b2 / m - 0"), [13, 0, 0, 0]);
    assert_eq!(sample("hex 2 2 D / own a1 / m - 1 / w 2 / m a2 0 / m b2 0"), [13, 0, 0, 1]);
    assert_eq!(sample("hex 2 2 D / opp b1 / m - 1 / w 2 / m a2 0 / m b2 0"), [13, 0, 0, 0]);
    let bridge = "hex 3 2 D / own b1 / opp c1 / m - 1 / w 2 / m a2 0 / m b2 0";
    assert_eq!(played(bridge, &[]), (done(0, false), vec![]));
    assert_eq!(played(bridge, &[4]), (done(1, true), vec![5]));
    assert_eq!(played(bridge, &[5]), (done(1, true), vec![4]));
    assert_eq!(played(bridge, &[6]), (done(1, true), vec![4]));
    assert_eq!(refused(bridge, &[2]), (17, 1, false));
    assert_eq!(refused(bridge, &[3]), (17, 1, false));
    assert_eq!(refused(bridge, &[7]), (16, 1, false));
    assert_eq!(refused(bridge, &[4, 3]), (15, 2, false));
    let column = "hex 1 4 D / own a2 / own a4 / m a1 1 / w 1 / m a3 0";
    assert_eq!(sample(column), [11, 5, 3, 0]);
    assert_eq!(played("hex 1 3 D / own a3 / own a1 / m a2 0", &[]), (done(0, true), vec![]));
}

/// Reading 5: outcome lists own stones too, 14 compares with all, and the counts are the tree's.
#[test]
fn outcomes_with_set_up_stones() {
    let bridge = "hex 3 2 D / opp c1 / own b1 / own c2 / m - 1 / w 2 / m a2 0 / m b2 0";
    assert_eq!(counts(bridge), (3, 1, 2));
    assert_eq!(listed(bridge, 0, 3), (0, vec![2, 4, 6]));
    assert_eq!(listed(bridge, 1, 9), (0, vec![2, 5, 6]));
    assert_eq!(listed(bridge, 1, 2), (14, vec![]));
    assert_eq!(listed(bridge, 1, 0), (14, vec![]));
    assert_eq!(listed(bridge, 2, 0), (18, vec![]));
    assert_eq!(listed("hex 2 2 D / own b2 / own a1 / m - 0", 0, 2), (0, vec![1, 4]));
    assert_eq!(listed("hex 2 2 D / own b2 / own a1 / m - 0", 0, 1), (14, vec![]));
    assert_eq!(listed("hex 2 2 D / opp b2 / opp a1 / m - 0", 0, 0), (0, vec![]));
    assert_eq!(listed("hex 2 2 D / own b2 / own b2 / m - 0", 0, 0), (19, vec![]));
    let shared = "hex 4 1 D / own a1 / m - 2 / w 2 / m b1 0 / m c1 0 / w 2 / m d1 0 / m b1 0";
    assert_eq!(listed(shared, 0, 9), (10, vec![]));
}

/// The last cell of 19 by 19 as an opponent's move that is answered, and the number after it.
#[test]
fn last_cell_of_nineteen() {
    let own: String = (1..=18).map(|row| format!(" / own j{row}")).collect();
    let last = format!("hex 19 19 D{own} / m - 1 / w 2 / m i19 0 / m j19 0");
    assert_eq!(counts(&last), (3, 1, 2));
    assert_eq!(played(&last, &[361]).1, vec![351]);
    assert_eq!(refused(&last, &[362]), (16, 1, false));
    assert_eq!(refused(&last, &[10]), (17, 1, false));
    let cells = listed(&last, 1, 19).1;
    assert_eq!((cells.len(), cells[0], cells[18]), (19, 10, 352));
}

/// Follow-up C-20, reading 31: any two moves of a wait whose lines, with all lines under them, are the same.
#[test]
fn same_branches() {
    let root = "hex 9 1 D / m - 1";
    let bridge = "w 2 / m c1 0 / m d1 0";
    for wait in ["w 2 / m a1 0 / m a1 0", "w 3 / m a1 0 / m a1 0 / m b1 0"] {
        assert_eq!(sample(&format!("{root} / {wait}")), [24, 3, 0, 0]);
    }
    for order in [["a1", "b1", "a1"], ["b1", "a1", "a1"]] {
        let branches = order.map(|cell| format!(" / m {cell} 1 / {bridge}")).concat();
        assert_eq!(sample(&format!("{root} / w 3{branches}")), [24, 3, 0, 0]);
    }
    let below = format!("{root} / w 2 / m a1 0 / m b1 1 / w 3 / m c1 0 / m d1 0 / m c1 0");
    assert_eq!(sample(&below), [24, 6, 0, 0]);
    let second = "hex 9 1 D / m - 2 / w 2 / m a1 0 / m b1 0 / w 3 / m c1 0 / m d1 0 / m d1 0";
    assert_eq!(sample(second), [24, 6, 0, 0]);
    assert_eq!(sample(&second.replace("m - 2", "m i1 2").replace("D", "A")), [24, 6, 0, 0]);
    let twin = "m b1 1 / w 3 / m c1 0 / m c1 0 / m d1 0";
    assert_eq!(sample(&format!("{root} / w 3 / m a1 0 / {twin} / {twin}")), [24, 3, 0, 0]);
    let later = "m a1 1 / w 2 / m e1 0 / m f1 0";
    let two = format!("{root} / w 4 / {twin} / {later} / m c1 0 / {later}");
    assert_eq!(sample(&two), [24, 3, 0, 0]);
    assert_eq!(
        sample(&two.replace("m e1 0 / m f1 0 / m c1 0", "m f1 0 / m e1 0 / m c1 0")),
        [24, 5, 0, 0]
    );
}

/// Branches that are nearly the same: another cell, count or order somewhere, and the same lines under two waits.
#[test]
fn unlike_branches() {
    let with = |one: &str, other: &str| {
        sample(&format!("hex 9 1 D / m - 1 / w 3 / {one} / {other} / m i1 0"))[0]
    };
    let branch = "m a1 2 / w 2 / m c1 0 / m d1 0 / w 2 / m e1 0 / m f1 0";
    assert_eq!(with(branch, branch), 24);
    for (old, new) in [("m f1 0", "m g1 0"), ("m c1 0", "m g1 0"), ("m a1 2", "m b1 2")] {
        assert_eq!(with(branch, &branch.replace(old, new)), 0, "{new}");
    }
    assert_eq!(with(branch, &branch.replace("m c1 0 / m d1 0", "m d1 0 / m c1 0")), 0);
    assert_eq!(with(branch, "m a1 1 / w 2 / m c1 0 / m d1 0"), 0);
    assert_eq!(with("m a1 0", "m a1 1 / w 2 / m c1 0 / m d1 0"), 0);
    let low = "m a1 1 / w 3 / m b1 1 / w 2 / m c1 0 / m d1 0 / m e1 0 / m f1 0";
    let high = "m a1 1 / w 2 / m b1 1 / w 3 / m c1 0 / m d1 0 / m e1 0 / m f1 0";
    assert_eq!((with(low, high), with(high, high)), (0, 24));
    let shared =
        "hex 9 1 D / m - 1 / w 2 / m a1 1 / w 2 / m c1 0 / m d1 0 / m b1 1 / w 2 / m c1 0 / m d1 0";
    assert_eq!(sample(shared), [11, 3, 3, 0]);
}

/// The place of 24: after 20 and 10 wherever they are, before 11, 12 and 13; and by all three entries.
#[test]
fn order_of_same_branches() {
    let twins = "w 2 / m a1 0 / m a1 0";
    assert_eq!(sample(&format!("hex 9 2 D / m - 2 / {twins} / w 1 / m b1 0")), [24, 3, 0, 0]);
    assert_eq!(sample(&format!("hex 9 2 D / m - 2 / w 1 / m b1 0 / {twins}")), [24, 5, 0, 0]);
    let apart = "w 2 / m b1 1 / w 2 / m b1 0 / m c1 0 / m d1 0";
    assert_eq!(sample(&format!("hex 9 2 D / m - 2 / {twins} / {apart}")), [10, 7, 2, 0]);
    assert_eq!(sample(&format!("hex 9 2 D / m - 2 / {apart} / {twins}")), [10, 4, 2, 0]);
    assert_eq!(sample("hex 9 2 D / m a1 1 / w 2 / m a1 0 / m a1 0"), [10, 2, 1, 0]);
    for (stone, wanted) in [("a1", [20, 5, 1, 0]), ("i2", [24, 4, 0, 0])] {
        assert_eq!(sample(&format!("hex 9 2 D / opp {stone} / m - 1 / {twins}")), wanted);
    }
    assert_eq!(sample(&format!("hex 9 2 D / m - 1 / {twins} / x")), [9, 6, 0, 0]);
    assert_eq!(sample("hex 9 2 D / m - 1 / w 3 / m a1 0 / m a1 0"), [8, 6, 0, 0]);
    let many = twos(17).replace("m b1 0", "m a1 0");
    assert_eq!(sample(&many), [24, 3, 0, 0]);
    let unjoined = format!("hex 9 2 D / m - 1 / {twins}");
    assert_eq!((listed(&unjoined, 9, 0).0, refused(&unjoined, &[0])), (24, (24, 0, false)));
    let joined = format!("hex 9 1 D / own b1 / own c1 / m - 1 / {twins}");
    assert_eq!((sample(&joined), listed(&joined, 0, 9).0), ([24, 5, 0, 0], 24));
    assert_eq!(refused(&joined, &[9]), (24, 0, false));
}

/// Writes a wait of so many single moves on 19 by 19 under a root without a stone, each on the cell that `cell` gives its place.
fn single_moves(count: usize, cell: impl Fn(usize) -> usize) -> String {
    let name = |at: usize| format!("{}{}", char::from(b'a' + (at % 19) as u8), at / 19 + 1);
    let moves: String = (0..count).map(|place| format!(" / m {} 0", name(cell(place)))).collect();
    format!("hex 19 19 D / m - 1 / w {count}{moves}")
}

/// Writes a sheet of 2,048 nodes with one wait under its root: two single moves, 510 unlike branches of four lines, and another.
fn full_size(last: &str) -> String {
    let triples = (0..1_000).map(|place| [place / 100, place / 10 % 10, place % 10]);
    let unlike = triples.filter(|[one, two, three]| one != two && two != three && one != three);
    let mut sample = "hex 19 1 D / m - 1 / w 513 / m a1 0 / m b1 0".to_string();
    for triple in unlike.take(510) {
        let [one, two, three] = triple.map(|at: usize| char::from(b'c' + at as u8));
        sample += &format!(" / m {one}1 1 / w 2 / m {two}1 0 / m {three}1 0");
    }
    format!("{sample} / {last}")
}

/// The same branch at the limits: 361 unlike single moves, one more, 2,046 of them, and the last lines of 2,048 nodes.
#[test]
fn same_branches_at_limits() {
    assert_eq!(sample(&single_moves(361, |place| place)), [13, 0, 0, 0]);
    assert_eq!(sample(&single_moves(362, |place| place % 361)), [24, 3, 0, 0]);
    assert_eq!(sample(&single_moves(2_046, |place| place % 361)), [24, 3, 0, 0]);
    assert_eq!(sample(&single_moves(2_046, |place| place.min(360))), [24, 3, 0, 0]);
    let stones = single_moves(360, |place| place).replace("D /", "D / own s19 /");
    assert_eq!(sample(&stones), [13, 0, 0, 0]);
    assert_eq!(sample(&stones.replace("m r19 0", "m a1 0")), [24, 4, 0, 0]);
    let last = "m q1 1 / w 2 / m r1 0 / m s1 0";
    assert_eq!(counts(&full_size(last)), (1_536, 512, 2));
    assert_eq!(sample(&full_size(&last.replace("s1", "r1"))), [24, 2_047, 0, 0]);
    for (cells, wanted) in
        [(["c1", "d1", "e1"], 24), (["c1", "d1", "m1"], 0), (["l1", "k1", "j1"], 0)]
    {
        let [one, two, three] = cells;
        let branch = format!("m {one} 1 / w 2 / m {two} 0 / m {three} 0");
        assert_eq!(sample(&full_size(&branch))[0], wanted, "{branch}");
    }
}

/// Gives the counts of moves, waits and outcomes of an accepted sample, and of the moves that are not live.
fn live(sample: &str) -> (usize, usize, usize, usize) {
    let (moves, waits, outcomes) = counts(sample);
    (moves, waits, outcomes, judged(&text(sample)).idle)
}

/// Follow-up C-16, reading 25: a move is live if it is the first under its wait or some cell common to all moves before it isn't in it.
#[test]
fn live_moves() {
    assert_eq!((live(P1), live(P6), live(P8)), ((3, 1, 2, 0), (1, 0, 1, 0), (7, 3, 8, 0)));
    let row = |wait: &str| live(&format!("hex 9 1 D / m - 1 / {wait}"));
    assert_eq!(row("w 3 / m a1 0 / m b1 0 / m c1 0"), (4, 1, 2, 1));
    let first = "m a1 1 / w 2 / m b1 0 / m c1 0";
    assert_eq!(row(&format!("w 3 / {first} / m b1 0 / m c1 0")), (6, 2, 4, 0));
    assert_eq!(row(&format!("w 3 / m b1 0 / {first} / m c1 0")), (6, 2, 2, 1));
    let deep = "m d1 1 / w 2 / m a1 0 / m e1 0";
    assert_eq!(row(&format!("w 3 / m a1 0 / {deep} / m b1 0")), (6, 2, 2, 1));
    assert_eq!(row(&format!("w 3 / {deep} / m a1 0 / m b1 0")), (6, 2, 4, 0));
    let second = "m b1 1 / w 2 / m c1 0 / m d1 0";
    let third = "m c1 1 / w 2 / m b1 0 / m e1 0";
    assert_eq!(row(&format!("w 4 / {first} / {second} / {third} / m f1 0")), (11, 4, 5, 1));
    assert_eq!(row(&format!("w 4 / {second} / {third} / {first} / m f1 0")), (11, 4, 5, 1));
    let with_spare = "m a1 1 / w 3 / m b1 0 / m c1 0 / m d1 0";
    let without = "m b1 1 / w 2 / m a1 0 / m c1 0";
    assert_eq!(row(&format!("w 3 / {with_spare} / {without} / m e1 0")), (9, 3, 5, 1));
    assert_eq!(row(&format!("w 3 / {without} / {with_spare} / m e1 0")), (9, 3, 3, 2));
}

/// Reading 25, further: each move that is not live is counted wherever it stands, and no live move below one.
#[test]
fn idle_moves() {
    assert_eq!(live(SPARE), (7, 2, 2, 2));
    assert_eq!(live(&SPARE.replace("w 3 / m d1", "w 2 / m d1").replace(" / m f1 0", "")).3, 1);
    let under = "m c1 1 / w 3 / m d1 0 / m e1 0 / m f1 1 / w 4 / m g1 0 / m h1 0 / m i1 0 / m d1 0";
    let nested = format!("hex 9 1 D / m - 1 / w 3 / m a1 0 / m b1 0 / {under}");
    assert_eq!(live(&nested), (11, 3, 2, 4));
    let two = "hex 9 1 D / m - 2 / w 3 / m a1 0 / m b1 0 / m c1 0 / w 3 / m d1 0 / m e1 0 / m f1 0";
    assert_eq!(live(two), (7, 2, 4, 2));
    let stones = SPARE.replace("D /", "D / own i1 / opp h1 /");
    assert_eq!(live(&stones), (7, 2, 2, 2));
}

/// Writes a wait of two single moves and a third with sixteen waits of two, on 19 by 2 where two own stones join; the third first if so asked.
fn heavy(third_first: bool) -> String {
    let cell =
        |place: usize| format!("{}{}", char::from(b'b' + (place % 18) as u8), place / 18 + 1);
    let pairs = (0..16).map(|pair| (cell(3 + 2 * pair), cell(4 + 2 * pair)));
    let pairs: String =
        pairs.map(|two| format!(" / w 2 / m {} 0 / m {} 0", two.0, two.1)).collect();
    let third = format!("m d1 16{pairs}");
    let [singles, root] = ["m b1 0 / m c1 0", "hex 19 2 D / own a1 / own a2 / m - 1 / w 3"];
    match third_first {
        true => format!("{root} / {third} / {singles}"),
        false => format!("{root} / {singles} / {third}"),
    }
}

/// Reading 26: 12, 13 and 18, and the outcomes' numbers, go by live moves.
#[test]
fn live_outcomes() {
    assert_eq!(live(&heavy(false)), (36, 17, 2, 1));
    assert_eq!((sample(&heavy(true)), listed(&heavy(true), 0, 99).0), ([12, 0, 0, 0], 12));
    let one_less = heavy(true).replace("m d1 16 / w 2 / m e1 0 / m f1 0", "m d1 15");
    assert_eq!(live(&one_less), (34, 16, 32_769, 1));
    assert_eq!(
        (listed(&heavy(false), 1, 3).1, listed(&heavy(false), 2, 3).0),
        (vec![1, 3, 20], 18)
    );
    assert_eq!((listed(&one_less, 32_768, 3).0, listed(&one_less, 32_769, 3).0), (0, 18));
    let spare = "hex 2 2 D / m b1 1 / w 3 / m a2 0 / m b2 0 / m a1 0";
    assert_eq!(live(spare), (4, 1, 2, 1));
    assert_eq!(
        sample(&spare.replace("m a2 0 / m b2 0 / m a1 0", "m a2 0 / m a1 0 / m b2 0")),
        [13, 0, 0, 1]
    );
    let between = "hex 2 2 D / m a1 1 / w 3 / m a2 0 / m b1 1 / w 2 / m a2 0 / m b2 0 / m b2 0";
    assert_eq!(sample(between), [13, 0, 0, 1]);
    assert_eq!((listed(between, 0, 2).1, listed(between, 1, 2).1), (vec![1, 3], vec![1, 4]));
    assert_eq!((listed(between, 2, 0).0, listed(between, 3, 9).0), (18, 18));
    assert_eq!(refused(between, &[0]), (13, 0, false));
}

/// Reading 26, further: 10, 11, 20, 24 and the answering rule see every line.
#[test]
fn every_line() {
    let third = |set_up: &str, third: &str| {
        sample(&format!("hex 9 1 D / {set_up}m - 1 / w 3 / m a1 0 / m b1 0 / {third}"))
    };
    assert_eq!(third("", "m c1 1 / w 2 / m c1 0 / m d1 0"), [10, 6, 3, 0]);
    assert_eq!(third("", "m c1 1 / w 1 / m d1 0"), [11, 7, 4, 0]);
    assert_eq!(third("", "m c1 1 / w 2 / m d1 0 / m d1 0"), [24, 7, 0, 0]);
    assert_eq!(third("", "m b1 0"), [24, 3, 0, 0]);
    assert_eq!(third("opp c1 / ", "m c1 0"), [20, 7, 3, 0]);
    let shared = "hex 9 1 D / m - 2 / w 3 / m a1 0 / m b1 0 / m c1 0 / w 2 / m c1 0 / m d1 0";
    assert_eq!(sample(shared), [10, 2, 3, 0]);
    let one = "m a1 1 / w 3 / m b1 0 / m c1 0 / m d1 0";
    let other = "m e1 1 / w 3 / m f1 0 / m g1 0 / m d1 0";
    assert_eq!(sample(&format!("hex 9 1 D / m - 1 / w 2 / {one} / {other}")), [11, 3, 4, 0]);
    let touched = "hex 9 2 D / m b1 2 / w 2 / m d1 0 / m e1 0 / w 3 / m a2 0 / m b2 0 / m f1 0";
    assert_eq!(live(touched), (6, 2, 4, 1));
    assert_eq!(played(touched, &[6]).1, vec![10]);
    assert_eq!(played(touched, &[9]).1, vec![4]);
    assert_eq!(played(touched, &[10]).1, vec![11]);
}

/// Gives how many outcomes a sample has, and how many of them are passed over.
fn passing(sample: &str) -> (usize, usize) {
    let judged = judged(&text(sample));
    (judged.outcomes, passed(&text(sample), &judged))
}

/// Follow-up C-15: an outcome is passed over if its list begins with the shortest beginning that joins of an outcome with a smaller number; 0 on a refusal.
#[test]
fn passed_over() {
    assert_eq!((passing(P1), passing(P6), passing(P8)), ((2, 0), (1, 0), (8, 3)));
    let bridge = "w 2 / m a2 0 / m b2 0";
    let apart = "w 2 / m a1 0 / m c2 0";
    assert_eq!(passing(&format!("hex 3 2 D / m b1 2 / {bridge} / {apart}")), (4, 2));
    assert_eq!(passing(&format!("hex 3 2 D / m b1 2 / {apart} / {bridge}")), (4, 0));
    assert_eq!(
        passing("hex 5 1 D / m c1 2 / w 2 / m a1 0 / m b1 0 / w 2 / m d1 0 / m e1 0"),
        (4, 3)
    );
    let unjoined = "hex 3 2 D / m b1 2 / w 2 / m a2 0 / m c2 0 / w 2 / m a1 0 / m c1 0";
    assert_eq!((sample(unjoined), passing(unjoined)), ([13, 0, 0, 2], (0, 0)));
}

/// Reading 24: two moves with one cell are unlike, and own set-up stones alone may join; outcomes are of live moves.
#[test]
fn passed_over_further() {
    let one = "m a1 1 / w 2 / m b1 0 / m c1 0";
    let other = "m a1 1 / w 2 / m b1 0 / m d1 0";
    assert_eq!(passing(&format!("hex 5 1 D / m - 1 / w 3 / {one} / {other} / m e1 0")), (5, 2));
    let spare = "m e1 1 / w 2 / m b1 0 / m c1 0";
    assert_eq!(passing(&format!("hex 5 1 D / m - 1 / w 3 / {one} / m d1 0 / {spare}")), (3, 1));
    let two = "w 2 / m a2 0 / m b2 0 / w 2 / m a1 0 / m c2 0";
    assert_eq!(passing(&format!("hex 3 2 D / own b1 / m - 2 / {two}")), (4, 2));
    let against =
        "hex 4 2 D / opp a2 / own c1 / m b1 2 / w 2 / m a1 0 / m d1 0 / w 2 / m b2 0 / m c2 0";
    assert_eq!(passing(against), (4, 0));
    assert_eq!(passing("hex 2 2 D / own b1 / own b2 / m - 1 / w 2 / m a1 0 / m a2 0"), (2, 1));
    assert_eq!((passing(SPARE), passing(&heavy(false))), ((2, 0), (2, 1)));
}
