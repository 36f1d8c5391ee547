//! Checks of the made-up sheets and of the corpus.

use crate::corpus::{requests, Sizes};
use crate::doubled;
use crate::entries::{judge, WORKSPACE};
use crate::fair::cells_of_move;
use crate::fault;
use crate::grow;
use crate::joining::joins;
use crate::limits;
use crate::links;
use crate::live::{every_move, live_moves};
use crate::maker::{accepted, Maker};
use crate::outcomes::{count_of_move, outcomes_of_move, Taken};
use crate::passing::{count_passed, lists_of_move, shortest};
use crate::plan::{leaf, pair, step, Plan, NONE};
use crate::positions;
use crate::recipes::{LIMITS, SET_UP_DAMAGED, SPARE, STOPPED, TWINS};
use crate::replies;
use crate::requests::{next, write, Ask, Next, BYTES};
use crate::rng::Rng;
use crate::set_up::Side;
use crate::sheet::{self, Move, Sheet};
use crate::solve;
use crate::spare::{self, live_outcomes};
use crate::templates;
use std::io::Cursor;

/// Gives the verdict number of a text.
fn verdict(text: &[u8]) -> usize {
    judge(text, &mut vec![0; WORKSPACE]).verdict.numbers()[0]
}

/// Everything the two searches find is accepted.
#[test]
fn won_boards() {
    let mut rng = Rng::new(5);
    for (columns, rows) in [(2, 2), (3, 2), (4, 4), (5, 5), (7, 4), (9, 7)] {
        let plans = links::plans(columns, rows, 4, 6, &mut rng);
        assert!(!plans.is_empty() && plans.iter().all(accepted), "{columns} by {rows}");
    }
    for (columns, rows, complete) in [(1, 1, true), (3, 2, true), (3, 3, true), (4, 2, false)] {
        let plans = solve::plans(columns, rows, complete, &mut rng);
        assert!(!plans.is_empty() && plans.iter().all(accepted), "{columns} by {rows}");
    }
}

/// Pairings are accepted on boards small enough, for both players.
#[test]
fn pairings() {
    let mut rng = Rng::new(6);
    for rows in 1..=4 {
        for columns in rows + 1..=19 {
            let plan = templates::pairing(columns, rows, &mut rng);
            assert!(accepted(&plan) && accepted(&plan.transposed()), "{columns} by {rows}");
        }
    }
    assert_eq!(verdict(&templates::pairing(19, 18, &mut rng).text()), 12);
}

/// Grown, deepened, idle and slow plans stay accepted.
#[test]
fn grown_plans() {
    let mut maker = Maker::new(7);
    for _ in 0..60 {
        assert!(accepted(&maker.plan(300)));
        assert!(accepted(&maker.deep_plan(300)));
        assert!(accepted(&maker.idle_plan(300)));
        assert!(accepted(&maker.slow_plan(300)));
    }
}

/// Plans that start from a position are accepted, and most have stones of both sides.
#[test]
fn positions_accepted() {
    let mut maker = Maker::new(10);
    let makers: [fn(&mut Maker) -> Plan; 5] = [
        positions::scattered,
        positions::resumed,
        positions::template,
        positions::joined_already,
        positions::crowded,
    ];
    for make in makers {
        let mut with_both = 0;
        for _ in 0..60 {
            let plan = make(&mut maker);
            assert!(accepted(&plan), "{}", String::from_utf8_lossy(&plan.text()));
            let has = |side| plan.stones.iter().any(|stone| stone.0 == side);
            with_both += usize::from(has(Side::Own) && has(Side::Opp));
        }
        assert!(with_both >= 20, "{with_both}");
    }
}

/// Stones on the tree are refused with 20, a cell named twice with 19.
#[test]
fn positions_refused() {
    let mut maker = Maker::new(11);
    for _ in 0..60 {
        let mut plan = positions::resumed(&mut maker);
        positions::repeat(&mut plan, &mut maker.rng);
        assert_eq!(verdict(&plan.text()), if plan.stones.is_empty() { 0 } else { 19 });
        let mut plan = positions::template(&mut maker);
        positions::cover(&mut plan, &mut maker.rng);
        assert_eq!(verdict(&plan.text()), 20);
    }
}

/// Repeated branches are refused with 24, and at the outer wait where one stands within another.
#[test]
fn doubled_plans() {
    let mut maker = Maker::new(12);
    for _ in 0..60 {
        let mut plan = maker.plan(300);
        let changes: [fn(&mut Plan, &mut Rng); 4] =
            [doubled::once, doubled::twice, doubled::nested, doubled::alone];
        let changed = plan.root.waits_below() > 0;
        maker.rng.pick(&changes)(&mut plan, &mut maker.rng);
        assert_eq!(verdict(&plan.text()), if changed { 24 } else { 0 });
        assert_eq!(plan.root.doubled(), changed);
    }
    let rng = &mut maker.rng;
    for plan in [doubled::all_cells_and_one(rng), doubled::widest(rng), doubled::full(rng)] {
        assert_eq!(verdict(&plan.text()), 24);
    }
    let mut plan =
        Plan::new(9, 1, step(NONE, vec![vec![step((1, 1), vec![pair((2, 1), (3, 1))])]]));
    plan.root.waits[0].push(leaf((4, 1)));
    doubled::nested(&mut plan, rng);
    let judged = judge(&plan.text(), &mut vec![0; WORKSPACE]);
    assert_eq!(judged.verdict.numbers(), [24, 3, 0, 0]);
}

/// Branches that are nearly the same are not refused for it.
#[test]
fn nearly_doubled_plans() {
    let mut maker = Maker::new(13);
    let mut changed = 0;
    let changes: [(fn(&mut Plan, &mut Rng), bool); 3] =
        [(doubled::other_counts, true), (doubled::other_order, true), (doubled::other_cell, false)];
    for _ in 0..60 {
        for (change, joined) in changes {
            let mut plan = maker.plan(300);
            let before = plan.clone();
            change(&mut plan, &mut maker.rng);
            changed += usize::from(plan != before);
            let told = verdict(&plan.text());
            assert!(told == 0 || (told == 13 && !joined), "{told}");
        }
        assert!([0, 13].contains(&verdict(&doubled::all_cells(&mut maker.rng).text())));
    }
    assert!(changed >= 90, "{changed}");
}

/// Trees of nearly as many nodes as are allowed have just so many, no branch twice, and are accepted.
#[test]
fn full_trees() {
    let mut maker = Maker::new(14);
    for nodes in (2_040..=2_048).cycle().take(90) {
        let plan = limits::many_nodes(nodes, &mut maker.rng);
        assert_eq!((plan.root.nodes(), plan.root.doubled()), (nodes, false));
        assert!(accepted(&plan));
        let mut plan = maker.base(8).widened(19, 0);
        grow::pad(&mut plan, nodes, &mut maker.rng);
        assert!(accepted(&plan) && !plan.root.doubled());
    }
}

/// The sheets at the limit of outcomes fall on the right side of it.
#[test]
fn outcome_limits() {
    let mut rng = Rng::new(8);
    for _ in 0..6 {
        let made: [(fn(&mut Rng) -> Plan, u128, usize); 3] = [
            (limits::full_outcomes, 65_536, 0),
            (limits::one_fewer, 65_535, 0),
            (limits::one_more, 65_537, 12),
        ];
        for (make, outcomes, wanted) in made {
            let mut plan = make(&mut rng);
            assert_eq!((live_outcomes(&plan), verdict(&plan.text())), (outcomes, wanted));
            spare::add(&mut plan, 3, u128::MAX, &mut rng);
            assert_eq!((live_outcomes(&plan), verdict(&plan.text())), (outcomes, wanted));
        }
        assert_eq!(verdict(&limits::over_outcomes(&mut rng).text()), 12);
    }
}

/// Spare branches are not live, leave a plan accepted whether they join or not, and may be many, deep, or of too many outcomes by document 01's count.
#[test]
fn spare_branches() {
    let mut maker = Maker::new(16);
    let (mut unjoined, mut over, mut again) = (0, 0, 0);
    for _ in 0..100 {
        let before = maker.plan(60);
        let mut plan = before.clone();
        spare::add(&mut plan, 3, 100_000, &mut maker.rng);
        let judged = judge(&plan.text(), &mut vec![0; WORKSPACE]);
        assert_eq!(judged.verdict.numbers()[0], 0, "{}", String::from_utf8_lossy(&plan.text()));
        assert!(judged.idle > 0 || plan == before);
        unjoined += usize::from(!all_join(&plan));
        again += usize::from(live_after_idle(&plan));
        let mut plan = maker.base(60).widened(19, 0);
        spare::add_heavy(&mut plan, &mut maker.rng);
        assert!(accepted(&plan));
        over += usize::from(plan.root.outcomes() > 65_536);
    }
    assert!(unjoined >= 20 && over >= 20 && again >= 20, "{unjoined} {over} {again}");
}

/// Says whether some wait under the root has a live move after one that is not.
fn live_after_idle(plan: &Plan) -> bool {
    let sheet = sheet::read(&plan.text()).expect("made plans can be read");
    sheet.root.waits.iter().any(|wait| {
        let live: Vec<usize> = live_moves(wait).iter().map(|step| step.line).collect();
        let last = live[live.len() - 1];
        wait.moves.iter().any(|step| step.line < last && !live.contains(&step.line))
    })
}

/// Says whether all outcomes join that document 01 counts, or the first hundred thousand.
fn all_join(plan: &Plan) -> bool {
    let sheet = sheet::read(&plan.text()).expect("made plans can be read");
    let outcomes = outcomes_of_move(&sheet.root, 100_000, every_move);
    outcomes.iter().all(|cells| joins(sheet.board, sheet.player, cells))
}

/// The answering rule never gives a move that is not live: what the comment in `live` says.
#[test]
fn rule_gives_live_moves() {
    let mut maker = Maker::new(17);
    for _ in 0..100 {
        let mut plan = maker.plan(60);
        spare::add(&mut plan, 4, 100_000, &mut maker.rng);
        let sheet = sheet::read(&plan.text()).expect("made plans can be read");
        for wait in &sheet.root.waits {
            let live: Vec<usize> = live_moves(wait).iter().map(|step| step.line).collect();
            for cell in 1..=sheet.board.size() {
                let first = wait.moves.iter().find(|step| !cells_of_move(step).contains(&cell));
                assert!(live.contains(&first.expect("an accepted plan is elusive").line));
            }
        }
    }
}

/// As many outcomes are listed as are counted, and the first of them when fewer are wanted.
#[test]
fn counts_and_lists() {
    let mut maker = Maker::new(9);
    for _ in 0..100 {
        let sheet = sheet::read(&maker.plan(300).text()).expect("made plans can be read");
        for taken in [live_moves as Taken, every_move] {
            let all = outcomes_of_move(&sheet.root, 1_000, taken);
            assert_eq!(all.len() as u128, count_of_move(&sheet.root, taken));
            let some = maker.rng.below(all.len()) + 1;
            assert_eq!(outcomes_of_move(&sheet.root, some, taken), all[..some]);
        }
    }
}

/// No sheet is longer than a request can send, also where set-up lines come before a long text.
#[test]
fn sheets_can_be_sent() {
    let mut maker = Maker::new(15);
    for (_, recipe) in
        SET_UP_DAMAGED.iter().chain(&LIMITS).chain(&TWINS).chain(&SPARE).chain(&STOPPED)
    {
        for _ in 0..200 {
            assert!(recipe(&mut maker).len() <= BYTES as usize);
        }
    }
}

/// Requests are read as they were written, the same seed makes the same, every fault answers.
#[test]
fn small_corpus() {
    let sizes = Sizes { seed: 3, judges: 150, plays: 100, outcomes: 80, counts: 60 };
    let made = requests(&sizes);
    let mut bytes = Vec::new();
    for request in &made {
        write(request, &mut bytes).expect("memory never fails");
    }
    let mut input = Cursor::new(bytes);
    for request in requests(&sizes) {
        assert_eq!(next(&mut input).expect("memory never fails"), Next::Request(request));
    }
    assert_eq!(next(&mut input).expect("memory never fails"), Next::End);
    for (chosen, name) in fault::ALL {
        assert_eq!(fault::named(name), Some(chosen));
        fault::set(Some(chosen));
        made.iter().for_each(|request| drop(replies::line(request)));
    }
    fault::set(None);
}

/// In games by accepted sheets every move has one answer, on an empty cell; set-up stones fill theirs.
#[test]
fn one_answer_each() {
    let sizes = Sizes { seed: 4, judges: 0, plays: 400, outcomes: 0, counts: 0 };
    for request in requests(&sizes) {
        let Ask::Play { cells, .. } = &request.ask else {
            continue;
        };
        let reply = replies::numbers(&request);
        if reply[0] == 0 {
            assert_eq!(reply[5], cells.len());
            let theirs = cells.iter().map(|&cell| cell as usize);
            let sheet = sheet::read(&request.text).expect("an accepted sheet can be read");
            let mut stones: Vec<usize> = reply[7..].iter().copied().chain(theirs).collect();
            stones.extend(sheet.set_up.cells(Side::Own).chain(sheet.set_up.cells(Side::Opp)));
            let count = stones.len();
            stones.sort_unstable();
            stones.dedup();
            assert_eq!(stones.len(), count);
        }
    }
}

/// Counts the outcomes that are passed over as the request says it: each list against each with a smaller number.
fn passed_slowly(sheet: &Sheet) -> usize {
    let own: Vec<usize> = sheet.set_up.cells(Side::Own).collect();
    let lists = lists_of_move(&sheet.root, 1_000, live_moves);
    let lines = |list: &[&Move]| list.iter().map(|step| step.line).collect::<Vec<usize>>();
    let begins = |list: &[&Move], other: &[&Move]| {
        let length = shortest(sheet, &own, other).expect("all outcomes join");
        lines(list).starts_with(&lines(&other[..length]))
    };
    let passed = |place: &usize| lists[..*place].iter().any(|other| begins(&lists[*place], other));
    (0..lists.len()).filter(passed).count()
}

/// The outcomes that are passed over are those of the request's words, and sheets are made with many, with few and with none.
#[test]
fn passed_as_defined() {
    let mut maker = Maker::new(18);
    let (mut none, mut few, mut many) = (0, 0, 0);
    for (_, recipe) in STOPPED.iter().cycle().take(210) {
        let text = recipe(&mut maker);
        let judged = judge(&text, &mut vec![0; WORKSPACE]);
        if judged.verdict.numbers()[0] != 0 || judged.outcomes > 300 {
            continue;
        }
        let sheet = sheet::read(&text).expect("an accepted sheet can be read");
        let lists = lists_of_move(&sheet.root, 1_000, live_moves);
        let ascending = |list: &Vec<&Move>| list.windows(2).all(|two| two[0].line < two[1].line);
        assert!(lists.len() == judged.outcomes && lists.iter().all(ascending));
        let passed = count_passed(&sheet, judged.outcomes);
        assert_eq!(passed, passed_slowly(&sheet), "{}", String::from_utf8_lossy(&text));
        match passed {
            0 => none += 1,
            passed if passed * 2 < judged.outcomes => few += 1,
            _ => many += 1,
        }
    }
    assert!(none >= 20 && few >= 5 && many >= 50, "{none} {few} {many}");
}
