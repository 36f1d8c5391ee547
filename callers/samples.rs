//! Calls the C library from Rust on the samples of document 01 and on the sheets of sheets/, and compares all that it writes. Run it
//! from the repository's root; tests/c builds it.

extern "C" {
    fn sorbitanque_judge(sheet: *const u8, sheet_length: usize, workspace: *mut u32, workspace_length: usize, details: *mut [u32; 7]);
    fn sorbitanque_counts(sheet: *const u8, sheet_length: usize, workspace: *mut u32, workspace_length: usize, numbers: *mut [u32; 9]);
    fn sorbitanque_play(
        sheet: *const u8,
        sheet_length: usize,
        moves: *const u32,
        moves_length: usize,
        room: *mut u32,
        room_length: usize,
        workspace: *mut u32,
        workspace_length: usize,
        details: *mut [u32; 7],
    );
    fn sorbitanque_outcome(
        sheet: *const u8,
        sheet_length: usize,
        number: u32,
        room: *mut u32,
        room_length: usize,
        workspace: *mut u32,
        workspace_length: usize,
        details: *mut [u32; 7],
    );
}

const WORKSPACE: usize = 8192;
const UNTOUCHED: u32 = 2_000_000_011;

/// The details of judge.
fn judge(sheet: &[u8], workspace: &mut [u32]) -> [u32; 7] {
    let mut details = [UNTOUCHED; 7];
    // The slices are Rust's own, so each pointer is good for its length and nothing that is written overlaps.
    unsafe { sorbitanque_judge(sheet.as_ptr(), sheet.len(), workspace.as_mut_ptr(), workspace.len(), &mut details) };
    details
}

/// The numbers of counts.
fn counts(sheet: &[u8], workspace: &mut [u32]) -> [u32; 9] {
    let mut numbers = [UNTOUCHED; 9];
    // As above.
    unsafe { sorbitanque_counts(sheet.as_ptr(), sheet.len(), workspace.as_mut_ptr(), workspace.len(), &mut numbers) };
    numbers
}

/// The details of play.
fn play(sheet: &[u8], moves: &[u32], room: &mut [u32], workspace: &mut [u32]) -> [u32; 7] {
    let mut details = [UNTOUCHED; 7];
    // As above.
    unsafe {
        sorbitanque_play(
            sheet.as_ptr(),
            sheet.len(),
            moves.as_ptr(),
            moves.len(),
            room.as_mut_ptr(),
            room.len(),
            workspace.as_mut_ptr(),
            workspace.len(),
            &mut details,
        )
    };
    details
}

/// The details of outcome.
fn outcome(sheet: &[u8], number: u32, room: &mut [u32], workspace: &mut [u32]) -> [u32; 7] {
    let mut details = [UNTOUCHED; 7];
    // As above.
    unsafe {
        sorbitanque_outcome(
            sheet.as_ptr(),
            sheet.len(),
            number,
            room.as_mut_ptr(),
            room.len(),
            workspace.as_mut_ptr(),
            workspace.len(),
            &mut details,
        )
    };
    details
}

/// A sheet of sheets/.
fn sheet(name: &str) -> Vec<u8> {
    std::fs::read(format!("sheets/{name}")).unwrap_or_else(|e| panic!("sheets/{name}: {e}"))
}

/// A workspace of some length that was used before; `left` says what it is after a call.
fn used(length: usize) -> Vec<u32> {
    vec![UNTOUCHED; length]
}

fn left(workspace: &[u32]) -> bool {
    let cleared = if workspace.len() < WORKSPACE { 0 } else { WORKSPACE };
    workspace[..cleared].iter().all(|&n| n == 0) && workspace[cleared..].iter().all(|&n| n == UNTOUCHED)
}

/// Plays a sheet with so much room, and compares the details, the answers and the workspace.
fn plays(name: &str, moves: &[u32], room_length: usize, wanted: [u32; 7], answers: &[u32]) {
    let mut workspace = used(WORKSPACE + 5);
    let mut room = vec![UNTOUCHED; room_length];
    let got = play(&sheet(name), moves, &mut room, &mut workspace);
    assert_eq!(got, wanted, "play {name} with {moves:?}");
    assert_eq!(&room[..answers.len()], answers, "play {name} with {moves:?}");
    assert!(room[answers.len()..].iter().all(|&n| n == UNTOUCHED), "the room after play {name} with {moves:?}");
    assert!(left(&workspace), "the workspace after play {name} with {moves:?}");
}

/// Lists an outcome with so much room, and compares the same.
fn lists(name: &str, number: u32, room_length: usize, wanted: [u32; 7], cells: &[u32]) {
    let mut workspace = used(WORKSPACE);
    let mut room = vec![UNTOUCHED; room_length];
    let got = outcome(&sheet(name), number, &mut room, &mut workspace);
    assert_eq!(got, wanted, "outcome {number} of {name}");
    assert_eq!(&room[..cells.len()], cells, "outcome {number} of {name}");
    assert!(room[cells.len()..].iter().all(|&n| n == UNTOUCHED), "the room after outcome {number} of {name}");
    assert!(left(&workspace), "the workspace after outcome {number} of {name}");
}

/// The sheets that a file of sheets/ names, with the numbers beside each.
fn expected(file: &str) -> Vec<(String, Vec<u32>)> {
    let lines = String::from_utf8(sheet(file)).unwrap();
    let row = |line: &str| {
        let mut fields = line.split('\t');
        let name = fields.next().unwrap().to_string();
        (name, fields.map(|n| n.parse().unwrap()).collect())
    };
    let rows: Vec<(String, Vec<u32>)> = lines.lines().map(row).collect();
    assert!(9 <= rows.len());
    rows
}

#[test]
fn judges_the_sheets() {
    for (name, wanted) in expected("expected") {
        for length in [WORKSPACE, WORKSPACE + 5] {
            let mut workspace = used(length);
            assert_eq!(judge(&sheet(&name), &mut workspace)[..], wanted[..], "judge {name}");
            assert!(left(&workspace), "the workspace after judge {name}");
        }
    }
}

#[test]
fn counts_the_sheets() {
    for (name, wanted) in expected("expected_counts") {
        for length in [WORKSPACE, WORKSPACE + 5] {
            let mut workspace = used(length);
            assert_eq!(counts(&sheet(&name), &mut workspace)[..], wanted[..], "counts {name}");
            assert!(left(&workspace), "the workspace after counts {name}");
        }
    }
}

#[test]
fn refuses_a_small_workspace() {
    let mut workspace = used(WORKSPACE - 1);
    let mut room = [UNTOUCHED; 4];
    assert_eq!(judge(&sheet("p1"), &mut workspace), [1, 0, 0, 0, 0, 0, 0]);
    assert_eq!(counts(&sheet("p1"), &mut workspace), [1, 0, 0, 0, 0, 0, 0, 0, 0]);
    assert_eq!(play(&sheet("p1"), &[3], &mut room, &mut workspace), [1, 0, 0, 0, 0, 0, 0]);
    assert_eq!(outcome(&sheet("p1"), 0, &mut room, &mut workspace), [1, 0, 0, 0, 0, 0, 0]);
    assert!(left(&workspace) && room == [UNTOUCHED; 4]);
}

#[test]
fn refuses_long_text() {
    let mut workspace = used(WORKSPACE);
    assert_eq!(judge(&[], &mut workspace), [3, 1, 0, 0, 0, 0, 0]);
    assert_eq!(judge(&[0; 32768], &mut workspace), [3, 1, 0, 0, 0, 0, 0]);
    assert_eq!(judge(&[0; 32769], &mut workspace), [2, 0, 0, 0, 0, 0, 0]);
    assert_eq!(counts(&[], &mut workspace), [3, 1, 0, 0, 0, 0, 0, 0, 0]);
    assert_eq!(counts(&[0; 32769], &mut workspace), [2, 0, 0, 0, 0, 0, 0, 0, 0]);
    assert!(left(&workspace));
}

#[test]
fn plays_the_samples() {
    plays("p1", &[3], 4, [0, 0, 0, 0, 0, 1, 1], &[4]);
    plays("p1", &[3, 1], 4, [15, 0, 0, 0, 2, 0, 0], &[]);
    plays("p8", &[2, 5, 1], 3, [0, 0, 0, 0, 0, 3, 1], &[3, 4, 6]);
    plays("p1", &[1], 1, [0, 0, 0, 0, 0, 1, 1], &[3]);
    plays("p1", &[2], 1, [17, 0, 0, 0, 1, 0, 0], &[]);
    plays("p1", &[5], 1, [16, 0, 0, 0, 1, 0, 0], &[]);
    plays("p6", &[], 0, [0, 0, 0, 0, 0, 0, 1], &[]);
    plays("p6", &[], 3, [0, 0, 0, 0, 0, 0, 1], &[]);
    plays("spare", &[8], 1, [0, 0, 0, 0, 0, 1, 1], &[6]);
    plays("spare19", &[11], 2, [0, 0, 0, 0, 0, 1, 1], &[351]);
}

#[test]
fn refuses_plays() {
    plays("p1", &[0], 1, [16, 0, 0, 0, 1, 0, 0], &[]);
    plays("p1", &[3, 99], 4, [15, 0, 0, 0, 2, 0, 0], &[]);
    plays("p8", &[2, 2], 4, [17, 0, 0, 0, 2, 0, 0], &[]);
    plays("p8", &[2, 5, 1], 2, [14, 0, 0, 0, 0, 0, 0], &[]);
    plays("p2", &[3], 0, [13, 0, 0, 1, 0, 0, 0], &[]);
    plays("p3", &[3], 4, [11, 3, 3, 0, 0, 0, 0], &[]);
    plays("branch_twice", &[1], 0, [24, 32, 0, 0, 0, 0, 0], &[]);
}

#[test]
fn lists_outcomes() {
    lists("p1", 0, 2, [0, 0, 0, 0, 2, 0, 0], &[2, 3]);
    lists("p1", 1, 9, [0, 0, 0, 0, 2, 0, 0], &[2, 4]);
    lists("p8", 0, 3, [0, 0, 0, 0, 3, 0, 0], &[1, 2, 4]);
    lists("p8", 7, 3, [0, 0, 0, 0, 3, 0, 0], &[3, 5, 6]);
    lists("p2", 1, 2, [0, 0, 0, 0, 2, 0, 0], &[1, 4]);
    lists("spare", 1, 2, [0, 0, 0, 0, 2, 0, 0], &[2, 7]);
}

#[test]
fn refuses_outcomes() {
    lists("p1", 2, 9, [18, 0, 0, 0, 0, 0, 0], &[]);
    lists("p1", u32::MAX, 0, [18, 0, 0, 0, 0, 0, 0], &[]);
    lists("p8", 8, 3, [18, 0, 0, 0, 0, 0, 0], &[]);
    lists("p8", 7, 2, [14, 0, 0, 0, 0, 0, 0], &[]);
    lists("p4", 0, 9, [10, 2, 2, 0, 0, 0, 0], &[]);
    lists("branch_twice", 0, 9, [24, 32, 0, 0, 0, 0, 0], &[]);
    lists("seventeen_waits", 0, 200, [12, 0, 0, 0, 0, 0, 0], &[]);
    lists("spare", 2, 9, [18, 0, 0, 0, 0, 0, 0], &[]);
    lists("spare_many", 2, 200, [18, 0, 0, 0, 0, 0, 0], &[]);
}
