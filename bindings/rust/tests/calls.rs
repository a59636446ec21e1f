//! Each status that is easily had, and room that is too small at first.

use ame::{check, replay, sim, types, version, weak, Fault, Limits, Run, Status};

const TEXT: &[u8] = b"(do (async (print 1)) (print 2))";

fn judged(journal: &str, program: &str) -> (Status, u64, String) {
    let judged = check(format!("{journal}program\n{program}").as_bytes());
    (judged.status, judged.number, String::from_utf8(judged.lines).expect("ASCII"))
}

fn two() -> Limits {
    Limits { workers: 2, ..Limits::default() }
}

fn told(run: Run) -> (Status, u64, String) {
    (run.status, run.number, String::from_utf8(run.lines).expect("ASCII"))
}

#[test]
fn certificates_are_judged() {
    let program = "(do (async (print 1)) (print 2))";
    assert_eq!(judged("ran 0 0 3\nran 0 1 1\n", program), (Status::Valid, 2, "2\n1\nvalid 2\n".to_string()));
    assert_eq!(judged("ran 0 0 2\n", program), (Status::Invalid, 1, "invalid at 1\n".to_string()));
    assert_eq!(judged("ran 0 0\n", program), (Status::BadJournal, 1, "bad journal at 1\n".to_string()));
    assert_eq!(judged("", "(print unit)"), (Status::IllTyped, 7, "types: rule 1 at 7\n".to_string()));
    assert_eq!(check(&[b' '; 1_048_577]).status, Status::Refused);
}

#[test]
fn types_are_checked() {
    assert_eq!(types(TEXT), Ok(()));
    assert_eq!(types(b"(print unit)"), Err(Fault { status: Status::IllTyped, rule: 1, place: 7 }));
    assert_eq!(types(b"(print 1"), Err(Fault { status: Status::Refused, rule: 0, place: 8 }));
}

#[test]
fn a_run_is_repeated_by_its_schedule_and_judged_by_its_certificate() {
    let run = sim(TEXT, 3, two());
    assert_eq!(run.status, Status::Finished);
    assert_eq!(check(&run.certificate).lines, b"2\n1\nvalid 2\n");
    assert_eq!(replay(&run.schedule, two()), run);
}

#[test]
fn other_runs_are_told() {
    assert_eq!(told(sim(b"(blockUntil false)", 0, Limits::default())), (Status::Blocked, 1, "blocked 1\nschedule 0000\n".to_string()));
    assert_eq!(told(sim(TEXT, 65_537, two())), (Status::Usage, 0, "usage\n".to_string()));
    assert_eq!(told(replay(TEXT, two())), (Status::BadSchedule, 0, "bad schedule\n".to_string()));
    assert_eq!(check(&weak(TEXT, 3, 1000).certificate).status, Status::Valid);
}

#[test]
fn long_lines_get_room_in_a_second_call() {
    let program = format!("(do {})", "(print 1000000) ".repeat(1000));
    assert_eq!(judged("ran 0 0 1999\n", &program).2.len(), 8000 + "valid 1\n".len());
    let lines = sim(program.as_bytes(), 0, two()).lines;
    assert!(lines.starts_with(format!("{}finished\nschedule ", "1000000\n".repeat(1000)).as_bytes()));
}

#[test]
fn the_version_is_that_of_the_header() {
    assert_eq!(version(), 2);
}
