//! ame in Rust: certificates are judged, the types of a text are checked, and programs are run.
//!
//! `bindings/c/ame.h` says what each call does. Nothing is kept between calls, so they may be made from several threads at once.

mod raw;

/// How a call ends, by the numbers of `ame`.
#[derive(Clone, Copy, Debug, PartialEq, Eq, Hash)]
pub enum Status {
    Finished,
    Blocked,
    Spent,
    Usage,
    Refused,
    IllTyped,
    DeviceFault,
    NoMemory,
    Tall,
    Valid,
    Invalid,
    BadJournal,
    LongJournal,
    BadSchedule,
    /// A number that this version of the library doesn't return.
    Other(u8),
}

impl Status {
    fn of(number: u8) -> Status {
        match number {
            0 => Status::Finished,
            1 => Status::Blocked,
            2 => Status::Spent,
            3 => Status::Usage,
            5 => Status::Refused,
            6 => Status::IllTyped,
            8 => Status::DeviceFault,
            9 => Status::NoMemory,
            10 => Status::Tall,
            11 => Status::Valid,
            12 => Status::Invalid,
            13 => Status::BadJournal,
            14 => Status::LongJournal,
            17 => Status::BadSchedule,
            other => Status::Other(other),
        }
    }
}

/// What `ame check` prints of a certificate, and the number in its last line.
#[derive(Clone, Debug, PartialEq, Eq)]
pub struct Judged {
    pub status: Status,
    pub number: u64,
    pub lines: Vec<u8>,
}

/// Why a text is no program that the types accept: the rule that it breaks (0 if it isn't ill-typed), and the place.
#[derive(Clone, Copy, Debug, PartialEq, Eq)]
pub struct Fault {
    pub status: Status,
    pub rule: u8,
    pub place: u64,
}

/// The limits of a run, as `--workers`, `--turns` and `--slice` of `ame`.
#[repr(C)]
#[derive(Clone, Copy, Debug, PartialEq, Eq)]
pub struct Limits {
    pub workers: u32,
    pub turns: u32,
    pub slice: u32,
}

impl Default for Limits {
    fn default() -> Limits {
        Limits {
            workers: 1,
            turns: 1_000_000,
            slice: 1_000,
        }
    }
}

/// What `ame` prints of a run, the number of its status, its certificate, and its schedule with the program.
#[derive(Clone, Debug, PartialEq, Eq)]
pub struct Run {
    pub status: Status,
    pub number: u64,
    pub lines: Vec<u8>,
    pub certificate: Vec<u8>,
    pub schedule: Vec<u8>,
}

const FIRST_ROOM: usize = 4096;

/// Returns the version of the library.
pub fn version() -> u32 {
    raw::version()
}

/// Judges a certificate as `ame check` does, with little room first, and again if the lines are longer.
pub fn check(certificate: &[u8]) -> Judged {
    let mut lines = vec![0; FIRST_ROOM];
    loop {
        let (mut number, mut whole) = (0, 0);
        let status = Status::of(raw::check(certificate, &mut lines, &mut number, &mut whole));
        if whole <= lines.len() {
            lines.truncate(whole);
            return Judged {
                status,
                number,
                lines,
            };
        }
        lines.resize(whole, 0);
    }
}

/// Checks the text of a program.
pub fn types(text: &[u8]) -> Result<(), Fault> {
    let (mut rule, mut place) = (0, 0);
    match raw::types(text, &mut rule, &mut place) {
        0 => Ok(()),
        number => Err(Fault {
            status: Status::of(number),
            rule,
            place,
        }),
    }
}

/// Runs a program under the choices of a seed, as `ame sim` does.
pub fn sim(text: &[u8], seed: u32, limits: Limits) -> Run {
    run(|rooms, whole| raw::sim(text, seed, &limits, rooms, whole))
}

/// Runs a program again by a schedule, as `ame replay` does. `Run::schedule` has both.
pub fn replay(scheduled: &[u8], limits: Limits) -> Run {
    run(|rooms, whole| raw::replay(scheduled, &limits, rooms, whole))
}

/// Runs a program under the weak semantics with a limit of turns, as `ame weak` does. There is no schedule.
pub fn weak(text: &[u8], seed: u32, turns: u32) -> Run {
    run(|rooms, whole| raw::weak(text, seed, turns, rooms, whole))
}

/// Makes a call with little room for each text first, and again if one is longer.
fn run(call: impl Fn(&mut [Vec<u8>; 3], &mut raw::Whole) -> u8) -> Run {
    let mut rooms = [vec![0; FIRST_ROOM], vec![0; FIRST_ROOM], vec![0; FIRST_ROOM]];
    loop {
        let mut whole = raw::Whole::default();
        let status = Status::of(call(&mut rooms, &mut whole));
        let lengths = [whole.lines, whole.certificate, whole.schedule];
        let fits = rooms.iter().zip(lengths).all(|(room, length)| length <= room.len());
        for (room, length) in rooms.iter_mut().zip(lengths) {
            room.resize(if fits { length } else { length.max(FIRST_ROOM) }, 0);
        }
        if fits {
            let [lines, certificate, schedule] = rooms;
            return Run {
                status,
                number: whole.number,
                lines,
                certificate,
                schedule,
            };
        }
    }
}
