//! Runs a program by a seed, prints its lines, and judges the certificate of the run.

use ame::{check, sim, Limits, Status};

fn main() {
    let limits = Limits { workers: 2, ..Limits::default() };
    let run = sim(b"(do (async (print 1)) (print 2))", 3, limits);
    print!("{}", String::from_utf8_lossy(&run.lines));
    let judged = check(&run.certificate);
    if judged.status == Status::Valid {
        println!("{} entries", judged.number);
    }
}
