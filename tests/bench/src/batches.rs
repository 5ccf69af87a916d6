//! The command's batches: how many sheets a second are read from files and checked, with one job
//! and with one for each core.

use crate::layouts::Layout;
use harness::command;
use harness::folder::Folder;
use std::process::{Command, Stdio};
use std::thread::available_parallelism;
use std::time::Instant;

/// So many files; those that are checked quickly stand in the list several times.
const FILES: usize = 2000;

/// So many runs of each, of which the quickest counts.
const RUNS: usize = 3;

/// Prints the table, if the command is built.
pub fn time((name, sheets, _): &Layout) {
    if let Err(missing) = command::is_built() {
        println!("\nno batches are timed: {missing}");
        return;
    }
    let cores = available_parallelism().map_or(1, usize::from);
    let jobs = format!("{cores} jobs");
    println!("\nSheets a second by the clock, the best of {RUNS} runs.");
    println!("{:<34}{:>18}  {jobs:>18}  ratio", format!("batch over {FILES} files, n 8"), "1 job");
    for k in [4, 16, 64, 256] {
        let (claim, proof) = sheets(k);
        let folder = Folder::new("bench");
        let times = (64 / k).max(1);
        let list = write(&folder, &[claim.bytes(), proof.bytes()].concat(), times);
        let [one, all] = speeds(&list, [1, cores]).map(|lists| lists * (FILES * times) as f64);
        let t = claim.terms.len();
        println!("{name:<21} k {k:<3} t {t:<3}{one:>18.0}  {all:>18.0}  {:>5.2}", all / one);
    }
}

/// Writes the files and their list, and says where that is.
fn write(folder: &Folder, sheet: &[u8], times: usize) -> String {
    let file = |index| folder.write(&format!("{index}.sheet"), sheet) + "\n";
    let lines: String = (0..FILES).map(file).collect();
    folder.write("list", lines.repeat(times))
}

/// How often a second the list is checked with each number of jobs; these take turns.
fn speeds(list: &str, jobs: [usize; 2]) -> [f64; 2] {
    let mut best = [0.0_f64; 2];
    for _ in 0..RUNS {
        for (best, jobs) in best.iter_mut().zip(jobs) {
            *best = best.max(speed(list, jobs));
        }
    }
    best
}

/// The speed of one run, from its start to its end.
fn speed(list: &str, jobs: usize) -> f64 {
    let start = Instant::now();
    let status = Command::new(command::path())
        .args(["batch", list, "--jobs", &jobs.to_string()])
        .stdout(Stdio::null())
        .stderr(Stdio::null())
        .status();
    assert!(status.is_ok_and(|status| status.success()), "all sheets are accepted");
    1.0 / start.elapsed().as_secs_f64()
}
