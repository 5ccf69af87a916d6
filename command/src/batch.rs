//! `burmelox batch`: many checks, by several threads, with results in the order of their list.

use crate::arguments::{Arguments, Opt, Subcommand, PROFILE};
use crate::files::failed;
use crate::list::{Entry, List};
use crate::output;
use crate::profiles;
use crate::progress::Progress;
use crate::results::{Form, Outcome, Results};
use crate::status::{trouble, Ending, Trouble};
use burmelox::Profile;
use std::sync::mpsc::{sync_channel, Receiver, SyncSender};
use std::thread::{self, available_parallelism, Scope};

pub const SUBCOMMAND: Subcommand = Subcommand {
    name: "batch",
    operands: "LIST",
    count: 1..=1,
    summary: "Checks many sheets, by several threads.",
    about: "\
A line of LIST names the files of a claim, its proof and its limits, with tabs
between them, or spaces where there is no tab. Limits may be left out or -, and
so may a proof that stands in the claim's file. A line that begins with # is a
comment. One line a result, in the list's order: the verdict, a tab, the line of
the list. The summary goes to standard error.
",
    options: &[
        Opt::new("--jobs", "N", "so many threads; without it one for each core"),
        Opt::new("-o", "RESULTS", "append results to a file, which is not there yet or empty"),
        Opt::new("--resume", "", "keep the results in that file, and go on after them"),
        PROFILE,
    ],
    run,
};

/// How many lines wait for each thread at most, and how many of its results.
const WAITING: usize = 64;

/// The most threads.
const MOST_JOBS: usize = 1024;

fn run(arguments: &Arguments) -> Ending {
    let profile = profiles::given(arguments)?.unwrap_or(Profile::FULL);
    let jobs = jobs(arguments)?;
    let mut list = List::open(&arguments.operands[0])?;
    let form = if arguments.has("--json") { Form::Json } else { Form::Lines };
    let mut results = match (arguments.value("-o"), arguments.has("--resume")) {
        (Some(name), true) => Results::resumed(name, form, &mut list)?,
        (Some(name), false) => Results::new(name, form)?,
        (None, true) => return trouble("batch: --resume needs the results' file, after -o"),
        (None, false) => Results::printed(form)?,
    };
    let mut progress = Progress::new(list.length(), results.is_on_terminal());
    let ended = check_all(&mut list, jobs, profile, |entry, outcome| {
        results.add(entry, outcome)?;
        progress.step(entry);
        Ok(())
    });
    progress.end();
    ended?;
    output::complain(&results.summary(progress.seconds()));
    Ok(results.status())
}

fn jobs(arguments: &Arguments) -> Result<usize, Trouble> {
    match arguments.number("--jobs")? {
        None => Ok(available_parallelism().map_or(1, usize::from)),
        Some(jobs) if (1..=MOST_JOBS).contains(&jobs) => Ok(jobs),
        Some(_) => trouble(format!("--jobs: expected a number from 1 to {MOST_JOBS}")),
    }
}

/// Checks all that is left of the list, and hands the outcomes over in its order.
///
/// Lines go to the threads in turn and outcomes are taken from them in turn, so that the order
/// needs no bookkeeping. Both wait in queues of bounded length: a slow line holds up those behind
/// it, and memory does not grow with the list.
fn check_all(
    list: &mut List,
    jobs: usize,
    profile: Profile,
    mut take: impl FnMut(&Entry, &Outcome) -> Result<(), Trouble>,
) -> Result<(), Trouble> {
    thread::scope(|scope| {
        let (lines, outcomes): (Vec<_>, Vec<_>) = (0..jobs).map(|_| start(scope, profile)).unzip();
        let reader = scope.spawn(move || hand_on(list, &lines));
        for outcomes in outcomes.iter().cycle() {
            let Ok((entry, outcome)) = outcomes.recv() else { break };
            take(&entry, &outcome)?;
        }
        drop(outcomes);
        reader.join().expect("the reader does not panic")
    })
}

type Lines = SyncSender<Entry>;
type Outcomes = Receiver<(Entry, Outcome)>;

/// Starts a thread that checks the lines it is sent.
fn start<'scope>(scope: &'scope Scope<'scope, '_>, profile: Profile) -> (Lines, Outcomes) {
    let (lines, waiting) = sync_channel::<Entry>(WAITING);
    let (sender, outcomes) = sync_channel(WAITING);
    scope.spawn(move || {
        for entry in waiting {
            let outcome = Outcome::of(&entry, profile);
            if sender.send((entry, outcome)).is_err() {
                break;
            }
        }
    });
    (lines, outcomes)
}

/// Sends the lines of the list to the threads in turn, until one of them is gone.
fn hand_on(list: &mut List, threads: &[Lines]) -> Result<(), Trouble> {
    for thread in threads.iter().cycle() {
        let next = list.next().map_err(|error| failed(list.name(), &error))?;
        let Some(entry) = next else { break };
        if thread.send(entry).is_err() {
            break;
        }
    }
    Ok(())
}
